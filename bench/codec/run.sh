#!/bin/sh
# How many messages are read and written in a second: run.sh [-n TURNS] [-r RUNS] [-m MESSAGES] [COMMAND [ARG..]]
# COMMAND is another codec, measured beside ours. bench/README.md says what it has to do.
set -eu

turns=100000
runs=5
here=$(cd "$(dirname "$0")" && pwd)
messages=$here/../../crates/codec_bench/stdin
while getopts n:r:m: option; do
    case $option in
    n) turns=$OPTARG ;;
    r) runs=$OPTARG ;;
    m) messages=$OPTARG ;;
    *) exit 2 ;;
    esac
done
shift $((OPTIND - 1))

room=$(mktemp -d)
trap 'rm -rf "$room"' EXIT

# Proves and builds ours, where something has changed.
crate=$here/../../crates/codec_bench
(cd "$crate" && rt run -- 0 0 </dev/null) >"$room/log" 2>&1 || {
    cat "$room/log" >&2
    exit 1
}

count=$(grep -c . "$messages")
total=$((turns * count))

# Runs a codec with its counts of turns, adds the nanoseconds to a list, and looks at what it says it did.
measure() {
    list=$1
    reads=$2
    writes=$3
    shift 3
    start=$(date +%s%N)
    "$@" "$reads" "$writes" <"$messages" >"$room/out"
    end=$(date +%s%N)
    echo $((end - start)) >>"$room/$list"
    for line in "read $((reads * count))" "written $((writes * count))"; do
        grep -qx "$line" "$room/out" || {
            echo "$1: no line '$line' in its output" >&2
            exit 1
        }
    done
}

# Measures a codec once: with nothing to do, reading alone, writing alone.
round() {
    name=$1
    shift
    measure "$name.none" 0 0 "$@"
    measure "$name.read" "$turns" 0 "$@"
    measure "$name.written" 0 "$turns" "$@"
}

least() {
    sort -n "$room/$1" | head -n 1
}

# Messages in a second: the least time, without the time of doing nothing.
rate() {
    awk -v took="$(least "$1.$2")" -v none="$(least "$1.none")" -v total="$total" \
        'BEGIN { if (took > none) printf "%.0f", total / (took - none) * 1e9; else printf "-" }'
}

run=0
while [ "$run" -lt "$runs" ]; do
    round ours "$crate/out/codec_bench"
    if [ $# -gt 0 ]; then round other "$@"; fi
    run=$((run + 1))
done

echo "$count messages, $turns turns, best of $runs"
printf '%-20s %14s %14s\n' codec 'read/s' 'written/s'
printf '%-20s %14s %14s\n' balthiri "$(rate ours read)" "$(rate ours written)"
if [ $# -gt 0 ]; then
    printf '%-20s %14s %14s\n' "$(basename "$1")" "$(rate other read)" "$(rate other written)"
fi
