#!/bin/sh
# Turns in a second on one value, behind a front and behind std's mutex: run.sh [-n TURNS] [-r RUNS] [-t 'THREADS ..']
# bench/README.md says what is measured.
set -eu

turns=2000000
runs=5
threads='1 2 4 8'
while getopts n:r:t: option; do
    case $option in
    n) turns=$OPTARG ;;
    r) runs=$OPTARG ;;
    t) threads=$OPTARG ;;
    *) exit 2 ;;
    esac
done

room=$(mktemp -d)
trap 'rm -rf "$room"' EXIT

here=$(cd "$(dirname "$0")" && pwd)
root=$(cd "$here/../.." && pwd)

# A repository of its own: front_cases and the crates that it stands on, with what is built of them, and the program over its value.
for name in device_types front_lock front_cases; do
    mkdir -p "$room/crates/$name/out"
    grep "^$name[: ]" "$root/crates.txt" >>"$room/crates.txt"
    for part in src specs proofs out/rlib; do
        if [ -d "$root/crates/$name/$part" ]; then cp -a "$root/crates/$name/$part" "$room/crates/$name/$part"; fi
    done
done
cp "$root/HANDLES" "$room/"
echo 'front_bench: device_types front_lock front_cases anyhow' >>"$room/crates.txt"
crate=$room/crates/front_bench
mkdir -p "$crate/src"
cp "$here/main.txt" "$crate/src/main.rt"

# Proves and builds it.
(cd "$crate" && rt run -- front 1 0) >"$room/log" 2>&1 || {
    cat "$room/log" >&2
    exit 1
}

# Runs the program with so many turns a thread, and adds to a list its nanoseconds, the seconds of processors and its switches of
# context.
measure() {
    list=$1
    shift
    start=$(date +%s%N)
    /usr/bin/time -o "$room/used" -f '%U %S %w %c' "$crate/out/front_bench" "$@" >"$room/out"
    end=$(date +%s%N)
    echo "$((end - start)) $(cat "$room/used")" >>"$room/$list"
    grep -qx "turns $(($2 * $3))" "$room/out" || {
        echo "front_bench $*: not the turns that were asked for" >&2
        exit 1
    }
}

# The run of least time: turns in a second, processors at work, and switches of context for 1,000 turns.
figures() {
    sort -n "$room/$1" | head -n 1 | awk -v total="$2" \
        '{ printf "%12.0f %6.2f %10.2f", total / $1 * 1e9, ($2 + $3) / $1 * 1e9, ($4 + $5) * 1000 / total }'
}

run=0
while [ "$run" -lt "$runs" ]; do
    for count in $threads; do
        for lock in front mutex; do
            measure "$lock.$count" "$lock" "$count" $((turns / count))
        done
    done
    run=$((run + 1))
done

echo "$turns turns in all, best of $runs"
printf '%7s %-6s %12s %6s %10s\n' threads lock 'turns/s' busy 'switches/k'
for count in $threads; do
    for lock in front mutex; do
        printf '%7s %-6s %s\n' "$count" "$lock" "$(figures "$lock.$count" $((turns / count * count)))"
    done
done
