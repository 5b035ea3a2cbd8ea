#!/bin/sh
# Commits in a second to a store on a disk, in memory and on a file, and what opening it again takes: run.sh [-r RUNS] [-m 'COMMITS ..']
# [-f 'COMMITS ..'] [-d FOLDER]. bench/README.md says what is measured.
set -eu

runs=3
memory='10000 20000 100000 200000'
file='200 400'
folder=${TMPDIR:-/tmp}
while getopts r:m:f:d: option; do
    case $option in
    r) runs=$OPTARG ;;
    m) memory=$OPTARG ;;
    f) file=$OPTARG ;;
    d) folder=$OPTARG ;;
    *) exit 2 ;;
    esac
done

here=$(cd "$(dirname "$0")" && pwd)
root=$(cd "$here/../.." && pwd)
room=$(mktemp -d)
trap 'rm -rf "$room" "$folder/disk_bench.$$"' EXIT

# A repository of its own: the crates that disk_cases stands on, with what is built of them, and the program over its law and store.
names=$(awk -F: '/^[a-z]/ { split($1, words, " "); below[words[1]] = $2 }
    END {
        wanted["disk_cases"]
        for (more = 1; more;) {
            more = 0
            for (name in below)
                if (name in wanted) {
                    count = split(below[name], deps, " ")
                    for (i = 1; i <= count; i++)
                        if (deps[i] in below && !(deps[i] in wanted)) { wanted[deps[i]]; more = 1 }
                }
        }
        for (name in wanted) print name
    }' "$root/crates.txt")
for name in $names; do
    mkdir -p "$room/crates/$name/out"
    grep "^$name[: ]" "$root/crates.txt" >>"$room/crates.txt"
    for part in src specs proofs out/rlib; do
        if [ -d "$root/crates/$name/$part" ]; then cp -a "$root/crates/$name/$part" "$room/crates/$name/$part"; fi
    done
done
cp "$root/HANDLES" "$room/"

crate=$room/crates/disk_bench
cases=$room/crates/disk_cases
mkdir -p "$crate/src"
cp -a "$cases/specs" "$cases/proofs" "$crate/"
cp "$cases/src/numbered_law.rt" "$cases/src/two_devices.rt" "$crate/src/"
cp "$here/main.txt" "$crate/src/main.rt"
find "$crate" -type f -exec sed -i 's/disk_cases/disk_bench/g' {} +
sed -n 's/^disk_cases:/disk_bench: anyhow/p' "$room/crates.txt" >>"$room/crates.txt"

# Proves and builds it.
(cd "$crate" && rt run -- 1) >"$room/log" 2>&1 || {
    cat "$room/log" >&2
    exit 1
}

# The run of least time with so many commits, in memory or on that file: commits in a second, and milliseconds of the opening.
measure() {
    disk=$1
    commits=$2
    path=$3
    : >"$room/list"
    run=0
    while [ "$run" -lt "$runs" ]; do
        rm -f "$path"
        "$crate/out/disk_bench" "$commits" ${path:+"$path"} >>"$room/list"
        run=$((run + 1))
    done
    grep -qv "^$commits " "$room/list" && {
        echo "disk_bench $commits: not the commits that were asked for" >&2
        exit 1
    }
    written=$(sort -n -k 2 "$room/list" | awk 'NR == 1 { print $2 }')
    opened=$(sort -n -k 3 "$room/list" | awk 'NR == 1 { print $3 }')
    awk -v disk="$disk" -v n="$commits" -v w="$written" -v o="$opened" \
        'BEGIN { printf "%-7s %9d %12.0f %12.2f %14.0f\n", disk, n, n / w * 1e9, o / 1e6, o / n }'
}

echo "best of $runs"
printf '%-7s %9s %12s %12s %14s\n' disk commits 'commits/s' 'opening ms' 'ns a record'
for commits in $memory; do
    measure memory "$commits" ''
done
for commits in $file; do
    measure file "$commits" "$folder/disk_bench.$$"
done
