#!/bin/sh
# Instructions an octet, reading and writing GTPv2-C and Diameter: run.sh [-n TURNS]. It needs valgrind. bench/README.md says what is counted.
set -eu

turns=100
while getopts n: option; do
    case $option in
    n) turns=$OPTARG ;;
    *) exit 2 ;;
    esac
done

room=$(mktemp -d)
trap 'rm -rf "$room"' EXIT

here=$(cd "$(dirname "$0")" && pwd)
root=$(cd "$here/../.." && pwd)

# A repository of its own: the crates of both protocols, with what is built of them, and the program over them.
for name in echo_base device_types tlv_elements gtp2_ies dia_avps gtp2_wire dia_wire; do
    mkdir -p "$room/crates/$name/out"
    grep "^$name[: ]" "$root/crates.txt" >>"$room/crates.txt"
    for part in src specs proofs out/rlib; do
        if [ -d "$root/crates/$name/$part" ]; then cp -a "$root/crates/$name/$part" "$room/crates/$name/$part"; fi
    done
done
cp "$root/HANDLES" "$room/"
echo 'wire_bench: echo_base device_types gtp2_wire dia_wire anyhow' >>"$room/crates.txt"
crate=$room/crates/wire_bench
mkdir -p "$crate/src"
cp "$here/main.txt" "$crate/src/main.rt"

# Proves and builds it.
(cd "$crate" && rt run -- gtp 0 0 </dev/null) >"$room/log" 2>&1 || {
    cat "$room/log" >&2
    exit 1
}

# The worked messages of a protocol.
messages() {
    sed -n 's/^\([0-9a-f]\{24,\}\) .*/\1/p' "$root/crates/wire_cases/src/$1_worked.rt"
}

# How many instructions the program takes with these words over the messages of a file.
instructions() {
    valgrind --tool=callgrind --callgrind-out-file=/dev/null "$crate/out/wire_bench" "$@" <"$room/messages" 2>&1 >/dev/null |
        sed -n 's/.*Collected : \([0-9]*\).*/\1/p'
}

printf '%-10s %10s %14s %14s\n' protocol octets read/octet written/octet
for protocol in gtp dia; do
    case $protocol in
    gtp) messages gtp2 >"$room/messages" ;;
    dia) messages dia >"$room/messages" ;;
    esac
    octets=$(awk '{ total += length($0) / 2 } END { print total }' "$room/messages")
    none=$(instructions "$protocol" 1 1)
    read=$(instructions "$protocol" $((turns + 1)) 1)
    written=$(instructions "$protocol" 1 $((turns + 1)))
    awk -v name="$protocol" -v octets="$octets" -v turns="$turns" -v none="$none" -v read="$read" -v written="$written" \
        'BEGIN { printf "%-10s %10d %14.1f %14.1f\n", name, octets, (read - none) / turns / octets, (written - none) / turns / octets }'
done
