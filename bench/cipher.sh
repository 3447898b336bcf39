#!/usr/bin/env bash
# Seals frames of level 2 and 3 with 1, 16 and 104 command octets, and prints for each how many frames a second one
# processor seals and, where valgrind is installed, how many instructions a block of the cipher takes with all that
# stands around it. Where mbedTLS's headers and libmbedcrypto.a are installed, that seals the same frames in the same
# run: with its tables, and with the processor's AES instructions, each with how much faster it is. Each frame expands its
# key. It judges no figure.
set -u
cd "$(dirname "$0")/.."
program=crates/gp_bench/out/gp_bench
if [ ! -x "$program" ]; then
    echo "bench: no proved program; run 'rt run -- cipher 3 16 1000' in crates/gp_bench first" >&2
    exit 0
fi
rm -rf bench/out
mkdir -p bench/out
frames=${FRAMES:-200000}

library=$(ls /usr/lib/*/libmbedcrypto.a 2>/dev/null | head -1)
if [ -n "$library" ]; then
    cc -O2 -DTABLES bench/peer.c -o bench/out/tables "$library" -Wl,-z,muldefs ||
        echo "bench: the peer with tables can't be built" >&2
    cc -O2 bench/peer.c -o bench/out/instructions "$library" ||
        echo "bench: the peer with the processor's instructions can't be built" >&2
else
    echo "bench: no libmbedcrypto.a to compare with" >&2
fi

# how many blocks one frame takes: level, octets
blocks() {
    if [ "$1" = 2 ]; then echo $((2 + (10 + $2 + 2 + 15) / 16)); else echo $((3 + 2 * (($2 + 15) / 16))); fi
}

# seconds of the best of five runs: program, level, octets
seconds() {
    local best=""
    for _ in 1 2 3 4 5; do
        local begin end
        begin=$(date +%s%N)
        "$1" cipher "$2" "$3" "$frames" >/dev/null
        end=$(date +%s%N)
        local took=$((end - begin))
        if [ -z "$best" ] || [ "$took" -lt "$best" ]; then best=$took; fi
    done
    echo "$best"
}

# instructions of a run: program, level, octets, frames
instructions() {
    valgrind --tool=callgrind --callgrind-out-file=/dev/null "$1" cipher "$2" "$3" "$4" 2>&1 |
        sed -n 's/^==[0-9]*== Collected : \([0-9]*\).*/\1/p'
}

# a line of figures: name, program, level, octets
line() {
    [ -x "$2" ] || return 0
    local nanoseconds count per=-
    nanoseconds=$(seconds "$2" "$3" "$4")
    count=$(blocks "$3" "$4")
    if command -v valgrind >/dev/null; then
        local few many
        few=$(instructions "$2" "$3" "$4" 1000)
        many=$(instructions "$2" "$3" "$4" 2000)
        [ -n "$few" ] && [ -n "$many" ] && per=$(((many - few) / 1000 / count))
    fi
    if [ "$1" = gp ]; then own=$nanoseconds; fi
    printf '%-22s level %s octets %3s blocks %2s frames/s %9s instructions/block %5s ratio %s\n' \
        "$1" "$3" "$4" "$count" "$((frames * 1000000000 / nanoseconds))" "$per" \
        "$(awk -v own="$own" -v other="$nanoseconds" 'BEGIN { printf "%.2f", own / other }')"
}

for level in 2 3; do
    for octets in 1 16 104; do
        line "gp" "$program" "$level" "$octets"
        line "mbedTLS, tables" bench/out/tables "$level" "$octets"
        line "mbedTLS, AES-NI" bench/out/instructions "$level" "$octets"
    done
done
