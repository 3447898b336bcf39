#!/usr/bin/env bash
# Prints how many pairings a second are looked up by their SrcID in tables of 1, 32 and 1,024 rows: by halving, and by a look
# at each row from the first on. Each figure is the best of five runs of the proved program, less its time without look-ups.
# It judges no figure.
set -u
cd "$(dirname "$0")/.."
program=crates/gp_bench/out/gp_bench
if [ ! -x "$program" ]; then
    echo "bench: no proved program; run 'rt run -- rows 16 3 0' in crates/gp_bench first" >&2
    exit 0
fi
lookups=${LOOKUPS:-3000000}

# nanoseconds of the best of five runs: rows, look-ups, 1 for a scan
nanoseconds() {
    local best=""
    for _ in 1 2 3 4 5; do
        local begin end
        begin=$(date +%s%N)
        "$program" rows "$1" "$2" "$3" >/dev/null || return 1
        end=$(date +%s%N)
        local took=$((end - begin))
        if [ -z "$best" ] || [ "$took" -lt "$best" ]; then best=$took; fi
    done
    echo "$best"
}

for rows in 1 32 1024; do
    empty=$(nanoseconds "$rows" 0 0)
    halved=$(nanoseconds "$rows" "$lookups" 0)
    scanned=$(nanoseconds "$rows" "$lookups" 1)
    awk -v rows="$rows" -v count="$lookups" -v halved=$((halved - empty)) -v scanned=$((scanned - empty)) 'BEGIN {
        printf "%4d rows: %.1f million look-ups a second by halving, %.1f by a scan, ratio %.2f\n",
            rows, count * 1e3 / halved, count * 1e3 / scanned, scanned / halved }'
done
