#!/usr/bin/env bash
# Prints how many milliseconds a recovery takes of a disk of 1,024 rows with both slots of each open, and how many a
# commit of a counter floor takes there. The disk is in memory, and each figure is the difference of two runs of the
# proved program, each the best of five. It judges no figure.
set -u
cd "$(dirname "$0")/.."
program=crates/gp_bench/out/gp_bench
if [ ! -x "$program" ]; then
    echo "bench: no proved program; run 'rt run -- store 16 3 100' in crates/gp_bench first" >&2
    exit 0
fi
rows=${ROWS:-1024}
recoveries=${RECOVERIES:-100}
floors=${FLOORS:-20000}

# nanoseconds of the best of five runs: recoveries, floors
nanoseconds() {
    local best=""
    for _ in 1 2 3 4 5; do
        local begin end
        begin=$(date +%s%N)
        "$program" store "$rows" "$1" "$2" >/dev/null || return 1
        end=$(date +%s%N)
        local took=$((end - begin))
        if [ -z "$best" ] || [ "$took" -lt "$best" ]; then best=$took; fi
    done
    echo "$best"
}

filled=$(nanoseconds 0 0) || exit 0
recovered=$(nanoseconds "$recoveries" 0)
raised=$(nanoseconds 0 "$floors")
awk -v rows="$rows" -v recover=$(((recovered - filled) / recoveries)) -v floor=$(((raised - filled) / floors)) \
    'BEGIN { printf "%d rows: %.3f ms a recovery, %.4f ms a commit of a floor\n", rows, recover / 1e6, floor / 1e6 }'
