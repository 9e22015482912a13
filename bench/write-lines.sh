#!/bin/bash
# Times `drsim run` on scripts of host writes.
#
#   bench/write-lines.sh           the built program (crates/drsim/out/drsim; `rt run` leaves it there) on 50,000 lines,
#                                  and then on 100,000, the most that a script may have: the cost must grow linearly
#   bench/write-lines.sh OLD NEW   two programs in turn on the same 100,000 lines, seven times each: the least time of
#                                  each, and how many times as fast the second is. Their answers must be the same
programs=()
for program in "$@"; do programs+=("$(realpath "$program")"); done
source "$(dirname "$0")/timing.sh"

script_of() { # LINES
    echo '@server A'
    echo '@volume 1000 A 256'
    for ((i = 2; i < $1; i++)); do
        echo "@write 1000 $((i % 256)) $((i % 60)) 41424344"
    done
}

if [ $# -eq 2 ]; then
    script_of 100000 > "$scratch/script"
    compare_programs "${programs[@]}" 7 '100000 lines'
    exit
fi

for lines in 50000 100000; do
    script_of "$lines" > "$scratch/script"
    spent=$(($(microseconds_of crates/drsim/out/drsim "$scratch/answers") / 1000 + 1))
    echo "$lines lines: $spent ms, $((lines * 1000 / spent)) lines a second"
done
