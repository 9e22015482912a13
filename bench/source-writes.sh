#!/bin/bash
# Times `drsim run` on host writes on the source of FlashCopy targets: one target, and 12, that hold all tracks. The program is
# crates/drsim/out/drsim (`rt run` leaves it there). 50,000 lines, and then 100,000, the most that a script may have: the cost
# must grow linearly.
source "$(dirname "$0")/timing.sh"

script_of() { # TARGETS LINES
    echo '@server A'
    printf '@volume 1000-%04X A 256\n' $((0x1000 + $1))
    for ((t = 1; t <= $1; t++)); do printf 'mkflash -persist 1000:%04X\n@copy %04X all\n' $((0x1000 + t)) $((0x1000 + t)); done
    for ((i = 2 + 2 * $1; i < $2; i++)); do
        echo "@write 1000 $((i % 256)) $((i % 60)) 41424344"
    done
}

for targets in 0 1 12; do
    for lines in 50000 100000; do
        script_of "$targets" "$lines" > "$scratch/script"
        time_script
        echo "$targets targets, $lines lines: $least ms, $((lines * 1000 / least)) lines a second"
    done
done
