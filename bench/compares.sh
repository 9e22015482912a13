#!/bin/bash
# Times `drsim run` on comparisons of two equal volumes of 256 tracks: 10,000, and then 20,000. The program is
# crates/drsim/out/drsim (`rt run` leaves it there). It must grow linearly.
source "$(dirname "$0")/timing.sh"

for lines in 10000 20000; do
    {
        printf '@server A\n@server B\n@volume 1000 A 256\n@volume 2000 B 256\n'
        for ((t = 0; t < 256; t++)); do printf '@write 1000 %d 0 41\n@write 2000 %d 0 41\n' "$t" "$t"; done
        for ((n = 0; n < lines; n++)); do printf '@compare 1000 2000\n'; done
    } > "$scratch/script"
    time_script
    tail -1 "$scratch/answers"
    echo "$lines comparisons of 256 tracks: $least ms, $((lines * 1000 / least)) a second"
done
