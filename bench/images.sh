#!/bin/bash
# Times `@image` of 16, 32 and 64 volumes of 256 tracks, each track of them filled, less the run that fills them. The program is
# crates/drsim/out/drsim (`rt run` leaves it there). It must grow linearly with the text.
source "$(dirname "$0")/timing.sh"

filled() { # VOLUMES
    local v t bytes
    bytes=$(printf 'A5%.0s' {1..64})
    printf '@server A\n@volume 1000-10%02X A 256\n' $(($1 - 1))
    for ((v = 0; v < $1; v++)); do
        for ((t = 0; t < 256; t++)); do printf '@write 10%02X %d 0 %s\n' "$v" "$t" "$bytes"; done
    done
}

for volumes in 16 32 64; do
    filled "$volumes" > "$scratch/script"
    time_script
    without=$least
    size=$(stat -c %s "$scratch/answers")
    # Ten images, so that their time stands out.
    for ((n = 0; n < 10; n++)); do echo '@image'; done >> "$scratch/script"
    time_script
    size=$((($(stat -c %s "$scratch/answers") - size) / 10))
    echo "an image of $volumes volumes of 256 tracks, $size bytes: $(((least - without) / 10)) ms"
done
