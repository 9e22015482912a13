#!/bin/bash
# Times `drsim run` on the way back: pairs of 256 tracks are taken over, each track is written on at the second site, and all is sent
# home and compared. The program is crates/drsim/out/drsim (`rt run` leaves it there). There are 8 pairs, and then 16 and 32. It must grow
# linearly in the tracks that are sent, but for the looks at all volumes.
source "$(dirname "$0")/timing.sh"

way_back() { # PAIRS
    local last
    last=$(printf '%02X' $(($1 - 1)))
    printf '@server A\n@server B\n@volume 1000-10%s A 256\n@volume 2000-20%s B 256\n' "$last" "$last"
    printf 'mkpprcpath -srclss 10 -tgtlss 20 I0000:I0100\nmkpprcpath -srclss 20 -tgtlss 10 I0100:I0000\n'
    printf 'mkpprc -type gcp -mode nocp 1000-10%s:2000-20%s\n' "$last" "$last"
    printf 'failoverpprc -type gcp 2000-20%s:1000-10%s\n' "$last" "$last"
    for ((i = 0; i < $1; i++)); do
        for ((t = 0; t < 256; t++)); do printf '@write 20%02X %d 0 41\n' "$i" "$t"; done
    done
    printf 'failbackpprc -type gcp 2000-20%s:1000-10%s\n' "$last" "$last"
    for ((i = 0; i < $1; i++)); do printf '@drain 20%02X all\n@compare 20%02X 10%02X\n' "$i" "$i" "$i"; done
}

for pairs in 8 16 32; do
    way_back "$pairs" > "$scratch/script"
    time_script
    if grep -v ' ok' "$scratch/answers"; then exit 1; fi
    echo "the way back of $pairs pairs, $((pairs * 256)) tracks: $least ms, $((pairs * 256 * 1000 / least)) tracks a second"
done
