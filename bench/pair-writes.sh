#!/bin/bash
# Times `drsim run` on host writes on a primary of Global Copy, and on drains. The program is crates/drsim/out/drsim (`rt run`
# leaves it there). Writes: 50,000 lines, and then 100,000, the most that a script may have. Drains: a pair of so many tracks is
# made, drained and removed 250 times. Both must grow linearly.
source "$(dirname "$0")/timing.sh"

pair_of() { # TRACKS
    printf '@server P\n@server Q\n@volume 1000 P %d\n@volume 2000 Q %d\n' "$1" "$1"
    echo 'mkpprcpath -srclss 10 -tgtlss 20 I0000:I0100'
}

writes_of() { # LINES
    pair_of 256
    echo 'mkpprc -type gcp 1000:2000'
    for ((i = 6; i < $1; i++)); do
        echo "@write 1000 $((i % 256)) $((i % 60)) 41424344"
    done
}

drains_of() { # TRACKS
    pair_of "$1"
    for ((i = 0; i < 250; i++)); do
        printf 'mkpprc -type gcp 1000:2000\n@drain 1000 all\nrmpprc 1000:2000\n'
    done
}

for lines in 50000 100000; do
    writes_of "$lines" > "$scratch/script"
    time_script
    echo "writes on a primary, $lines lines: $least ms, $((lines * 1000 / least)) lines a second"
done
for tracks in 64 128 256; do
    drains_of "$tracks" > "$scratch/script"
    time_script
    echo "250 drains of $tracks tracks: $least ms, $((250 * tracks * 1000 / least)) tracks a second"
done
