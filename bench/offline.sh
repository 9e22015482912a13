#!/bin/bash
# Times `drsim recover` on an image of 63 volumes of 256 tracks, each track of primaries, secondaries and targets filled: 21 members
# of a session with one group. The program is crates/drsim/out/drsim (`rt run` leaves it there).
source "$(dirname "$0")/timing.sh"

session() {
    local v t bytes
    bytes=$(printf 'A5%.0s' {1..64})
    printf '@server A\n@server B\n@volume 1000-1014 A 256\n@volume 2000-2014 B 256\n@volume 3000-3014 B 256\n'
    printf 'mkpprcpath -srclss 10 -tgtlss 20 I0000:I0100\nmkpprc -type gcp -mode nocp 1000-1014:2000-2014\n'
    printf 'mkflash -tgtinhibit -record -nocp 2000-2014:3000-3014\nmksession -lss 10 -volume 1000-1014 01\nmkgmir -lss 10 -session 01\n'
    for ((v = 0; v < 21; v++)); do
        for ((t = 0; t < 256; t++)); do printf '@write 10%02X %d 0 %s\n' "$v" "$t" "$bytes"; done
    done
    # The second group makes the targets hold what the first one brought.
    printf '@run 01 1\n'
    for ((v = 0; v < 21; v++)); do
        for ((t = 0; t < 256; t++)); do printf '@write 10%02X %d 0 %s\n' "$v" "$t" "${bytes//A5/5A}"; done
    done
    printf '@run 01 1\n@image\n'
}

session > "$scratch/script"
crates/drsim/out/drsim run < "$scratch/script" | sed -n '/^image 1$/,/^end$/p' > "$scratch/image"
least=0
for ((round = 0; round < 3; round++)); do
    begin=$(date +%s%N)
    crates/drsim/out/drsim recover 01 < "$scratch/image" > "$scratch/answers"
    spent=$((($(date +%s%N) - begin) / 1000000 + 1))
    if ((least == 0 || spent < least)); then least=$spent; fi
done
head -1 "$scratch/answers"
echo "recovery of 21 members from an image of $(stat -c %s "$scratch/image") bytes: $least ms"
