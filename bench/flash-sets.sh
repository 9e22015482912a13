#!/bin/bash
# Times `drsim run` on flash sets: 12 sources on two servers are held and copied, a host write on one of them waits, they are let go, the
# write lands, and the relationships are ended. The program is crates/drsim/out/drsim (`rt run` leaves it there). There are 5,000 such
# rounds, and then 10,000, which nearly fill a journal. It must grow linearly.
source "$(dirname "$0")/timing.sh"

script_of() { # ROUNDS
    printf '@server A\n@server B\n@volume 1000-1005 A 2\n@volume 1100-1105 A 2\n@volume 2000-2005 B 2\n@volume 2100-2105 B 2\n'
    for ((n = 0; n < $1; n++)); do
        printf 'mkflash -nocp -freeze 1000-1005:1100-1105 2000-2005:2100-2105\n'
        printf '@write %d00%d 0 0 %02X\n' $((n % 2 + 1)) $((n / 2 % 6)) $((n % 256))
        printf 'unfreezeflash 10 20\n@apply %d\nrmflash 1000-1005:1100-1105 2000-2005:2100-2105\n' $((n + 1))
    done
}

for rounds in 5000 10000; do
    script_of "$rounds" > "$scratch/script"
    time_script
    if [ "$(grep -c ' held w' "$scratch/answers")" -ne "$rounds" ] || grep -q ' E' "$scratch/answers"; then exit 1; fi
    echo "sets of 12 sources, $rounds: $least ms, $((rounds * 1000 / least)) a second"
done
