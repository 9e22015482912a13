#!/bin/bash
# Times `drsim run` on groups that are formed one after another: a host write, and `@run 01 1` over a session of four members on two
# servers. The program is crates/drsim/out/drsim (`rt run` leaves it there). There are 20,000 such rounds, and then 40,000. It must
# grow linearly.
source "$(dirname "$0")/timing.sh"

session() {
    printf '@server A1\n@server A2\n@server B1\n@server B2\n'
    printf '@volume 1000-1001 A1 16\n@volume 1100-1101 A2 16\n@volume 2000-2001 B1 16\n@volume 2100-2101 B2 16\n@volume 3000-3001 B1 16\n@volume 3100-3101 B2 16\n'
    printf 'mkpprcpath -srclss 10 -tgtlss 20 I0000:I0100\nmkpprcpath -srclss 11 -tgtlss 21 I0000:I0100\n'
    printf 'mkpprc -type gcp -mode nocp 1000-1001:2000-2001 1100-1101:2100-2101\n'
    printf 'mkflash -tgtinhibit -record -nocp 2000-2001:3000-3001 2100-2101:3100-3101\n'
    printf 'mksession -lss 10 -volume 1000-1001 01\nmksession -lss 11 -volume 1100-1101 01\nmkgmir -lss 10 -session 01\n'
}

script_of() { # ROUNDS
    session
    for ((n = 0; n < $1; n++)); do
        printf '@write 1%d0%d %d 0 %02X\n@run 01 1\n' $((n % 2)) $((n / 2 % 2)) $((n % 16)) $((n % 256))
    done
}

for rounds in 20000 40000; do
    script_of "$rounds" > "$scratch/script"
    time_script
    echo "groups of four members, $rounds: $least ms, $((rounds * 1000 / least)) a second"
done
