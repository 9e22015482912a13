#!/bin/bash
# Times `drsim run` on host writes on primaries of Global Copy that record, on two servers, with exchanges and drains in between. The
# program is crates/drsim/out/drsim (`rt run` leaves it there). A round is an attempt of a session with two members, from the
# first hold to its abort, around sixty-four writes; there are 50,000 lines, and then 100,000, the most that a script may have. It must grow linearly.
source "$(dirname "$0")/timing.sh"

session() {
    printf '@server A1\n@server A2\n@server B1\n@server B2\n'
    printf '@volume 1000 A1 64\n@volume 1100 A2 64\n@volume 2000 B1 64\n@volume 2100 B2 64\n@volume 3000 B1 64\n@volume 3100 B2 64\n'
    printf 'mkpprcpath -srclss 10 -tgtlss 20 I0000:I0100\nmkpprcpath -srclss 11 -tgtlss 21 I0000:I0100\n'
    printf 'mkpprc -type gcp -mode nocp 1000:2000\nmkpprc -type gcp -mode nocp 1100:2100\n'
    printf 'mkflash -tgtinhibit -record -nocp 2000:3000\nmkflash -tgtinhibit -record -nocp 2100:3100\n'
    printf 'mksession -lss 10 -volume 1000 01\nmksession -lss 11 -volume 1100 01\nmkgmir -lss 10 -session 01\n'
}

round() { # N: eighty lines
    for ((i = 0; i < 32; i++)); do
        printf '@write 1000 %d 0 %02X\n@write 1100 %d 0 %02X\n' $((i * 2 % 64)) $(($1 % 256)) $((i * 2 % 64)) $(($1 % 256))
    done
    printf '@exchange 01 A1\n@exchange 01 A2\n@exchange 01 A1\n@exchange 01 A2\n'
    printf '@write 1000 1 0 %02X\n@write 1100 1 0 %02X\n@write 1000 2 0 %02X\n@write 1100 2 0 %02X\n' $(($1 % 256)) $(($1 % 256)) $(($1 % 256)) $(($1 % 256))
    printf '@drain 1000 all\n@drain 1100 all\n@exchange 01 A1\n@exchange 01 A1\n@exchange 01 A2 noreply\n@abort 01\n@exchange 01 A1\n@exchange 01 A2\n'
}

script_of() { # LINES
    session
    for ((n = 0; n < ($1 - 19) / 80; n++)); do round "$n"; done
}

for lines in 50000 100000; do
    script_of "$lines" > "$scratch/script"
    time_script || true
    echo "writes around attempts, $(wc -l < "$scratch/script") lines: $least ms, $((lines * 1000 / least)) lines a second"
done
