#!/bin/bash
# Times `drsim run` on `lspprc` and `lsflash` lines over 64 volumes, a half of them in pairs and relationships with the others. The
# program is crates/drsim/out/drsim (`rt run` leaves it there). It must grow linearly.
source "$(dirname "$0")/timing.sh"

plant() {
    printf '@server A\n@server B\n@volume 1000-100F A 4\n@volume 2000-201F B 4\n@volume 3000-300F B 4\n'
    printf 'mkpprcpath -srclss 10 -tgtlss 20 I0000:I0100\nmkpprc -type gcp -mode nocp 1000-100F:2000-200F\n'
    printf 'mkflash -tgtinhibit -record -nocp 2000-200F:3000-300F\n'
}

for command in lspprc lsflash; do
    for lines in 45000 90000; do
        {
            plant
            for ((n = 0; n < lines; n++)); do printf '%s 20%02X\n' "$command" $((n % 32)); done
        } > "$scratch/script"
        time_script
        echo "$command, $lines lines over 64 volumes: $least ms, $((lines * 1000 / least)) lines a second"
    done
done
