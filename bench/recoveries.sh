#!/bin/bash
# Times `drsim run` on recoveries of a session of sixteen members on two servers: the first takes over all secondaries and reverts what
# was flashed, and each later one looks at all of them again. The program is crates/drsim/out/drsim (`rt run` leaves it there). There
# are 20,000 such lines, and then 40,000. It must grow linearly.
source "$(dirname "$0")/timing.sh"

session() {
    printf '@server A1\n@server A2\n@server B1\n@server B2\n'
    printf '@volume 1000-1007 A1 4\n@volume 1100-1107 A2 4\n@volume 2000-2007 B1 4\n@volume 2100-2107 B2 4\n@volume 3000-3007 B1 4\n@volume 3100-3107 B2 4\n'
    printf 'mkpprcpath -srclss 10 -tgtlss 20 I0000:I0100\nmkpprcpath -srclss 11 -tgtlss 21 I0000:I0100\n'
    printf 'mkpprc -type gcp -mode nocp 1000-1007:2000-2007 1100-1107:2100-2107\n'
    printf 'mkflash -tgtinhibit -record -nocp 2000-2007:3000-3007 2100-2107:3100-3107\n'
    printf 'mksession -lss 10 -volume 1000-1007 01\nmksession -lss 11 -volume 1100-1107 01\nmkgmir -lss 10 -session 01\n'
    printf '@write 1000 0 0 41\n@write 1100 0 0 42\n@run 01 1\n@write 1000 0 0 43\n'
    printf '@exchange 01 A1\n@exchange 01 A2\n@exchange 01 A1\n@exchange 01 A2\n'
    for a in 0 1 2 3 4 5 6 7; do printf '@drain 100%d all\n@drain 110%d all\n' $a $a; done
    printf '@exchange 01 A1\n@exchange 01 A2\n@exchange 01 A1\n@stop A1\n@stop A2\n'
}

for lines in 20000 40000; do
    {
        session
        for ((n = 0; n < lines; n++)); do printf '@recover 01\n'; done
    } > "$scratch/script"
    time_script
    tail -1 "$scratch/answers"
    echo "recoveries of sixteen members, $lines: $least ms, $((lines * 1000 / least)) lines a second"
done
