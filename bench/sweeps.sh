#!/bin/bash
# Times `sweep rows` over plans of host writes on a member of a session of Global Mirror, one tried line each: how many points there are, and how
# many milliseconds they take (the least of three runs for the short plans, one run for the last). Each point repeats the plan up to its line.
source "$(dirname "$0")/timing.sh"
program=${1:-$PWD/crates/sweep/out/sweep}

plan() { # TRIED: so many tried lines
    cat << 'END'
@server A
@server B
@volume 1000 A 256
@volume 2000 B 256
@volume 3000 B 256
mkpprcpath -srclss 10 -tgtlss 20 I0010:I0140
mkpprc -type gcp -mode nocp 1000:2000
mkflash -tgtinhibit -record -nocp 2000:3000
mksession -lss 10 -volume 1000 01
mkgmir -lss 10 -session 01
#sweep lose A
#sweep use 3000 for 1000
#sweep here
END
    for ((line = 0; line < $1; line++)); do echo "@write 1000 $((line % 256)) $((line / 256)) 01"; done
    echo "#sweep then"
    echo "@recover 01"
}

for lines in 60 120 1000; do
    plan "$lines" > "$scratch/plan"
    least=0
    for ((round = 0; round < (lines < 1000 ? 3 : 1); round++)); do
        begin=$(date +%s%N)
        "$program" rows < "$scratch/plan" > "$scratch/rows" 2> /dev/null || [ $? -eq 1 ] # findings are none of its business
        spent=$((($(date +%s%N) - begin) / 1000000 + 1))
        if ((least == 0 || spent < least)); then least=$spent; fi
    done
    points=$(($(wc -l < "$scratch/rows") - 1))
    echo "$lines tried lines: $points points in $least ms, $((points * 1000 / least)) a second"
done
