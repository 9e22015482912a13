#!/bin/bash
# Times `trial 0` and `run` on its script (the least of three runs each), and a thousand trials, in milliseconds each.
source "$(dirname "$0")/timing.sh"
program=$PWD/crates/drsim/out/drsim

milliseconds_of() { # INPUT WORD...: the least of three runs
    local round begin spent least=0 input=$1
    shift
    for ((round = 0; round < 3; round++)); do
        begin=$(date +%s%N)
        "$program" "$@" < "$input" > "$scratch/answers"
        spent=$((($(date +%s%N) - begin) / 1000000 + 1))
        if ((least == 0 || spent < least)); then least=$spent; fi
    done
    echo "$least"
}

python3 bench/trial_script.py 0 > "$scratch/script"
"$program" run < "$scratch/script" > "$scratch/answers" || true
echo "trial 0: $(milliseconds_of /dev/null trial 0) ms, run on its script: $(milliseconds_of "$scratch/script" run || true) ms"
begin=$(date +%s%N)
for ((number = 1; number <= 1000; number++)); do "$program" trial "$number" > /dev/null; done
echo "1,000 trials: $((($(date +%s%N) - begin) / 1000000000)) ms each"
