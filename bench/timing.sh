# What the benchmarks share, to be sourced by them: a scratch folder that goes with them, and the time of the program.
set -e
scratch=$(mktemp -d)
trap 'rm -rf "$scratch"' EXIT
cd "$(dirname "${BASH_SOURCE[0]}")/.."

# Runs the program three times on $scratch/script, leaves its answers in $scratch/answers, and the fewest milliseconds that it
# took in $least.
time_script() {
    least=0
    for ((round = 0; round < 3; round++)); do
        begin=$(date +%s%N)
        crates/drsim/out/drsim run < "$scratch/script" > "$scratch/answers"
        spent=$((($(date +%s%N) - begin) / 1000000 + 1))
        if ((least == 0 || spent < least)); then least=$spent; fi
    done
}

microseconds_of() { # PROGRAM ANSWERS: of one run on $scratch/script
    local begin
    begin=$(date +%s%N)
    "$1" ${words:-run} < "$scratch/script" > "$2" || true
    echo $((($(date +%s%N) - begin) / 1000 + 1))
}

instructions_of() { # PROGRAM: of one run on $scratch/script, by callgrind
    valgrind --tool=callgrind --callgrind-out-file="$scratch/profile" "$1" ${words:-run} < "$scratch/script" 2>&1 > "$scratch/answers" | sed -n 's/.*Collected : //p'
}

# Runs two programs in turn on $scratch/script, compares what they print, and says the least time of each and their ratio.
compare_programs() { # OLD NEW ROUNDS NAME
    local round spent old=0 new=0
    for ((round = 0; round < $3; round++)); do
        spent=$(microseconds_of "$1" "$scratch/old")
        if ((old == 0 || spent < old)); then old=$spent; fi
        spent=$(microseconds_of "$2" "$scratch/new")
        if ((new == 0 || spent < new)); then new=$spent; fi
    done
    cmp "$scratch/old" "$scratch/new"
    echo "$4: before $((old / 1000)) ms, now $((new / 1000)) ms, $((old / new)).$((old * 10 / new % 10))$((old * 100 / new % 10)) times as fast"
}
