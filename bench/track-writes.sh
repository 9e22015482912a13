#!/bin/bash
# Runs `drsim run` on 100,000 host writes of one volume of 256 tracks: on tracks drawn at random, where nearly every one lets another give way,
# and on one track alone, where none does; each where it is the only volume, and with 16 others beside it.
#
#   bench/track-writes.sh OLD NEW   two programs in turn on each load, seven times each: the least time of each, and their ratio. What they
#                                   print must be the same
#   bench/track-writes.sh PROGRAM   the instructions of a line, by callgrind: those of a load, less those of one with half of the lines
programs=()
for program in "$@"; do programs+=("$(realpath "$program")"); done
source "$(dirname "$0")/timing.sh"

writes() { # TRACKS BESIDE LINES
    printf '@server A\n@volume 1000-%04X A 256\n' $((0x1000 + $2))
    awk -v tracks="$1" -v lines="$3" 'BEGIN {
        for (i = 0; i < lines; i++) {
            seed = (seed * 75 + 74) % 65537
            print "@write 1000 " int(seed / 256) % tracks " " i % 60 " 41424344"
        }
    }'
}

# The name of a load, and its script of so many lines.
load() { # NUMBER LINES
    case $1 in
        0) name='random tracks, one volume' && writes 256 0 "$2" ;;
        1) name='one track, one volume' && writes 1 0 "$2" ;;
        2) name='random tracks, 16 volumes beside' && writes 256 16 "$2" ;;
        3) name='one track, 16 volumes beside' && writes 1 16 "$2" ;;
    esac > "$scratch/script"
}

for at in 0 1 2 3; do
    case ${#programs[@]} in
        2)
            load $at 99990
            compare_programs "${programs[@]}" 7 "$name"
            ;;
        1)
            load $at 49990
            half=$(instructions_of "${programs[0]}")
            load $at 99980
            all=$(instructions_of "${programs[0]}")
            echo "$name: $(((all - half) / 49990)) instructions each"
            ;;
        *) echo 'bench/track-writes.sh OLD NEW, or bench/track-writes.sh PROGRAM' && exit 1 ;;
    esac
done
