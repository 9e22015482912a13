#!/bin/bash
# Runs `drsim` on loads: host writes on one volume, if it is the only one and if 64 are defined; host writes on a source with 12 targets
# that hold all tracks, and with 12 that don't; drains; host writes on one pair of Metro Mirror and on 32; groups of 16 members with one
# write between and with 64; recoveries; shows; refused lines; flash sets; comparisons; images; and `recover` of an image.
#
#   bench/loads.sh OLD NEW   two programs in turn on each load, five times each: the least time of each, and their ratio. What they
#                            print must be the same
#   bench/loads.sh PROGRAM   the instructions of each load for each of its lines (a drain: for each of its tracks), by callgrind: those
#                            of a load, less those of a load with half of the lines. Of `recover` all of one run
programs=()
for program in "$@"; do programs+=("$(realpath "$program")"); done
source "$(dirname "$0")/timing.sh"

writes_on() { # VOLUMES TARGETS LINES: on the first volume, the source of so many targets that hold all tracks
    local i
    printf '@server A\n@volume 1000-%04X A 256\n' $((0xFFF + $1))
    for ((i = 1; i <= $2; i++)); do printf 'mkflash -persist 1000:%04X\n@copy %04X all\n' $((0x1000 + i)) $((0x1000 + i)); done
    for ((i = 0; i < $3; i++)); do echo "@write 1000 $((i % 256)) $((i % 60)) 41424344"; done
}

drains() { # LINES: a pair of 256 tracks is made, drained and removed
    local i
    printf '@server P\n@server Q\n@volume 1000 P 256\n@volume 2000 Q 256\nmkpprcpath -srclss 10 -tgtlss 20 I0000:I0100\n'
    for ((i = 0; i < $1 / 3; i++)); do printf 'mkpprc -type gcp 1000:2000\n@drain 1000 all\nrmpprc 1000:2000\n'; done
}

mirrored() { # PAIRS LINES: on so many primaries of Metro Mirror in turn
    local i last
    last=$(printf '%03X' $(($1 - 1)))
    printf '@server P\n@server Q\n@volume 1000-1%s P 256\n@volume 2000-2%s Q 256\nmkpprcpath -srclss 10 -tgtlss 20 I0000:I0100\n' "$last" "$last"
    echo "mkpprc -type mmir -mode nocp 1000-1$last:2000-2$last"
    for ((i = 0; i < $2; i++)); do printf '@write %04X %d %d 41424344\n' $((0x1000 + i % $1)) $((i % 256)) $((i % 60)); done
}

session() { # a session of 16 members on two servers
    printf '@server A1\n@server A2\n@server B1\n@server B2\n'
    printf '@volume 1000-1007 A1 16\n@volume 1100-1107 A2 16\n@volume 2000-2007 B1 16\n@volume 2100-2107 B2 16\n@volume 3000-3007 B1 16\n@volume 3100-3107 B2 16\n'
    printf 'mkpprcpath -srclss 10 -tgtlss 20 I0000:I0100\nmkpprcpath -srclss 11 -tgtlss 21 I0000:I0100\n'
    printf 'mkpprc -type gcp -mode nocp 1000-1007:2000-2007 1100-1107:2100-2107\n'
    printf 'mkflash -tgtinhibit -record -nocp 2000-2007:3000-3007 2100-2107:3100-3107\n'
    printf 'mksession -lss 10 -volume 1000-1007 01\nmksession -lss 11 -volume 1100-1107 01\nmkgmir -lss 10 -session 01\n'
}

grouped() { # WRITES LINES: so many writes and a group, again and again
    local i
    session
    for ((i = 0; i < $2; i++)); do
        if ((i % ($1 + 1) == $1)); then
            echo '@run 01 1'
        else
            printf '@write 1%d0%d %d 0 %02X\n' $((i % 2)) $((i / 2 % 8)) $((i / 16 % 16)) $((i % 256))
        fi
    done
}

recovered() { # LINES: the first recovery takes over all secondaries, and each later one looks at them again
    local i
    session
    printf '@write 1000 0 0 41\n@write 1100 0 0 42\n@run 01 1\n@stop A1\n@stop A2\n'
    for ((i = 0; i < $1; i++)); do echo '@recover 01'; done
}

copies() { # LINES: each write is on a track that none of the 12 targets holds; after 256 of them the targets are made anew
    local i target
    printf '@server A\n@volume 1000-100C A 256\n'
    for ((i = 0; i < $1; i++)); do
        if ((i % 256 == 0)); then
            for ((target = 1; target <= 12; target++)); do
                if ((i > 0)); then printf 'rmflash 1000:%04X\n' $((0x1000 + target)); fi
                printf 'mkflash -nocp -persist 1000:%04X\n' $((0x1000 + target))
            done
        fi
        echo "@write 1000 $((i % 256)) 0 41424344"
    done
}

shown() { # LINES: a track with one write
    local i
    printf '@server A\n@volume 1000 A 256\n@write 1000 0 0 41424344\n'
    for ((i = 0; i < $1; i++)); do echo '@show 1000 0'; done
}

refused() { # LINES: the volume's server is off
    local i
    printf '@server A\n@volume 1000 A 256\n@stop A\n'
    for ((i = 0; i < $1; i++)); do echo '@show 1000 0'; done
}

sets() { # ROUNDS: 12 sources on two servers are held and copied, a write waits, they are let go, it lands, and the relationships end
    local i
    printf '@server A\n@server B\n@volume 1000-1005 A 2\n@volume 1100-1105 A 2\n@volume 2000-2005 B 2\n@volume 2100-2105 B 2\n'
    for ((i = 0; i < $1; i++)); do
        printf 'mkflash -nocp -freeze 1000-1005:1100-1105 2000-2005:2100-2105\n@write %d00%d 0 0 %02X\n' $((i % 2 + 1)) $((i / 2 % 6)) $((i % 256))
        printf 'unfreezeflash 10 20\n@apply %d\nrmflash 1000-1005:1100-1105 2000-2005:2100-2105\n' $((i + 1))
    done
}

compared() { # LINES: two volumes of 256 tracks with the same bytes
    local i
    printf '@server A\n@server B\n@volume 1000 A 256\n@volume 2000 B 256\n'
    for ((i = 0; i < 256; i++)); do printf '@write 1000 %d 0 41\n@write 2000 %d 0 41\n' "$i" "$i"; done
    for ((i = 0; i < $1; i++)); do echo '@compare 1000 2000'; done
}

filled() { # FIRST LAST SERVER: volumes of 256 tracks, each filled
    local v t bytes
    bytes=$(printf 'A5%.0s' {1..64})
    for ((v = $1; v <= $2; v++)); do
        for ((t = 0; t < 256; t++)); do printf '@write %04X %d 0 %s\n' "$v" "$t" "$bytes"; done
    done
}

images() { # LINES: of 64 filled volumes
    local i
    printf '@server A\n@volume 1000-103F A 256\n'
    filled 0x1000 0x103F
    for ((i = 0; i < $1; i++)); do echo '@image'; done
}

volumes() { # LINES: each asks for 256 volumes, which are refused
    local i
    printf '@server A\n@volume 1000-103F A 256\n'
    for ((i = 0; i < $1; i++)); do echo '@volume 1000-10FF A 256'; done
}

imaged() { # an image of 21 members with filled tracks, after two groups
    local group
    printf '@server A\n@server B\n@volume 1000-1014 A 256\n@volume 2000-2014 B 256\n@volume 3000-3014 B 256\n'
    printf 'mkpprcpath -srclss 10 -tgtlss 20 I0000:I0100\nmkpprc -type gcp -mode nocp 1000-1014:2000-2014\n'
    printf 'mkflash -tgtinhibit -record -nocp 2000-2014:3000-3014\nmksession -lss 10 -volume 1000-1014 01\nmkgmir -lss 10 -session 01\n'
    for group in 1 2; do
        filled 0x1000 0x1014
        echo '@run 01 1'
    done
    echo '@image'
}

# The name of a load, how many of what it counts, and its script of so many lines or rounds; and the words for the program.
load() { # NUMBER LINES PROGRAM
    words=run
    case $1 in
        0) name='writes, one volume' parts=$2 && writes_on 1 0 "$2" ;;
        1) name='writes, 64 volumes' parts=$2 && writes_on 64 0 "$2" ;;
        2) name='writes, 12 targets' parts=$2 && writes_on 13 12 "$2" ;;
        3) name='drained tracks' parts=$(($2 / 3 * 256)) && drains "$2" ;;
        4) name='writes, one Metro Mirror pair' parts=$2 && mirrored 1 "$2" ;;
        5) name='writes, 32 Metro Mirror pairs' parts=$2 && mirrored 32 "$2" ;;
        6) name='groups of 16 and a write each' parts=$(($2 / 2)) && grouped 1 "$2" ;;
        7) name='groups of 16 and 64 writes each' parts=$(($2 / 65)) && grouped 64 "$2" ;;
        8) name='recoveries of 16 members' parts=$2 && recovered "$2" ;;
        9) name='writes, 12 targets copy first' parts=$2 && copies "$2" ;;
        10) name='shows' parts=$2 && shown "$2" ;;
        11) name='refused, E05' parts=$2 && refused "$2" ;;
        12) name='lines of flash sets' parts=$(($2 * 5)) && sets "$2" ;;
        13) name='comparisons of 256 tracks' parts=$2 && compared "$2" ;;
        14) name='images of 64 volumes' parts=$2 && images "$2" ;;
        15) name='@volume of 256, refused' parts=$2 && volumes "$2" ;;
        16) name='recover of an image' parts=$2 words='recover 01' && imaged | "$3" run | sed -n '/^image 1$/,/^end$/p' ;;
    esac > "$scratch/script"
}

# Half of the lines that are counted, and all that are timed.
half_of=(4992 4992 4992 39 4992 4992 975 4875 1989 1024 4992 4992 400 100 2 100 0)
lines_of=(99900 99900 99900 1500 99900 99900 19500 97500 40000 99840 99900 99900 8000 10000 20 4000 1)

compare() { # OLD NEW
    local at
    for at in "${!lines_of[@]}"; do
        load "$at" "${lines_of[at]}" "$1"
        compare_programs "$1" "$2" 5 "$name"
    done
}

count() { # PROGRAM
    local at some all half
    for at in "${!lines_of[@]}"; do
        if ((half_of[at] > 0)); then
            load "$at" "${half_of[at]}" "$1"
            some=$(instructions_of "$1")
            half=$parts
            load "$at" $((half_of[at] * 2)) "$1"
        else
            some=0 half=0
            load "$at" 1 "$1"
        fi
        all=$(instructions_of "$1")
        echo "$name: $(((all - some) / (parts - half))) instructions each"
    done
}

case $# in
    2) compare "${programs[@]}" ;;
    1) count "${programs[@]}" ;;
    *) echo 'bench/loads.sh OLD NEW, or bench/loads.sh PROGRAM' && exit 1 ;;
esac
