#!/bin/bash
# Runs `drsim run` on loads over three sites: host writes over a chain, without a session and with an attempt around every 64; drains of 256 tracks
# into a cascaded volume that records; groups of four cascaded members, with a host write each. The last three loads are the same host writes,
# groups and drains over two sites.
#
#   bench/cascade-loads.sh PROGRAM   the instructions of each load for each of its lines, rounds or tracks, by callgrind: those of a load less those of
#                                    one half as long, for two lengths. Both must be the same: then it grows linearly
#   bench/cascade-loads.sh PROGRAM times   the least time of three runs, for the same lengths
program=$(realpath "$1")
source "$(dirname "$0")/timing.sh"

chain() { # TRACKS LAST: volumes 1000, 2000 and 3000, and as many more up to the last digit, on a server each
    printf '@server P\n@server Q\n@server R\n@volume 1000-100%d P %d\n@volume 2000-200%d Q %d\n@volume 3000-300%d R %d\n' "$2" "$1" "$2" "$1" "$2" "$1"
    printf 'mkpprcpath -srclss 10 -tgtlss 20 I0000:I0100\nmkpprcpath -srclss 20 -tgtlss 30 I0000:I0100\n'
    printf 'mkpprc -type mmir -mode nocp 1000-100%d:2000-200%d\nmkpprc -type gcp -mode nocp -cascade 2000-200%d:3000-300%d\n' "$2" "$2" "$2" "$2"
}

chained_session() { # TRACKS LAST: with targets at the third site, and a session over the second
    chain "$1" "$2"
    printf '@volume 4000-400%d R %d\nmkflash -tgtinhibit -record -nocp 3000-300%d:4000-400%d\n' "$2" "$1" "$2" "$2"
    printf 'mksession -lss 20 -volume 2000-200%d 01\nmkgmir -lss 20 -session 01\n' "$2"
}

chain_writes() { # LINES
    local i
    chain 256 0
    for ((i = 0; i < $1; i++)); do echo "@write 1000 $((i % 256)) $((i % 60)) 41424344"; done
}

attempts() { # ROUNDS: two members; 64 writes, a hold and a release, four writes of which two collide, drains, a seal, and an abort
    local i n
    chained_session 64 1
    for ((n = 0; n < $1; n++)); do
        for ((i = 0; i < 32; i++)); do printf '@write 1000 %d 0 %02X\n@write 1001 %d 0 %02X\n' $((i * 2)) $((n % 256)) $((i * 2)) $((n % 256)); done
        printf '@exchange 01 Q\n@exchange 01 Q\n'
        printf '@write 1000 0 0 FF\n@write 1001 0 0 FF\n@write 1000 1 0 FF\n@write 1001 1 0 FF\n'
        printf '@drain 2000 all\n@drain 2001 all\n@exchange 01 Q\n@abort 01\n@exchange 01 Q\n@exchange 01 Q\n'
    done
}

feeds() { # ROUNDS: drains of 256 tracks into a volume that records
    chained_session 256 0
    printf '@exchange 01 Q\n@exchange 01 Q\n'
    refills "$1"
}

refills() { # ROUNDS: a primary is paused, written on all 256 tracks and resumed, and drained
    local i n
    for ((n = 0; n < $1; n++)); do
        echo 'pausepprc 1000:2000'
        for ((i = 0; i < 256; i++)); do printf '@write 1000 %d 0 %02X\n' $i $((n % 256)); done
        printf 'resumepprc -type mmir 1000:2000\n@drain 1000 all\n'
    done
}

chained_groups() { # ROUNDS: a write and a group of four cascaded members
    local n
    chained_session 16 3
    for ((n = 0; n < $1; n++)); do printf '@write 100%d %d 0 %02X\n@run 01 1\n' $((n % 4)) $((n % 16)) $((n % 256)); done
}

two_sites() { # the same members without the first site: their primaries are 1000-1003
    printf '@server P\n@server Q\n@volume 1000-1003 P 16\n@volume 2000-2003 Q 16\n@volume 3000-3003 Q 16\nmkpprcpath -srclss 10 -tgtlss 20 I0000:I0100\n'
    printf 'mkpprc -type gcp -mode nocp 1000-1003:2000-2003\nmkflash -tgtinhibit -record -nocp 2000-2003:3000-3003\n'
    printf 'mksession -lss 10 -volume 1000-1003 01\nmkgmir -lss 10 -session 01\n'
}

groups() { # ROUNDS
    local n
    two_sites
    for ((n = 0; n < $1; n++)); do printf '@write 100%d %d 0 %02X\n@run 01 1\n' $((n % 4)) $((n % 16)) $((n % 256)); done
}

mirrored_pair() {
    printf '@server P\n@server Q\n@volume 1000 P 256\n@volume 2000 Q 256\nmkpprcpath -srclss 10 -tgtlss 20 I0000:I0100\n'
    echo 'mkpprc -type mmir -mode nocp 1000:2000'
}

mirrored() { # LINES
    local i
    mirrored_pair
    for ((i = 0; i < $1; i++)); do echo "@write 1000 $((i % 256)) $((i % 60)) 41424344"; done
}

# The name of a load, what one of its rounds has of what it counts, and its script of so many rounds.
load() { # NUMBER ROUNDS
    case $1 in
        0) name='a write over the chain' each=1 && chain_writes "$2" ;;
        1) name='a line of writes over two chains, an attempt around every 64' each=76 && attempts "$2" ;;
        2) name='a track drained into a cascaded volume that records' each=256 && feeds "$2" ;;
        3) name='a write, and a group of four cascaded members' each=1 && chained_groups "$2" ;;
        4) name='a write on a Metro Mirror pair, over two sites' each=1 && mirrored "$2" ;;
        5) name='a write, and a group of four members, over two sites' each=1 && groups "$2" ;;
        6) name='a track drained into a secondary, over two sites' each=256 && mirrored_pair && refills "$2" ;;
    esac > "$scratch/script"
}

most=(99900 1300 200 6000 50000 6000 200)

counted() { # NUMBER ROUNDS: its instructions; of the drains those that are left without the same lines that drain nothing
    local all
    load "$1" "$2"
    all=$(instructions_of "$program")
    if (($1 == 2 || $1 == 6)); then
        sed -i 's/^@drain 1000 all$/@drain 1000 0/' "$scratch/script"
        all=$((all - $(instructions_of "$program")))
    fi
    echo "$all"
}

for at in 0 1 2 3 4 5 6; do
    rounds=${most[at]}
    load $at 1
    if (($# == 1)); then
        short=$(counted $at $((rounds / 4)))
        half=$(counted $at $((rounds / 2)))
        all=$(counted $at "$rounds")
        echo "$name: $(((half - short) / ((rounds / 2 - rounds / 4) * each))) and $(((all - half) / ((rounds - rounds / 2) * each))) instructions each"
    else
        for lines in $((rounds / 2)) "$rounds"; do
            load $at "$lines"
            least=0
            for _ in 1 2 3; do
                spent=$(microseconds_of "$program" "$scratch/answers")
                if ((least == 0 || spent < least)); then least=$spent; fi
            done
            echo "$name, $lines rounds, $(wc -l < "$scratch/script") lines: $((least / 1000)) ms"
        done
    fi
done
