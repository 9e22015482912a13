#!/bin/bash
# Times `drsim run` on control messages, over a session of four members on two servers whose groups are formed one after another: a host
# write, twelve orders, and a drain before the seals. A round is an order that is sent, comes, and is replied to, with both messages lost
# behind it: five lines. There are 9,600 such rounds, and then 19,200, near the most that a script may have; it must grow linearly. Beside it
# stand the same groups by exchanges, one line a round: by messages they are to take no more than two of these. Then 99,000 deliveries of the
# last of 256 messages in flight, and of the last of two. The program is crates/drsim/out/drsim (`rt run` leaves it there).
source "$(dirname "$0")/timing.sh"

session() {
    printf '@server A1\n@server A2\n@server B1\n@server B2\n'
    printf '@volume 1000-1001 A1 16\n@volume 1100-1101 A2 16\n@volume 2000-2001 B1 16\n@volume 2100-2101 B2 16\n@volume 3000-3001 B1 16\n@volume 3100-3101 B2 16\n'
    printf 'mkpprcpath -srclss 10 -tgtlss 20 I0000:I0100\nmkpprcpath -srclss 11 -tgtlss 21 I0000:I0100\n'
    printf 'mkpprc -type gcp -mode nocp 1000-1001:2000-2001 1100-1101:2100-2101\n'
    printf 'mkflash -tgtinhibit -record -nocp 2000-2001:3000-3001 2100-2101:3100-3101\n'
    printf 'mksession -lss 10 -volume 1000-1001 01\nmksession -lss 11 -volume 1100-1101 01\nmkgmir -lss 10 -session 01\n'
}

round_lines() { # N WAY
    local server=$(($1 % 2 + 1))
    if [[ $2 == exchanges ]]; then
        echo "@exchange 01 A$server"
    else
        printf '@send 01 A%d\n@deliver %d\n@deliver %d\n@lose %d\n@lose %d\n' "$server" $((2 * $1 + 1)) $((2 * $1 + 2)) $((2 * $1 + 1)) $((2 * $1 + 2))
    fi
}

groups_by() { # WAY ROUNDS
    session
    for ((n = 0; n < $2; n++)); do
        volume=1$((n / 12 % 2))0$((n / 24 % 2))
        case $((n % 12)) in
            0) printf '@write %s %d 0 %02X\n' "$volume" $((n / 12 % 16)) $((n / 12 % 256)) ;;
            4) echo "@drain $volume all" ;;
        esac
        round_lines "$n" "$1"
    done
}

deliveries() { # IN FLIGHT
    session
    for ((n = 1; n < $1; n++)); do printf '@send 01 A1\n'; done
    printf '@deliver %d\n' $(($1 - 1))
    for ((n = 0; n < 99000; n++)); do printf '@deliver %d\n' "$1"; done
}

for rounds in 9600 19200; do
    for way in exchanges messages; do
        groups_by "$way" "$rounds" > "$scratch/script"
        time_script
        declare "$way=$least"
    done
    echo "orders by messages, $rounds: $messages ms, by exchanges $exchanges ms: $((messages * 100 / exchanges)) % of these"
done
for flying in 2 256; do
    deliveries "$flying" > "$scratch/script"
    time_script || true
    echo "99,000 deliveries of the last of $flying messages: $least ms, $((99000 * 1000 / least)) a second"
done
