#!/bin/bash
# Times 100,000 lines of which all but a few answer E05 for one server, in two scripts side by side: the server is defined
# first, or behind half of the lines (comments until then). What a line prints costs its own length, so neither script
# should take longer for the place of the definition. Wants the built program (crates/drsim/out/drsim; `rt run` leaves it
# there). Prints the least time of seven runs each.
set -e
cd "$(dirname "$0")/.."
scratch=$(mktemp -d)
trap 'rm -rf "$scratch"' EXIT

definitions() { printf '@server B\n@volume 1000 B 4\n@stop B\n'; }
comments() { for ((i = 0; i < 49990; i++)); do echo '# nothing'; done; }
steps() { for ((i = 0; i < 49990; i++)); do echo '@show 1000 0'; done; }

{ definitions; comments; steps; } > "$scratch/first"
{ comments; definitions; steps; } > "$scratch/late"

for script in first late; do
    least=0
    for ((round = 0; round < 7; round++)); do
        begin=$(date +%s%N)
        crates/drsim/out/drsim run < "$scratch/$script" > "$scratch/answers" || true
        spent=$((($(date +%s%N) - begin) / 1000))
        if ((least == 0 || spent < least)); then least=$spent; fi
    done
    echo "server defined $script: $(grep -c 'E05 server off B' "$scratch/answers") refusals, $least microseconds"
done
