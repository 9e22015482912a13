#!/bin/bash
# Times the reader of the whole grammar on 50,000 and on 100,000 typical lines. The cost must grow linearly, and 100,000
# lines should take no more than a few tenths of a second. Builds a small program beside copies of the crates that it
# needs, so that it leaves nothing behind. `rt run` proves what the gate hasn't proved on this machine yet.
set -e
cd "$(dirname "$0")/.."
scratch=$(mktemp -d)
trap 'rm -rf "$scratch"' EXIT
mkdir -p "$scratch/crates/read_lines/src"
for crate in dr_logic dr_ids dr_model dr_facts dr_script; do
    cp -r "crates/$crate" "$scratch/crates/$crate"
done
cat > "$scratch/crates/read_lines/src/main.rt" << 'END'
//! Reads each line of standard input by the whole grammar, and prints how many steps the lines have and the time it
//! took, input included.
#![tactic(auto)]

use dr_script::{Line, read_line};
use std::io;
use std::time::Instant;

fn main(rt: HostRuntime) -> io::Result<()> {
    let begin = Instant::now(&rt)?;
    let mut steps: u64 = 0;
    let mut read = Line::new(rt.alloc());
    for line in rt.lines(rt.alloc()) {
        if let Ok(()) = read_line(rt.alloc(), line?.as_bytes(), &mut read) {
            steps = steps.saturating_add(read.len() as u64);
        }
    }
    let spent = begin.elapsed(&rt)?.as_millis();
    println!(rt; "{steps} steps: {spent} ms")
}
END
printf 'dr_logic:\ndr_ids:\ndr_model: dr_logic dr_ids\ndr_facts: dr_logic dr_ids dr_model\ndr_script: dr_logic dr_ids dr_model dr_facts\nread_lines: dr_ids dr_model dr_script\n' > "$scratch/crates.txt"
git init -q "$scratch"
for lines in 50000 100000; do
    for ((i = 0; i < lines; i += 5)); do
        echo "@write 1000 $((i % 256)) $((i % 60)) 41424344"
        echo "@show 1000 $((i % 256))"
        echo "mkflash -dev IBM.2107-75FA120 -record -persist 1000-1003:1100-1103"
        echo "mkpprc -type gcp -mode nocp 1000:200A"
        echo "pausepprc 1000:2000"
    done > "$scratch/lines"
    echo -n "$lines lines, "
    (cd "$scratch/crates/read_lines" && rt run < "$scratch/lines" 2> "$scratch/said") | grep steps || cat "$scratch/said"
done
