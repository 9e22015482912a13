#!/bin/bash
# Runs a script whose steps fill the journal up to its limit: the last steps answer E23, and then one that finds 1,000,000
# events ends the run with status 6. Says how much memory that took (it should stay below 100 MB). A line of a range of
# volumes makes up to 256 steps, each of which is refused. Wants the built program (crates/drsim/out/drsim).
set -e
cd "$(dirname "$0")/.."
scratch=$(mktemp -d)
trap 'rm -rf "$scratch"' EXIT
for ((i = 0; i < 4000; i++)); do echo '@volume 1000-10FF A 1'; done > "$scratch/script"
set +e
python3 - "$scratch" <<'END'
import resource, subprocess, sys, time
scratch = sys.argv[1]
begin = time.time()
with open(scratch + "/script") as script, open(scratch + "/answers", "w") as answers:
    status = subprocess.run(["crates/drsim/out/drsim", "run"], stdin=script, stdout=answers).returncode
spent = time.time() - begin
kilobytes = resource.getrusage(resource.RUSAGE_CHILDREN).ru_maxrss
lines = open(scratch + "/answers").read().splitlines()
full = sum(line.endswith("E23 journal full") for line in lines)
print(f"status {status}, {len(lines)} answers, {full} of them E23, {kilobytes // 1024} MB, {spent:.1f} seconds")
sys.exit(0 if status == 6 and kilobytes < 100 * 1024 else 1)
END
