#!/usr/bin/env python3
"""Runs trials, outside the gate: bench/trials.py FIRST COUNT [PROGRAM]

Each ends with status 0, and its three lines are what `run` prints on the same script, which another program makes: as many lines as it
has, as many answers that are refusals, and the group of its last line. Then the milliseconds of a trial and of a run on its script."""
import re
import subprocess
import sys
import time
from pathlib import Path

from trial_script import script

PROGRAM = Path(__file__).resolve().parent.parent / "crates" / "drsim" / "out" / "drsim"
REFUSAL = re.compile(r"\d+ E\d\d ")
GROUP = re.compile(r"\d+ ok (?:group (\d+)|none) ")


def timed(program, words, text):
    begin = time.perf_counter()
    ended = subprocess.run([program, *words], input=text, capture_output=True, text=True, check=False)
    return ended, (time.perf_counter() - begin) * 1000


def wanted(text, printed):
    lines = printed.splitlines()
    refused = sum(1 for line in lines if REFUSAL.match(line))
    group = GROUP.match(lines[-1])
    if group is None:
        sys.exit(f"the last line of a run is {lines[-1]}")
    return f"lines {text.count(chr(10))}\nrefused {refused}\ngroup {group.group(1) or 'none'}\n"


def main():
    if len(sys.argv) not in (3, 4):
        sys.exit(__doc__)
    first, count = int(sys.argv[1]), int(sys.argv[2])
    program = sys.argv[3] if len(sys.argv) == 4 else PROGRAM
    trials = runs = 0.0
    for number in range(first, first + count):
        text = script(number)
        ended, spent = timed(program, ["trial", str(number)], "")
        trials += spent
        run, spent = timed(program, ["run"], text)
        runs += spent
        if ended.returncode != 0 or ended.stdout != wanted(text, run.stdout):
            sys.exit(f"trial {number} ended with {ended.returncode} and printed\n{ended.stdout}and not\n{wanted(text, run.stdout)}")
    print(f"{count} trials from {first} on, each as its run: {trials / count:.1f} ms a trial, {runs / count:.1f} ms a run")


if __name__ == "__main__":
    main()
