#!/usr/bin/env python3
"""Runs `trial 0` and `run` on its script with ever more memory, outside the gate: bench/scarce_memory.py [PROGRAM]

The space that a process may have grows page by page, from where the program starts at all to where it ends well. Each time it ends
well and has printed all, or with status 5: then a trial has printed nothing, and a run a front of its answers."""
import resource
import subprocess
import sys
from pathlib import Path

from trial_script import script

PROGRAM = Path(__file__).resolve().parent.parent / "crates" / "drsim" / "out" / "drsim"
PAGE = 4096
USAGE, NO_MEMORY = 2, 5


def called(program, words, text, space):
    limit = lambda: resource.setrlimit(resource.RLIMIT_AS, (space, space))
    return subprocess.run([program, *words], input=text, capture_output=True, text=True, check=False, preexec_fn=limit)


def least_space(program):
    """The pages with which the program starts."""
    pages = 256
    while called(program, ["help"], "", pages * PAGE).returncode != USAGE:
        pages += 1
    return pages


def grow(program, words, text, whole, is_front):
    """How often memory was wanting, until it is enough for a hundred sizes in a row."""
    wanting = enough = 0
    pages = least_space(program)
    while enough < 100:
        ended = called(program, words, text, pages * PAGE)
        if (ended.returncode, ended.stdout) == (whole.returncode, whole.stdout):
            enough += 1
        elif ended.returncode == NO_MEMORY and is_front(ended.stdout):
            wanting, enough = wanting + 1, 0
        else:
            sys.exit(f"{' '.join(words)} with {pages} pages ended with {ended.returncode} and printed\n{ended.stdout}")
        pages += 1
    return wanting


def main():
    if len(sys.argv) > 2:
        sys.exit(__doc__)
    program = sys.argv[1] if len(sys.argv) == 2 else str(PROGRAM)
    ample = 2**30
    text = script(0)
    trial = called(program, ["trial", "0"], "", ample)
    run = called(program, ["run"], text, ample)
    trials = grow(program, ["trial", "0"], "", trial, lambda printed: printed == "")
    runs = grow(program, ["run"], text, run, run.stdout.startswith)
    print(f"memory was wanting in {trials} trials and {runs} runs, and each ended as it may")


if __name__ == "__main__":
    main()
