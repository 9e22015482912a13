#!/usr/bin/env python3
"""Runs a program on each scenario and example, and compares what it prints, and its status, with what is stored beside them:
bench/stored.py PROGRAM"""
import subprocess
import sys
from pathlib import Path

sys.dont_write_bytecode = True
sys.path.insert(0, str(Path(__file__).resolve().parent.parent / "tools"))
import plain_rust


def is_as_stored(program, run):
    ended = subprocess.run([program, *run.words], input=run.files[run.input], capture_output=True, check=False)
    return (ended.stdout, ended.stderr, ended.returncode) == (run.files[run.output], b"", run.status)


def main():
    if len(sys.argv) != 2:
        sys.exit(__doc__)
    runs = [run for folder, _, runs in plain_rust.stored_runs() if folder in plain_rust.SCRIPTS for run in runs]
    others = [run for run in runs if not is_as_stored(sys.argv[1], run)]
    for run in others:
        print(f"{run.input}: not as stored")
    print(f"{len(runs)} scripts, {len(others)} not as stored")
    return 1 if others else 0


sys.exit(main())
