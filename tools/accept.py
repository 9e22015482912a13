#!/usr/bin/env python3
"""Writes what a scenario prints for the first time.

    tools/accept.py NAME [FOLDER]

It runs `drsim` on NAME.dscli of the folder (crates/scenarios/data, if none is named), with the words of NAME.words or else the word `run`.
What was printed goes to NAME.out, and an exit status that isn't 0 to NAME.status. If one of them is there it refuses and changes nothing:
what is stored was worked out, and is changed by hand. The program is crates/drsim/out/drsim, if it is newer than all sources; else `rt try`
runs it before any proof, and what it prints is what the proved program prints. Exit status 1 if nothing was written, 2 if the words are wrong.
"""
import re
import subprocess
import sys
from pathlib import Path

ROOT = Path(__file__).resolve().parent.parent
DATA = ROOT / "crates" / "scenarios" / "data"
PROGRAM = ROOT / "crates" / "drsim" / "out" / "drsim"
ENDED = re.compile(rb"^run=ended status=(\d+) .*proved=no\n\Z", re.M)  # the last line of `rt try`, if the program ended
FAILED = (3, 4, 5)  # a read or a write that failed, and want of memory, of which no scenario is


class Fault(Exception):
    """Why nothing was written."""


def words_of(path):
    """The words that the program is given: the lines of a file, or `run` if it isn't there."""
    if not path.exists():
        return ["run"]
    lines = re.split(r"\r?\n", path.read_text(encoding="utf-8"))
    return lines[:-1] if lines[-1] == "" else lines


def is_built():
    """Whether the program was built after the last change of a source."""
    if not PROGRAM.exists():
        return False
    built = PROGRAM.stat().st_mtime
    return all(source.stat().st_mtime < built for source in ROOT.glob("crates/*/src/**/*.rt"))


def run(words, script):
    """What the program prints, and its status."""
    if is_built():
        done = subprocess.run([PROGRAM, *words], input=script, capture_output=True, check=False)
        return done.stdout, done.returncode
    done = subprocess.run(["rt", "try", "--", *words], cwd=PROGRAM.parent.parent, input=script, capture_output=True, check=False)
    ended = ENDED.search(done.stderr)
    if not ended or int(ended[1]) != done.returncode:
        raise Fault(f"rt try doesn't run the program\n{done.stderr.decode(errors='replace').rstrip()}")
    return done.stdout, done.returncode


def accept(name, folder):
    """Runs the scenario, and gives the names of the files that it wrote."""
    script, output, status = (folder / f"{name}{ending}" for ending in (".dscli", ".out", ".status"))
    if not script.is_file():
        raise Fault(f"{script.name} isn't in {folder}")
    for stored in (output, status):
        if stored.exists():
            raise Fault(f"{stored.name} is there already; nothing was changed")
    printed, code = run(words_of(folder / f"{name}.words"), script.read_bytes())
    if code < 0 or code in FAILED:
        raise Fault(f"the program failed, with status {code}")
    with open(output, "xb") as it:
        it.write(printed)
    if code == 0:
        return [output.name]
    with open(status, "x", encoding="utf-8") as it:
        it.write(f"{code}\n")
    return [output.name, status.name]


def main():
    if not 2 <= len(sys.argv) <= 3 or sys.argv[1].startswith("-"):
        print("usage: tools/accept.py NAME [FOLDER]", file=sys.stderr)
        return 2
    try:
        written = accept(sys.argv[1], Path(sys.argv[2]) if len(sys.argv) == 3 else DATA)
    except Fault as fault:
        print(f"accept: {fault}", file=sys.stderr)
        return 1
    print(f"{' and '.join(written)}: as the program printed. Compare each line with the rules before it is stored.")
    return 0


if __name__ == "__main__":
    sys.exit(main())
