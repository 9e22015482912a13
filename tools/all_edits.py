#!/usr/bin/env python3
"""Tries the edits of both folders, crates/NAME/must-fail and crates/NAME/edits: the prover must refuse each of these wrong bodies.

all_edits.py [--kept FOLDER] [NAME..]

It works in a copy of the crates, in which the edits of both folders stand in must-fail. With names, 'rt must-fail NAME' tries those of
one crate after another; each begins with a check of the whole crate. Libraries below that have no work in out/ of 'rt check' or 'rt lib' are
proved first. The copy takes out/ of these libraries along, or it is made in FOLDER, which keeps what was proved from one call to the next.
Without names, 'rt ci' tries all, side by side, with all proofs from nothing.

Prints what rt said of each edit, then those that were refused only because a proof names what the edit took away, which say little
of the contract, and a line for each crate. Ends with 1 if an edit was not refused, or was not tried.
"""
import argparse
import re
import shutil
import subprocess
import sys
import tempfile
import time
from pathlib import Path

sys.dont_write_bytecode = True
from budget import FOLDERS, TOP, edits_of

SAID = re.compile(r"must-fail (\w+)/([\w.-]+)\.edit: (.*)")
REFUSED, BY_A_NAME = "refused, as it must be", "refused, as it must be (only because"


def below():
    """The crates below each, with those that they stand on. crates.txt has the lower ones first."""
    reached = {}
    for line in (TOP / "crates.txt").read_text(encoding="utf-8").splitlines():
        if line.strip() and not line.startswith("#"):
            name, _, words = line.partition(":")
            own = {it for it in words.split() if it in reached}
            reached[name.split()[0]] = own.union(*(reached[it] for it in own))
    return reached


def copy_crates(room):
    """Copies all crates without out/, with the edits of both folders in must-fail. What the copy has in out/ stays."""
    for crate in sorted(it for it in (TOP / "crates").iterdir() if it.is_dir()):
        to = room / "crates" / crate.name
        for it in [*to.iterdir()] if to.is_dir() else []:
            if it.name != "out":
                shutil.rmtree(it) if it.is_dir() else it.unlink()
        shutil.copytree(crate, to, ignore=shutil.ignore_patterns("out", *FOLDERS), dirs_exist_ok=True)
        for edit in [it for folder in FOLDERS for it in edits_of(crate, folder)]:
            (to / "must-fail").mkdir(exist_ok=True)
            shutil.copy(edit, to / "must-fail")
    for name in ("crates.txt", "HANDLES"):
        shutil.copy(TOP / name, room)


def take_out(room, crates):
    """Takes along what the repository has in out/ of these crates, if the copy has nothing yet."""
    for name in sorted(crates):
        kept, to = TOP / "crates" / name / "out", room / "crates" / name / "out"
        if kept.is_dir() and not to.exists():
            shutil.copytree(kept, to, symlinks=True)


def lines_of(room, words):
    """The lines that a call of rt in the copy prints, printed here too."""
    with subprocess.Popen(["rt", *words], cwd=room, stdin=subprocess.DEVNULL, stdout=subprocess.PIPE, stderr=subprocess.STDOUT,
                          text=True, errors="replace") as ran:
        for line in ran.stdout:
            print(line, end="", flush=True)
            yield line


def try_edits(room, names):
    """What rt said of each edit, by crate and name, and the minutes of the clock that each call took."""
    said, took = {}, {}
    for words in [("must-fail", it) for it in names] or [("ci",)]:
        begun = time.monotonic()
        for line in lines_of(room, words):
            found = SAID.search(line)
            if found:
                said[found[1], found[2]] = found[3]
        took[words[-1]] = (time.monotonic() - begun) / 60
    return said, took


def tell(wanted, said, took):
    """Prints what came of the edits, and says whether each was refused."""
    name_only = [it for it in wanted if said.get(it, "").startswith(BY_A_NAME)]
    faults = {it: said.get(it, "not tried") for it in wanted if not said.get(it, "").startswith(REFUSED)}
    for crate, edit in name_only:
        print(f"says little of the contract, as only a name is missing: {crate}/{edit}")
    for (crate, edit), why in faults.items():
        print(f"NOT REFUSED: {crate}/{edit}: {why}")
    for crate in sorted({it[0] for it in wanted}):
        edits = [it for it in wanted if it[0] == crate]
        well = sum(it not in faults for it in edits)
        minutes = f", {took[crate]:.1f} minutes" if crate in took else ""
        print(f"{time.strftime('%Y-%m-%d')} {crate}: {well} of {len(edits)} refused, {sum(it in name_only for it in edits)} only by a name{minutes}")
    return not faults


def main():
    words = argparse.ArgumentParser(usage="all_edits.py [--kept FOLDER] [NAME..]")
    words.add_argument("--kept", type=Path)
    words.add_argument("names", nargs="*")
    given = words.parse_args()
    reached = below()
    wanted = [(crate, it.stem) for crate in reached for folder in FOLDERS for it in edits_of(TOP / "crates" / crate, folder)]
    unknown = [it for it in given.names if it not in reached]
    if unknown:
        sys.exit(f"crates.txt has no {', '.join(unknown)}")
    wanted = [it for it in wanted if not given.names or it[0] in given.names]
    with tempfile.TemporaryDirectory(prefix="all-edits-") as made:
        room = (given.kept or Path(made)).resolve()
        room.mkdir(parents=True, exist_ok=True)
        copy_crates(room)
        take_out(room, {low for it in given.names for low in reached[it]})
        said, took = try_edits(room, given.names)
    return 0 if tell(wanted, said, took) else 1


if __name__ == "__main__":
    sys.exit(main())
