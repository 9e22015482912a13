#!/usr/bin/env python3
"""Notes what each check of a gate takes, by looking at the processes below it: rt ci itself prints no seconds.

gate_times.py PROCESS       looks until the process of that number has ended, and writes to standard output. The first line is
                            'begin DATE PROCESSORS', and the last 'end SECONDS'. Between them is a line for each check that ended:
                            SECONDS of a processor, SECONDS of the clock, CRATE and WHAT, with tabs between. WHAT is 'proof',
                            'tests', 'build', 'base' (what the edits of a crate begin with: a check of the crate, or of it with its
                            first edit, as the kit has it) or 'edit NAME'

It reads only /proc, and nothing that it does can make the gate fail. What a check did in its last half second is not seen.
"""
import os
import re
import sys
import time
from pathlib import Path

TOP = Path(__file__).resolve().parent.parent
PAUSE = 0.5
TICKS = os.sysconf("SC_CLK_TCK")
# The checks that were seen over each folder in which a kit tries the edits of a crate in turn.
TURNS = {}


def processes():
    """Each process that there is: its parent, its own time, and that of its children that ended, in ticks."""
    found = {}
    for name in os.listdir("/proc"):
        if name.isdigit():
            try:
                stat = Path(f"/proc/{name}/stat").read_text(errors="replace")
            except OSError:
                continue
            words = stat[stat.rindex(")") + 2 :].split()
            own, ended = int(words[11]) + int(words[12]), int(words[13]) + int(words[14])
            found[int(name)] = int(words[1]), own, ended
    return found


def children_of(found):
    children = {}
    for number, (parent, _, _) in found.items():
        children.setdefault(parent, []).append(number)
    return children


def ticks_of(found, children, number):
    """What a process and all below it have taken, with those below that have ended."""
    _, own, ended = found[number]
    return own + ended + sum(ticks_of(found, children, it) for it in children.get(number, []))


def edit_name(crate, words):
    """What a check over a kept folder tries: the edit of its number, or, if all edits of the crate go over one folder, the next of them."""
    edits = sorted(it.stem for it in (TOP / "crates" / crate / "must-fail").glob("*.edit"))
    kept = words[words.index("--incremental") + 1] if "--incremental" in words else ""
    place = kept.rpartition("/")[2] if kept else "0" if len(edits) == 1 else ""
    if place == "seed":
        return "base"
    if kept and not place.isdigit():
        turn = TURNS[kept] = TURNS.get(kept, -1) + 1
        if turn == 0:
            return "base"
        place = str(turn)
    return f"edit {edits[int(place)] if place.isdigit() and int(place) < len(edits) else '?'}"


def check_of(number):
    """The crate and the kind of check that a process makes, or None where it makes none."""
    try:
        words = Path(f"/proc/{number}/cmdline").read_bytes().decode(errors="replace").split("\0")
        folder = os.readlink(f"/proc/{number}/cwd")
    except OSError:
        return None
    if not words[0].endswith("/rattle") or "--crate-name" not in words:
        return None
    crate = words[words.index("--crate-name") + 1]
    if re.search(r"/rt-edit-[^/]+$", folder):
        return crate, edit_name(crate, words)
    if "--test" in words:
        return crate, "tests"
    return crate, "build" if "--crate-checked" in words else "proof"


class Check:
    """A check that runs: what it is, when it was first seen, and what it had taken when it was last seen."""

    def __init__(self, what):
        self.what, self.begun, self.ticks = what, time.monotonic(), 0

    def tell(self):
        crate, kind = self.what
        clock = time.monotonic() - self.begun
        print(f"{self.ticks / TICKS:.1f}\t{clock:.1f}\t{crate}\t{kind}", flush=True)


def look(top, running):
    """Looks once at all that runs below the process, and tells of each check that has ended since."""
    found = processes()
    children, left = children_of(found), [top]
    while left:
        for number in children.get(left.pop(), []):
            what = None if number in running else check_of(number)
            if what:
                running[number] = Check(what)
            # (what a check starts is part of it)
            if number not in running:
                left.append(number)
    for number in [*running]:
        if number in found:
            running[number].ticks = max(running[number].ticks, ticks_of(found, children, number))
        else:
            running.pop(number).tell()
    return top in found


def main():
    top, begun, running = int(sys.argv[1]), time.monotonic(), {}
    print(f"begin {time.strftime('%Y-%m-%d')} {len(os.sched_getaffinity(0))}", flush=True)
    while look(top, running):
        time.sleep(PAUSE)
    for check in running.values():
        check.tell()
    print(f"end {time.monotonic() - begun:.0f}", flush=True)


if __name__ == "__main__":
    main()
