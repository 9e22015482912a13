#!/usr/bin/env python3
"""Fails if the gate has more edits to try than it has time for, or if an edit can no longer be applied.

An edit is a wrong body that the prover must refuse. The gate tries those in crates/NAME/must-fail; those in crates/NAME/edits have the
same form, and tools/all_edits.py tries both. Limits are on the first folder: edits in all, crates that have some, edits of a crate.
Of each edit of both folders every old text must stand once in its file. Nothing is proved here.
"""
import re
import sys
from pathlib import Path

TOP = Path(__file__).resolve().parent.parent
FOLDERS = ("must-fail", "edits")
MOST, MOST_CRATES, MOST_OF_A_CRATE = 75, 17, 9
NAME = re.compile(r"[A-Za-z0-9_-][A-Za-z0-9_.-]*\.edit")


def edits_of(crate, folder):
    """The edits in a folder of a crate, by name."""
    return sorted((crate / folder).glob("*.edit"))


def why_not_applied(edit, crate):
    """Why an edit can't be applied to its crate, in the reading that rt has of it; None if it can."""
    path, old, pairs, texts = "", None, 0, {}
    for line in edit.read_text(encoding="utf-8").split("\n"):
        if line.startswith("file: "):
            path = line.removeprefix("file: ").strip()
            if not path.startswith(("src/", "specs/", "proofs/")) or ".." in path or not (crate / path).is_file():
                return f"it names {path}, which is no file of the crate"
        elif line.startswith("old: "):
            old = line.removeprefix("old: ")
        elif line.startswith("new:"):
            if not path or not old:
                return "a new text stands before its file or its old text"
            text = texts.get(path) or (crate / path).read_text(encoding="utf-8")
            if text.count(old) != 1:
                return f"an old text stands in {path} {text.count(old)} times, and not once"
            texts[path] = text.replace(old, line.removeprefix("new:").removeprefix(" "))
            old, pairs = None, pairs + 1
    return None if pairs else "it changes nothing"


def faults_of_folders(crate):
    """What is wrong with the two folders of a crate: files that are no edits, names that stand in both, edits that can't be applied."""
    found = {folder: edits_of(crate, folder) for folder in FOLDERS}
    for folder, edits in found.items():
        for it in sorted((crate / folder).rglob("*")):
            if not it.is_dir() and it.suffix != ".md" and not (it in edits and NAME.fullmatch(it.name)):
                yield f"{it.relative_to(TOP)} is no edit"
        for it in edits:
            why = why_not_applied(it, crate)
            if why:
                yield f"{it.relative_to(TOP)} can't be applied: {why}"
    both = {it.name for it in found["must-fail"]} & {it.name for it in found["edits"]}
    yield from (f"{crate.name} has {it} in both folders" for it in sorted(both))


def main():
    crates = sorted(it for it in (TOP / "crates").iterdir() if it.is_dir())
    counts = {it.name: len(edits_of(it, "must-fail")) for it in crates}
    whole, begun = sum(counts.values()), sum(1 for it in counts.values() if it)
    faults = [f"{name} has {count} edits in must-fail, and {MOST_OF_A_CRATE} at most" for name, count in counts.items() if MOST_OF_A_CRATE < count]
    if MOST < whole:
        faults.append(f"there are {whole} edits in must-fail, and {MOST} at most")
    if MOST_CRATES < begun:
        faults.append(f"{begun} crates have edits in must-fail, and {MOST_CRATES} at most")
    faults += [fault for it in crates for fault in faults_of_folders(it)]
    outside = sum(len(edits_of(it, "edits")) for it in crates)
    print("\n".join(faults) or f"edits of the gate: {whole} of at most {MOST}, in {begun} crates of at most {MOST_CRATES}; {outside} others; each fits its crate")
    return 1 if faults else 0


if __name__ == "__main__":
    sys.exit(main())
