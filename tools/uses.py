#!/usr/bin/env python3
"""Checks that each line of crates.txt names just the crates that the crate's own files name; with --write, takes the others out.

A crate that is only reached through another one isn't listed: rt finds it by itself, and each name in these lines costs every run
time, since rt looks at a crate once for each way that leads to it."""
import os
import re
import sys

HEAD = re.compile(r"^([a-z][a-z0-9_]*)([^:#]*):(.*)$")


def names_in(folder):
    """All lower-case words in a crate's files."""
    words = set()
    for part in ("src", "specs", "proofs"):
        for at, _, files in os.walk(f"{folder}/{part}"):
            for file in files:
                if file.endswith((".rt", ".antt")):
                    with open(f"{at}/{file}", encoding="utf-8") as it:
                        words |= set(re.findall(r"\b[a-z][a-z0-9_]*\b", it.read()))
    return words


def main():
    os.chdir(f"{os.path.dirname(os.path.abspath(__file__))}/..")
    with open("crates.txt", encoding="utf-8") as it:
        lines = it.read().split("\n")
    unnamed = []
    for place, line in enumerate(lines):
        found = HEAD.match(line)
        if not found:
            continue
        crate, said, listed = found[1], found[2], found[3].split()
        words = names_in(f"crates/{crate}")
        kept = [name for name in listed if name in words]
        if kept != listed:
            unnamed.append(f"{crate}: {' '.join(name for name in listed if name not in words)}")
            lines[place] = f"{crate}{said}:{''.join(' ' + name for name in kept)}"
    if "--write" in sys.argv[1:]:
        with open("crates.txt", "w", encoding="utf-8") as it:
            it.write("\n".join(lines))
    elif unnamed:
        print("crates.txt lists what a crate doesn't name:\n" + "\n".join(unnamed))
        return 1
    print("crates.txt: each line names what its crate names")
    return 0


sys.exit(main())
