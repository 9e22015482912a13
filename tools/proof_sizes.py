#!/usr/bin/env python3
"""How long the proofs of a tree are, and in how many files some names stand.

proof_sizes.py [FOLDER] [NAME..]

Counts lines and bytes of proofs (.antt of proofs/), without imports, comments and empty lines: those of the crates of laws with dr_facts, and those
of all crates. Of each name it tells in how many files of crates it stands (.rt and .antt), and how many of the lines of laws and dr_facts have one
of them. FOLDER is a checkout, this one if none is given. It compares two trees before and after a change of proofs, and is no part of the gate.
"""
import re
import sys
from pathlib import Path

TOP = Path(__file__).resolve().parent.parent


def counted(path):
    """The lines of a proof that count."""
    lines = path.read_text(encoding="utf-8").split("\n")
    return [line for line in lines if line.strip() and not line.strip().startswith(("--", "use ", "pub use "))]


def is_law(path, top):
    crate = path.relative_to(top).parts[1]
    return crate == "dr_facts" or crate.startswith("dr_laws_")


def sizes(paths):
    lines = [line for path in paths for line in counted(path)]
    return f"{len(lines)} lines, {sum(len(line.encode()) + 1 for line in lines)} bytes"


def main(words):
    top = Path(words.pop(0)) if words and Path(words[0]).is_dir() else TOP
    proofs = sorted(top.glob("crates/*/proofs/**/*.antt"))
    laws = [path for path in proofs if is_law(path, top)]
    print(f"proofs of laws and dr_facts: {sizes(laws)}")
    print(f"all proofs: {sizes(proofs)}")
    sources = [path for path in top.glob("crates/*/**/*") if path.suffix in (".rt", ".antt") and "/out/" not in str(path)]
    texts = [path.read_text(encoding="utf-8") for path in sources]
    for name in words:
        word = re.compile(rf"\b{name}\b")
        print(f"{name}: {sum(bool(word.search(text)) for text in texts)} files")
    if words:
        any_of = re.compile(r"\b(?:" + "|".join(words) + r")\b")
        print(f"lines of laws and dr_facts with one of these: {sum(bool(any_of.search(line)) for path in laws for line in counted(path))}")


if __name__ == "__main__":
    main(sys.argv[1:])
