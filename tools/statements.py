#!/usr/bin/env python3
"""Compares the public statements of two trees: signatures and clauses of public functions, and definitions of specs/.

statements.py OLD NEW [RENAMES]   lists those that one tree has and the other hasn't; exit status 1 where there are any

OLD and NEW are checkouts, or revisions of this one. A line of the file RENAMES is a name, a blank
and the one by which both trees are read. Where a
statement stands, its comments and its layout don't count; nor do the paths of names, which are compared by their last word.
"""
import re
import subprocess
import sys
from collections import Counter
from pathlib import Path

TOP = Path(__file__).resolve().parent.parent
WORD = re.compile(r"[\w'-]+|[^\w\s]")


def sources(tree):
    """(path, text) of each .rt file of src/ and each .antt file of specs/."""
    if Path(tree).is_dir():
        for path in sorted(Path(tree).glob("crates/*/*/**/*")):
            if path.suffix in (".rt", ".antt") and "/out/" not in str(path):
                yield str(path.relative_to(tree)), path.read_text(encoding="utf-8")
        return
    names = subprocess.run(["git", "ls-tree", "-r", "--name-only", tree], cwd=TOP, capture_output=True, text=True, check=True).stdout
    for name in names.splitlines():
        if name.startswith("crates/") and name.endswith((".rt", ".antt")):
            yield name, subprocess.run(["git", "show", f"{tree}:{name}"], cwd=TOP, capture_output=True, text=True, check=True).stdout


def functions(text):
    """The signature with its clauses of each public function."""
    for found in re.finditer(r"^ *pub fn .*?(?=^ *\{)", text, re.M | re.S):
        yield found.group()


def definitions(text):
    """Each definition of a file of specs: a paragraph without its comments."""
    lines = [it for it in text.split("\n") if not it.strip().startswith(("--", "use ", "pub use ", "pub mod ", "mod "))]
    for paragraph in re.split(r"\n\s*\n", "\n".join(lines)):
        if paragraph.strip():
            yield paragraph


def statements(tree, renames):
    every = Counter()
    for path, text in sources(tree):
        kind = path.split("/")[2]
        for statement in functions(text) if kind == "src" else definitions(text) if kind == "specs" else ():
            words = WORD.findall(re.sub(r"\b(?:\w+::)+(?=\w)", "", statement))
            every[" ".join(renames.get(word, word) for word in words)] += 1
    return every


def main(words):
    renames = {}
    if len(words) == 3:
        renames = dict(it.split() for it in Path(words[2]).read_text(encoding="utf-8").splitlines() if it.strip())
    old, new = statements(words[0], renames), statements(words[1], renames)
    for sign, rest in (("-", old - new), ("+", new - old)):
        for statement in sorted(rest):
            print(sign, statement)
    print(f"{sum(old.values())} statements before, {sum(new.values())} after, {sum((old & new).values())} the same")
    return 1 if old != new else 0


if __name__ == "__main__":
    if len(sys.argv) not in (3, 4):
        sys.exit(__doc__)
    sys.exit(main(sys.argv[1:]))
