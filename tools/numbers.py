#!/usr/bin/env python3
"""Writes what README.md counts and shows, the numbers and the script of the first screen beside its answers, and the report in docs/SWEEPS.md.

    tools/numbers.py            writes them between their markers
    tools/numbers.py --check    compares them with the sources, and ends with 1 where one differs
"""
import re
import sys
from pathlib import Path

ROOT = Path(__file__).resolve().parent.parent
SCREEN = ROOT / "examples" / "first-group"
REPORT = ROOT / "examples" / "sweeps" / "two-hosts.report"


def lines_of(pattern):
    """The lines of the files that a pattern names, in thousands."""
    count = sum(len(path.read_text(encoding="utf-8").splitlines()) for path in ROOT.glob(pattern))
    return f"{round(count, -3):,}"


def count_of(pattern):
    return sum(1 for _ in ROOT.glob(pattern))


def found_in(page, pattern):
    """What the groups of a pattern are in a page. Ends the script if no line of the page fits, since a row would be missing then."""
    match = re.search(pattern, (ROOT / page).read_text(encoding="utf-8"), re.M)
    if not match:
        sys.exit(f"{page}:1: has no line {pattern}, of which README.md has a row")
    return match.groups()


def gate_row():
    """What the gate took, by the table of docs/GATE.md, which is of one run from nothing or of all that was seen of several runs."""
    what, taken = found_in("docs/GATE.md", r"^\| (the whole gate|all that was seen) \| \d+ minutes of the clock, (\d+) of a processor \|$")
    return f"| the gate, {'from nothing' if what == 'the whole gate' else 'as far as seen'} | {taken} minutes of a processor |"


def numbers():
    crates = sum(1 for line in (ROOT / "crates.txt").read_text().splitlines() if line.strip() and line[0] != "#")
    definitions, lines = (f"{int(n):,}" for n in found_in("docs/BOOK.md", r"^(\d+) definitions, (\d+) lines$"))
    return [
        "| | |",
        "|---|---|",
        f"| code | about {lines_of('crates/*/src/**/*.rt')} lines in {crates} crates |",
        f"| to believe: what the two contracts of the top call reach | {definitions} definitions, {lines} lines |",
        f"| proofs | about {lines_of('crates/*/proofs/**/*.antt')} lines |",
        f"| wrong bodies that the prover must refuse | {count_of('crates/*/must-fail/*.edit')} in the gate, {count_of('crates/*/edits/*.edit')} outside it |",
        f"| scenarios and examples, byte by byte | {count_of('crates/scenarios/data/*.dscli')} and {count_of('examples/*.dscli')} |",
        gate_row(),
    ]


def screen():
    """Each line of the script, without comments and empty ones, beside the answers of its steps."""
    answers = {}
    for line in SCREEN.with_suffix(".out").read_text().splitlines():
        answers.setdefault(int(line.partition(" ")[0]), []).append(line)
    script = [(n, line) for n, line in enumerate(SCREEN.with_suffix(".dscli").read_text().splitlines(), 1)
              if line.strip() and line[0] != "#"]
    width = max(len(line) for _, line in script)
    return ["```"] + [f"{line:{width}}   {', '.join(answers.get(n, []))}".rstrip() for n, line in script] + ["```"]


def report():
    """The report on the first plan of a sweep."""
    return ["```"] + REPORT.read_text().splitlines() + ["```"]


def between(page, text, name, lines):
    """The text with these lines between the two markers of a name."""
    begin, end = f"<!-- {name} -->\n", f"<!-- end of {name} -->\n"
    if text.count(begin) != 1 or text.count(end) != 1:
        sys.exit(f"{page}:1: lacks the markers of its {name}")
    before, _, rest = text.partition(begin)
    return before + begin + "\n".join(lines) + "\n" + end + rest.partition(end)[2]


def main(words):
    if words not in ([], ["--check"]):
        print(__doc__)
        return 2
    stale = False
    for page, parts in {"README.md": {"screen": screen(), "numbers": numbers()}, "docs/SWEEPS.md": {"report": report()}}.items():
        text = (ROOT / page).read_text(encoding="utf-8")
        for name, lines in parts.items():
            made = between(page, text, name, lines)
            if words and made != text:
                print(f"{page}:1: its {name} isn't what tools/numbers.py writes")
                stale = True
            elif not words:
                text = made
        if not words:
            (ROOT / page).write_text(text, encoding="utf-8")
    return 1 if stale else 0


if __name__ == "__main__":
    sys.exit(main(sys.argv[1:]))
