#!/usr/bin/env python3
"""Writes the table of docs/GATE.md from what tools/gate_times.py noted of one run of the gate, or of several one after another.

gate_table.py [--date DATE] [--processors N] [--minutes N] TIMES..

The date, the processors and the minutes of the clock are those that the files tell, where they aren't given. What a later file
tells of a check goes before what an earlier one does. Where no file tells of a check, the gate had kept it, or it was too
short to be seen, and its place has a dash; the table tells of the whole gate where one run did all proofs. Edits that take more
than 30 seconds of a processor are named on standard error.
"""
import argparse
import re
import sys
from pathlib import Path

TOP = Path(__file__).resolve().parent.parent
PAGE = TOP / "docs" / "GATE.md"
BEGIN, END = "<!-- table -->", "<!-- end of table -->"
LONG = 30


def read_times(path):
    """The seconds of a processor of each check, by its crate and kind, and what the first and the last line tell."""
    times, date, processors, clock = {}, "", 0, 0.0
    for line in path.read_text(encoding="utf-8").splitlines():
        parts = line.split("\t")
        if len(parts) == 4:
            taken, _, crate, kind = parts
            times[crate, kind] = times.get((crate, kind), 0.0) + float(taken)
        elif line.startswith("begin "):
            _, date, processors = line.split()
        elif line.startswith("end "):
            clock = float(line.split()[1])
    return times, date, int(processors), clock


def crates():
    """The crates, in the order of crates.txt."""
    lines = (TOP / "crates.txt").read_text(encoding="utf-8").splitlines()
    return [it.split(":")[0].split()[0] for it in lines if it.strip() and not it.startswith("#")]


def edits_of(crate):
    return sorted(it.stem for it in (TOP / "crates" / crate / "must-fail").glob("*.edit"))


def tests_of(crate):
    texts = [it.read_text(encoding="utf-8") for it in (TOP / "crates" / crate / "src").rglob("*.rt")]
    return sum(len(re.findall(r"^\s*#\[test\]", it, re.M)) for it in texts)


def seconds(found):
    """The sum of what was told, or a dash where nothing was."""
    told = [it for it in found if it is not None]
    return f"{sum(told):.0f}" if told else "–"


def crate_row(crate, times):
    edits, tests = edits_of(crate), tests_of(crate)
    proof = seconds([times.get((crate, it)) for it in ("proof", "build")])
    of_tests = seconds([times.get((crate, "tests"))]) if tests else ""
    of_base = seconds([times.get((crate, "base"))]) if edits else ""
    of_edits = seconds([times.get((crate, f"edit {it}")) for it in [*edits, "?"]]) if edits else ""
    return f"| `{crate}` | {len(edits)} | {tests} | {proof} | {of_tests} | {of_base} | {of_edits} |"


def edit_row(crate, times):
    told = [(it, times.get((crate, f"edit {it}"))) for it in edits_of(crate)]
    return f"| `{crate}` | {', '.join(f'{name} {seconds([taken])}' for name, taken in told)} |"


def is_tried(crate, edit, times):
    """Whether an edit was seen; the first of a crate may be seen as what its edits begin with."""
    return (crate, f"edit {edit}") in times or ((crate, "base") in times and edit == edits_of(crate)[0])


def head(times, date, processors, minutes, runs):
    sum_of = lambda kinds: sum(taken for (_, kind), taken in times.items() if kind.startswith(kinds)) / 60
    every = crates()
    edits, tests = sum(len(edits_of(it)) for it in every), sum(tests_of(it) for it in every)
    told = sum(is_tried(crate, it, times) for crate in every for it in edits_of(crate))
    is_whole = runs == 1 and all((it, "proof") in times or (it, "build") in times for it in every)
    return [
        "| | |",
        "|---|---|",
        f"| date | {date} |",
        f"| processors | {processors} |",
        f"| {'the whole gate' if is_whole else 'all that was seen'} | {minutes:.0f} minutes of the clock, {sum_of(''):.0f} of a processor |",
        f"| of these the proofs and builds of {len(every)} crates | {sum_of(('proof', 'build')):.0f} minutes of a processor |",
        f"| {tests} tests | {sum_of('tests'):.0f} minutes of a processor for their proof |",
        f"| what the edits begin with: a check of each crate that has some | {sum_of('base'):.0f} minutes of a processor |",
        f"| {edits} edits, {told} of them tried | {sum_of('edit'):.0f} minutes of a processor |",
    ]


def table(times, date, processors, minutes, runs):
    rows = [*head(times, date, processors, minutes, runs), "", "Seconds of a processor:", ""]
    rows += ["| crate | edits | tests | its proof | with its tests | before its edits | its edits |", "|---|---|---|---|---|---|---|"]
    rows += [crate_row(it, times) for it in crates()]
    rows += ["", "Each edit, in seconds of a processor:", "", "| crate | edits |", "|---|---|"]
    rows += [edit_row(it, times) for it in crates() if edits_of(it)]
    return "\n".join(rows)


def main():
    words = argparse.ArgumentParser(usage="gate_table.py [--date DATE] [--processors N] [--minutes N] TIMES..")
    words.add_argument("--date")
    words.add_argument("--processors", type=int)
    words.add_argument("--minutes", type=float)
    words.add_argument("times", nargs="+", type=Path)
    given = words.parse_args()
    times, date, processors, clock = {}, "", 0, 0.0
    for path in given.times:
        more, date, processors, took = read_times(path)
        times.update(more)
        clock += took
    page = PAGE.read_text(encoding="utf-8")
    if page.count(BEGIN) != 1 or page.count(END) != 1:
        sys.exit(f"{PAGE} has no place for the table, between a line {BEGIN} and a line {END}")
    before, after = page.split(BEGIN)[0], page.split(END)[1]
    text = table(times, given.date or date, given.processors or processors, given.minutes or clock / 60, len(given.times))
    PAGE.write_text(f"{before}{BEGIN}\n{text}\n{END}{after}", encoding="utf-8")
    for (crate, kind), taken in sorted(times.items(), key=lambda it: -it[1]):
        if kind.startswith("edit ") and LONG < taken:
            print(f"{crate}: {kind} takes {taken:.0f} seconds of a processor", file=sys.stderr)


if __name__ == "__main__":
    main()
