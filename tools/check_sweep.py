#!/usr/bin/env python3
"""Makes the rows and the report of plans by itself, by runs of `DRSIM run`, and compares them with what `SWEEP` prints.

    tools/check_sweep.py SWEEP DRSIM PLAN..
    tools/check_sweep.py --report|--rows DRSIM PLAN

The first form compares the report, the rows, the exit status, and the script of each row with what `SWEEP` says, and what it says of the plan
side by side with itself, and of the plan before it side by side with this one. Of a text that is no plan it works out the first bad line and the
reason. The second form prints the report or the rows that it has made, and ends with their status.
How a row is made is told in `sweep_rows.py`, what is read of a plan in `plan_text.py`, what an `@run` comes to in `sweep_parts.py`, and what is said of
two plans in `sweep_compare.py`. Exit status 1 where something differs, 2 where a plan can't be taken: a track has more than 64 writes, or a run depends on what the hosts write.
"""
import os
import subprocess
import sys
import time
from concurrent.futures import ThreadPoolExecutor
from itertools import zip_longest

sys.dont_write_bytecode = True
from plan_text import BadPlan, lines_of, read_plan, text_of
from sweep_compare import compared
from sweep_parts import taken_apart
from sweep_report import Calm, Report
from sweep_rows import HEADING, Rows
from sweep_runs import Drsim, Fault

NO_PLAN = 7
MOST_TOLD = 30  # differences of a plan; all are counted


class Made:
    """What a plan comes to: its report, its rows as text, the status, and the rows themselves."""

    def __init__(self, drsim, text):
        self.found, self.by_report = [], None
        try:
            plan = read_plan(lines_of(text), drsim.steps(text))
        except BadPlan as bad:
            self.report = self.rows = f"{bad}\n"
            self.status = NO_PLAN
            return
        tried = taken_apart(plan, drsim)
        self.by_plan = Rows(tried, drsim)
        self.found = self.by_plan.all(os.cpu_count())
        self.by_report = Report(tried, self.by_plan, self.found, Calm(plan, drsim))
        self.report, self.status = self.by_report.text(), int(self.by_report.has_finding())
        self.rows = "".join(line + "\n" for line in [HEADING, *(line for row in self.found for line in self.by_plan.lines(row))])

    def scripts(self):
        """Of each row the words that show its script, and that script."""
        return [(self.by_plan.words(row.point), text_of(row.script).decode("latin-1")) for row in self.found]

    def beside(self, other):
        """What is said of this plan and of another one, and the status; the first of both that is no plan is told."""
        for letter, made in (("A", self), ("B", other)):
            if made.status == NO_PLAN:
                return f"{letter}: {made.report}", NO_PLAN
        return compared(self.by_report, other.by_report), max(self.status, other.status)


def differences(sweep, path, words, text, status):
    """How what `SWEEP` says of a plan for these words isn't the text, or ends with another status."""
    with open(path, "rb") as plan:
        run = subprocess.run([sweep, *words], stdin=plan, stdout=subprocess.PIPE, stderr=subprocess.DEVNULL, check=False)
    name = " ".join(["sweep", *words])
    if run.returncode != status:
        yield f"`{name}` ends with {run.returncode}, and not with {status}"
    theirs, ours = run.stdout.decode("latin-1"), text
    if theirs != ours:
        for number, (line, wanted) in enumerate(zip_longest(theirs.split("\n"), ours.split("\n"), fillvalue="nothing"), 1):
            if line != wanted:
                yield f"`{name}`, line {number}: {line}\n  and not: {wanted}"


def check(sweep, drsim, path, before):
    """Compares all that is said of a plan, and of the one before it side by side with this one, and prints what differs; how much that is, and the plan."""
    begun = time.monotonic()
    with open(path, "rb") as file:
        made = Made(drsim, file.read())
    pairs = [(path, made), *before]
    calls = [([], made.report, made.status), (["rows"], made.rows, made.status), *((words, script, 0) for words, script in made.scripts())]
    calls += [(["compare", other, path], *that.beside(made)) for other, that in pairs]
    with ThreadPoolExecutor(os.cpu_count()) as pool:
        found = [text for texts in pool.map(lambda call: list(differences(sweep, path, *call)), calls) for text in texts]
    print("".join(text + "\n" for text in found[:MOST_TOLD]), end="")
    print(f"{path}: {len(made.found)} points, {len(found)} differences, {time.monotonic() - begun:.0f} s", flush=True)
    return len(found), [(path, made)]


def main(words):
    if len(words) == 3 and words[0] in ("--report", "--rows"):
        with open(words[2], "rb") as file:
            made = Made(Drsim(words[1]), file.read())
        sys.stdout.buffer.write((made.report if words[0] == "--report" else made.rows).encode("latin-1"))
        return made.status
    if len(words) < 3 or words[0].startswith("-"):
        sys.exit(__doc__)
    drsim, before, differ = Drsim(words[1]), [], 0
    for path in words[2:]:
        count, before = check(words[0], drsim, path, before)
        differ += count
    return int(differ > 0)


if __name__ == "__main__":
    try:
        sys.exit(main(sys.argv[1:]))
    except Fault as fault:
        print(f"{sys.argv[-1]}: {fault}", file=sys.stderr)
        sys.exit(2)
