#!/usr/bin/env python3
"""Checks that what docs/COMMANDS.md, docs/ANSWERS.md and docs/SWEEPS.md show is what scenarios, examples and plans print; exit status 1 if it isn't.

Each example of COMMANDS.md is a line of the scenario each-command-once, with its answers. What its table says that DSCLI has and this hasn't
stands in a line of the scenario dscli-words-that-are-refused that answers E01. Each row of ANSWERS.md names a scenario or
an example (in its last column) whose output has the answer that the row begins with; rows without one say so there. Each row of SWEEPS.md that
names plans of examples/sweeps/mistakes there shows in its second column what the report of each has, and with which status it ends; and all plans there
that are none stand in such a row.
"""
import re
import sys
from pathlib import Path

ROOT = Path(__file__).resolve().parent.parent
MISTAKES = ROOT / "examples" / "sweeps" / "mistakes"
SCRIPTS = [ROOT / "crates" / "scenarios" / "data", ROOT / "examples"]
MISSING = "## DSCLI has it, this hasn't"
VALUES = {"VOL": r"[0-9A-F]{4}", "NAME": r"[A-Za-z][\w.-]*", "SS": r"[0-9A-F]{2}", "BYTES": r"(?:[0-9A-F]{2})+", "wN": r"w\d+", "mN": r"m\d+",
          "PHASE": r"[A-Z][a-z]+", "STATE": r"(?:Copy Pending|Full Duplex|Suspended)"}


def answers_of(name):
    """The answers of a script by its lines; none where there is no such script."""
    for folder in SCRIPTS:
        path = folder / f"{name}.out"
        if path.exists():
            answers = {}
            for line in path.read_text().splitlines():
                number, _, answer = line.partition(" ")
                if number.isdigit():  # the lines of an image have no number
                    answers.setdefault(int(number), []).append(answer)
            return answers, (folder / f"{name}.dscli").read_text().split("\n")
    return None, None


def faults_in_commands(path):
    answers, script = answers_of("each-command-once")
    shown = {(line, ", ".join(answers.get(n, []))) for n, line in enumerate(script, 1)}
    inside = False
    for number, line in enumerate(path.read_text(encoding="utf-8").split("\n"), 1):
        inside ^= line.startswith("```")
        command, gap, answer = line.partition("  ")
        if inside and gap and not line.startswith("```") and (command, answer.strip()) not in shown:
            yield f"{path.relative_to(ROOT)}:{number}: no line of each-command-once with these answers"


def faults_in_what_is_missing(path):
    """The words in backquotes of the first column of that table that stand together in no line which is outside the grammar."""
    answers, script = answers_of("dscli-words-that-are-refused")
    refused = [set(line.split()) for n, line in enumerate(script, 1) if any(a.startswith("E01") for a in answers.get(n, []))]
    refused += [{part for word in words for part in word.split(":")} for words in refused]
    inside = False
    for number, line in enumerate(path.read_text(encoding="utf-8").split("\n"), 1):
        if line.startswith("## "):
            inside = line == MISSING
        if inside and line.startswith("| "):
            for span in re.findall(r"`([^`]+)`", line.split(" | ")[0]):
                if not any(set(span.split()) <= words for words in refused):
                    yield f"{path.relative_to(ROOT)}:{number}: no line of dscli-words-that-are-refused with `{span}` answers E01"


def pattern_of(answer):
    """What an answer with words in the place of values stands for."""
    words = [VALUES.get(word) or re.sub(r"\b[A-Zmn]\b", r"\\d+", re.escape(word)) for word in answer.split(" ")]
    return re.compile(" ".join(words))


def faults_in_answers(path):
    for number, line in enumerate(path.read_text(encoding="utf-8").split("\n"), 1):
        row = re.match(r"\| `((?:ok|held|E\d\d)\b[^`]*)`.*\| ([^|]*) \|$", line)
        if row:
            names = re.findall(r"`([\w-]+)`", row[2])
            if not names and not row[2].startswith("none"):
                yield f"{path.relative_to(ROOT)}:{number}: names no script, and doesn't say none"
            for name in names:
                answers, _ = answers_of(name)
                told = [a for here in (answers or {}).values() for a in here]
                if not any(pattern_of(row[1]).fullmatch(a) for a in told):
                    yield f"{path.relative_to(ROOT)}:{number}: {name} doesn't print `{row[1]}`"


def report_on(plan):
    """What is stored of a plan with a mistake: the lines of its report, and its status."""
    report, status = (MISTAKES / f"{plan}{ending}" for ending in (".report", ".status"))
    return [line.strip() for line in report.read_text().splitlines()], int(status.read_text()) if status.exists() else 0


def faults_in_sweeps(path):
    plans, named = {file.stem for file in MISTAKES.glob("*.plan")}, set()
    for number, line in enumerate(path.read_text(encoding="utf-8").split("\n"), 1):
        cells = line.strip("| ").split(" | ")
        here = plans.intersection(re.findall(r"`([\w-]+)`", cells[-1]))
        if not here or not line.startswith("| "):
            continue
        text, wanted = re.search(r"`([^`]+)`(?:.* status (\d))?", cells[1]).groups()
        pattern = re.sub(r"VVVV|NAME|COLUMN", r"[\\w.-]+", re.escape(text))
        named |= here
        for plan in sorted(here):
            lines, status = report_on(plan)
            if not any(re.match(f"(?:bad plan line \\d+: )?{pattern}", told) for told in lines) or status != int(wanted or 7):
                yield f"{path.relative_to(ROOT)}:{number}: {plan} doesn't print `{text}`, or has another status"
    for plan in sorted(plans - named):
        if report_on(plan)[1] == 7:
            yield f"{path.relative_to(ROOT)}:1: no row has the plan {plan}"


def main():
    commands = ROOT / "docs" / "COMMANDS.md"
    faults = [*faults_in_commands(commands), *faults_in_what_is_missing(commands), *faults_in_answers(ROOT / "docs" / "ANSWERS.md"),
              *faults_in_sweeps(ROOT / "docs" / "SWEEPS.md")]
    print("\n".join(faults), end="\n" if faults else "")
    return 1 if faults else 0


if __name__ == "__main__":
    sys.exit(main())
