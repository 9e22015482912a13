#!/usr/bin/env python3
"""Reads what `SWEEP json` prints of plans, and compares it with the plan, `SWEEP rows` and the report.

    tools/check_json.py SWEEP PLAN..

The text has to be one line of JSON in ASCII, with the names of fields in their order and each once. Rows are compared field by field with `SWEEP rows`,
the table and the calm run with the report, and the plan with its own lines. All three calls have to end with one status. Of a text that is no plan they
have to print the same. Exit status 1 if something differs.
"""
import csv
import json
import re
import subprocess
import sys

NO_PLAN = 7
WHOLE = ["plan", "calm", "table", "rows"]
NUMBERS = {  # the columns of numbers
    "rows": {"disaster", "line", "part", "write", "place", "lost", "age", "refused", "first_refused_line"},
    "table": {"points", "most_lost", "age", "broken", "no_group", "fewer_members"},
}


def run(sweep, path, *words):
    """What `SWEEP` prints of a plan for these words, and its status."""
    with open(path, "rb") as plan:
        done = subprocess.run([sweep, *words], stdin=plan, stdout=subprocess.PIPE, stderr=subprocess.DEVNULL, check=False)
    return done.stdout.decode("latin-1"), done.returncode


def fields(pairs):
    """The fields of an object, of which no name comes twice."""
    made = dict(pairs)
    if len(made) != len(pairs):
        raise ValueError(f"a name comes twice: {[name for name, _ in pairs]}")
    return made


def wanted(kind, names, cells):
    """The fields of a line of rows or table: a dash is null, and a column of numbers has numbers."""
    keys = [name.replace(" ", "_") for name in names]
    return [(key, None if cell == "-" else int(cell) if key in NUMBERS[kind] else cell) for key, cell in zip(keys, cells, strict=True)]


def volumes(words):
    """The volumes of a range."""
    first, last = (words.split("-") * 2)[:2]
    return [f"{volume:04X}" for volume in range(int(first, 16), int(last, 16) + 1)]


def plan_of(path):
    """What the lines of a plan say."""
    disasters, uses, at_most = [], {}, None
    with open(path, encoding="latin-1") as text:
        for words in (line.split()[1:] for line in text if line.startswith("#sweep")):
            if words[0] == "lose":
                disasters.append(words[1:])
            elif words[0] == "use":
                name = words[1] if len(words) == 5 else None
                uses.setdefault(name, []).extend(map(list, zip(volumes(words[-3]), volumes(words[-1]), strict=True)))
            elif words[0] == "at":
                at_most = int(words[2])
    return [("disasters", disasters), ("uses", [{"name": name, "pairs": pairs} for name, pairs in uses.items()]), ("at_most", at_most)]


def calm_line(step):
    """The line of the report on a step of the calm run."""
    return f"  {step['line']} {step['text']}: {step['answer']}{' (announced)' if step['announced'] else ''}"


def differences(sweep, path):
    """How what is printed of a plan differs."""
    (text, status), (rows, *of_rows), (report, *of_report) = run(sweep, path, "json"), run(sweep, path, "rows"), run(sweep, path)
    if [status, status] != of_rows + of_report:
        yield f"it ends with {status}, and `rows` and the report with {of_rows + of_report}"
    if status == NO_PLAN:
        if not text == rows == report:
            yield f"it prints {text!r}"
        return
    if not (text.isascii() and text.endswith("}\n") and text.count("\n") == 1):
        yield "it isn't one line in ASCII"
    try:
        found = json.loads(text, object_pairs_hook=fields)
    except ValueError as fault:
        yield f"it isn't JSON: {fault}"
        return
    if list(found) != WHOLE:
        yield f"its fields are {list(found)}"
        return
    head, *lines = report.split("\n")
    calm = [line for line in lines[:next(i for i, line in enumerate(lines) if not line.startswith("  "))] if not line.endswith(": not refused (announced)")]
    table = [re.split(" {2,}", line) for line in lines[next(i for i, line in enumerate(lines) if line.startswith("lost at once ")):] if line]
    table = table[:1 + len(found["plan"]["disasters"]) * len(found["plan"]["uses"])]
    names, *cells = csv.reader(rows.splitlines())
    compared = {
        "plan": ([list(found["plan"].items())], [plan_of(path)]),
        "calm": ([calm_line(step) for step in found["calm"]], calm),
        "table": ([list(row.items()) for row in found["table"]], [wanted("table", table[0], row) for row in table[1:]]),
        "rows": ([list(row.items()) for row in found["rows"]], [wanted("rows", names, row) for row in cells]),
    }
    if f", {sum(step['answer'].startswith('E') for step in found['calm'])} refused, " not in head:
        yield f"it hasn't the refusals of `{head}`"
    for name, (theirs, ours) in compared.items():
        if len(theirs) != len(ours):
            yield f"`{name}` has {len(theirs)}, and not {len(ours)}"
        yield from (f"`{name}` {number}: {it}\n  and not: {other}" for number, (it, other) in enumerate(zip(theirs, ours), 1) if it != other)


def main(words):
    if len(words) < 2 or words[0].startswith("-"):
        sys.exit(__doc__)
    told = [f"{path}: {text}" for path in words[1:] for text in differences(words[0], path)]
    print("".join(text + "\n" for text in told[:30]) + f"JSON of {len(words) - 1} plans: {len(told)} differences")
    return int(bool(told))


if __name__ == "__main__":
    sys.exit(main(sys.argv[1:]))
