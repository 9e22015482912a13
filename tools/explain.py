#!/usr/bin/env python3
"""Shows a script with its answers beside its lines.

    drsim run < SCRIPT | tools/explain.py SCRIPT
    tools/explain.py --check       looks at the stored answers of examples/: ends with 1 if a step has no answer or no name, or if a
                                   refusal has no row in docs/ANSWERS.md

A line of several steps has the pair or volume of each before its answer, and a line outside the grammar a caret under its first fault. After
the script stands what docs/ANSWERS.md says of each refusal that came, and of writes that wait: what it means, and what to do next.
"""
import re
import sys
import textwrap
from pathlib import Path

sys.dont_write_bytecode = True
import rows

WIDEST = 72
VOLUME = r"[0-9A-Fa-f]{4}"
VOLUMES = re.compile(rf"{VOLUME}(?:-{VOLUME})?(?:,{VOLUME}(?:-{VOLUME})?)*")
SIDES = re.compile(r"[^:]+(?::[^:]+)?")
SUBSYSTEM = re.compile("[0-9A-Fa-f]{2}")


def answers_by_line(printed):
    """What was printed for each line, as texts that end with the answer of a step; lines of an image have no number."""
    found, waiting = {}, []
    for line in printed.splitlines():
        number, _, text = line.partition(" ")
        waiting.append(text if number.isdigit() else line)
        if number.isdigit() and re.match(r"(ok|held|E\d\d)\b", text):
            found.setdefault(int(number), []).append(waiting)
            waiting = []
    return found


def expanded(side):
    """The volumes of a side of a pair, one by one, or its subsystem."""
    if SUBSYSTEM.fullmatch(side):
        return [side]
    ends = [part.split("-") for part in side.split(",")]
    return [f"{volume:04X}" for part in ends for volume in range(int(part[0], 16), int(part[-1], 16) + 1)]


def names_in(words, side):
    """The pairs, volumes or subsystems of the operands whose sides are such, in order."""
    sides = [word.split(":") for word in words if SIDES.fullmatch(word) and all(map(side.fullmatch, word.split(":")))]
    return [":".join(pair) for it in sides for pair in zip(*map(expanded, it))]


def names_of(line, count):
    """The pair or volume of each of the steps of a line; nothing if there is one step, or if it isn't clear."""
    words = line.split()
    if "-volume" in words[:-1]:
        names = names_in([words[words.index("-volume") + 1]], VOLUMES)
        tried = [names, [f"session {words[-1]}", *names]]
    else:
        tried = [names_in(words, VOLUMES), names_in(words, SUBSYSTEM)]
    fits = [names[-count:] for names in tried if len(names) >= count > 1]
    return fits[0] if fits else [""] * count


def beside(raw, steps):
    """The texts that stand beside a line, and the lines below it."""
    line = raw.decode("utf-8", "replace")
    if not steps:
        return ["no answer" if line.split() and line[0] != "#" else ""]
    shown = []
    for name, (*listed, answer) in zip(names_of(line, len(steps)), steps):
        shown += [*listed, f"{name}: {answer}" if name else answer]
    return shown


def caret(raw, steps):
    """What stands below a line outside the grammar: a caret under its first fault."""
    fault = re.match(r"E01 syntax (\d+)", steps[0][-1]) if steps else None
    front = raw[:int(fault[1]) - 1].decode("utf-8", "replace") if fault else ""
    return re.sub(r"\S", " ", front) + "^" if fault else ""


def advice():
    """The rows on answers in docs/ANSWERS.md: the pattern of each, its text, what it means, and what to do next."""
    found = []
    for line in (rows.ROOT / "docs" / "ANSWERS.md").read_text(encoding="utf-8").splitlines():
        row = re.match(r"\| `((?:held|E\d\d)\b[^`]*)` \| (.*) \| (.*) \| [^|]* \|$", line)
        if row:
            means, then = (found[-1][at] if row[at].startswith("the same") else row[at] for at in (2, 3))
            found.append((rows.pattern_of(row[1]), row[1], means, then))
    return found


def folded(head, text):
    """A text after a word, on lines that aren't too long."""
    text = text.replace("(below)", "(docs/ANSWERS.md, Traps)")
    return textwrap.fill(f"{head} {text}", 110, subsequent_indent=" " * 9, break_long_words=False)


def explained(answers):
    """What is said of the answers of each row that came, with their lines."""
    for pattern, text, means, then in advice():
        lines = sorted({number for number, steps in answers.items() for step in steps if pattern.fullmatch(step[-1])})
        if lines:
            said = {f"{text}:": f"line{'s' if len(lines) > 1 else ''} {', '.join(map(str, lines))}", "  means:": means, "  next: ": then.strip()}
            yield "\n" + "\n".join(folded(head, rest) for head, rest in said.items() if rest)


def lines_of(path):
    return [line.removesuffix(b"\r") for line in path.read_bytes().removesuffix(b"\n").split(b"\n")]


def is_shown(raw, steps, patterns):
    """Whether a line has its answers, each of several steps a name, and each refusal a row."""
    told = [step[-1] for step in steps if not step[-1].startswith("ok")]
    is_named = len(steps) < 2 or all(names_of(raw.decode(), len(steps)))
    return beside(raw, steps) != ["no answer"] and is_named and all(any(it.fullmatch(text) for it in patterns) for text in told)


def faults_in_examples():
    """What can't be shown of the stored answers of examples."""
    patterns = [pattern for pattern, *_ in advice()]
    for path in sorted((rows.ROOT / "examples").glob("*.dscli")):
        if not path.with_suffix(".words").exists():
            answers = answers_by_line(path.with_suffix(".out").read_text(encoding="utf-8"))
            for number, raw in enumerate(lines_of(path), 1):
                if not is_shown(raw, answers.get(number, []), patterns):
                    yield f"{path.relative_to(rows.ROOT)}:{number}: a step without an answer, a name or a row of docs/ANSWERS.md"


def show(script, answers):
    """Prints each line with its answers, and the carets."""
    width = min(WIDEST, max(len(line) for number, line in enumerate(script, 1) if number in answers) if answers else 0)
    for number, raw in enumerate(script, 1):
        steps, line = answers.get(number, []), raw.decode("utf-8", "replace")
        below = caret(raw, steps)
        for place, text in enumerate(beside(raw, steps)):
            left = f"{number:5} {line}" if place == 0 else " " * 6
            print(f"{left:{width + 6}}  {text}".rstrip())
        if below:
            print(" " * 6 + below)


def main(words):
    if words == ["--check"]:
        faults = list(faults_in_examples())
        print("\n".join(faults), end="\n" if faults else "")
        return 1 if faults else 0
    if len(words) != 1:
        print(__doc__)
        return 2
    script = lines_of(Path(words[0]))
    answers = answers_by_line(sys.stdin.buffer.read().decode("utf-8", "replace"))
    show(script, answers)
    for said in explained(answers):
        print(said)
    return 0


if __name__ == "__main__":
    sys.exit(main(sys.argv[1:]))
