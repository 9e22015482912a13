"""The text of a plan of a sweep: what it says, or its first bad line and the reason, by the rules of docs/SWEEPS.md.

Which lines are in the grammar, and how many steps they make, is asked of `drsim`: each step prints one answer, and a line outside the
grammar is answered `E01 syntax COLUMN`, whatever came before. Each of several steps of a line is written as a line of its own here.
"""
import re
from dataclasses import dataclass, field
from functools import lru_cache

MOST = 8  # disasters, servers of one, and uses
NAME = re.compile(r"[A-Za-z][A-Za-z0-9._-]{0,23}")
VOLUME = re.compile(r"[0-9A-Fa-f]{4}")
NUMBER = re.compile(r"[0-9]{1,10}")
MAY_STAND = {
    "start": "lose NAME .., refused",
    "losing": "lose NAME .., use [NAME] RANGE for RANGE, refused",
    "using": "use [NAME] RANGE for RANGE, at most NUMBER, here, refused",
    "bounded": "here, refused",
    "trying": "then, refused",
    "recovering": "refused",
}
MISSING = {"start": "lose", "losing": "use", "using": "here", "bounded": "here", "trying": "then"}
AFTER = {  # the stage after a line of the plan's own, by its first word and the stage before
    "lose": {"start": "losing", "losing": "losing"},
    "use": {"losing": "using", "using": "using"},
    "at": {"using": "bounded"},
    "here": {"using": "trying", "bounded": "trying"},
    "then": {"trying": "recovering"},
}


class BadPlan(Exception):
    """The first line with which the lines so far begin no plan, and why."""

    def __init__(self, line, reason):
        super().__init__(f"bad plan line {line}: {reason}")


@dataclass
class Use:
    """Volumes that hosts use after the recovery, each in place of another one: pairs (first, second)."""

    name: str
    pairs: list


@dataclass
class Tried:
    """A tried step: the number of its line, its part (0 for a line of one step), and the line that it is."""

    line: int
    part: int
    text: str

    @property
    def place(self):
        return f"{self.line}.{self.part}" if self.part else str(self.line)


@dataclass
class Plan:
    loses: list = field(default_factory=list)
    uses: list = field(default_factory=list)
    bound: int = None
    setup: list = field(default_factory=list)
    tried: list = field(default_factory=list)
    then_line: int = 0
    recovery: list = field(default_factory=list)
    announced: set = field(default_factory=set)

    def place(self, count):
        """The name of the gap after that many tried steps."""
        return self.tried[count - 1].place if count else str(len(self.setup) + 1)


def lines_of(text):
    """The lines of a text; a carriage return before a line feed is dropped."""
    lines = text.decode("latin-1").split("\n")
    if lines[-1] == "":
        lines.pop()
    return [line[:-1] if line.endswith("\r") else line for line in lines]


def text_of(lines):
    return "".join(line + ("\r\n" if line.endswith("\r") else "\n") for line in lines).encode("latin-1")


@lru_cache(maxsize=10_000)
def words_of(line):
    """Spaces and tabs stand between words. Nobody changes the list."""
    return [word for word in re.split("[ \t]", line) if word]


def span(word):
    """The volumes of a word: one, or a range within a subsystem. None where it is neither."""
    ends = word.split("-")
    if len(ends) > 2 or not all(VOLUME.fullmatch(end) for end in ends):
        return None
    first, last = int(ends[0], 16), int(ends[-1], 16)
    return [f"{v:04X}" for v in range(first, last + 1)] if first >> 8 == last >> 8 and first <= last else None


def number(word):
    return int(word) if NUMBER.fullmatch(word) and int(word) < 1 << 32 else None


# ---- the plan's own lines


def is_mark(line):
    return line.startswith("#sweep")


def mark_of(line):
    """What a line of the plan's own says, as its word and values; None where it says nothing."""
    words = words_of(line)
    if words[0] != "#sweep" or len(words) < 2:
        return None
    word, rest = words[1], words[2:]
    if word == "lose" and rest and all(NAME.fullmatch(name) for name in rest):
        return word, rest
    if word == "use" and len(rest) in (3, 4) and rest[-2] == "for" and all(NAME.fullmatch(name) for name in rest[:-3]):
        first, second = span(rest[-3]), span(rest[-1])
        return (word, rest[0] if rest[:-3] else None, first, second) if first and second else None
    if word == "at" and len(rest) == 2 and rest[0] == "most" and number(rest[1]) is not None:
        return word, number(rest[1])
    return (word,) if word in ("here", "then", "refused") and not rest else None


class Reader:
    """Reads a plan line by line; `steps` says of a line's number what its steps are answered (see `Drsim.steps`)."""

    def __init__(self, steps):
        self.steps, self.plan, self.stage, self.waits = steps, Plan(), "start", False
        self.servers, self.sizes = [], {}

    def read(self, at, line):
        if is_mark(line):
            if self.waits:
                raise BadPlan(at, "refused, but no line follows")
            self.mark(at, line, mark_of(line))
            return
        answers = self.steps.get(at, [])
        if answers and (fault := re.fullmatch(r"E01 syntax (\d+)", answers[0])):
            raise BadPlan(at, f"syntax {fault[1]}")
        if self.waits and not answers:
            raise BadPlan(at, "refused, but no line follows")
        self.waits = False
        if self.stage == "trying":
            self.plan.tried += tried_of(at, line, len(answers))
        else:
            self.keep(line)
            if self.stage != "recovering" and answers:
                self.define(line)

    def keep(self, line):
        if self.stage == "recovering":
            self.plan.recovery.append(line)
        elif self.stage != "trying":
            self.plan.setup.append(line)

    def define(self, line):
        """What a line of the set-up defines, as a matter of text."""
        words = words_of(line)
        if words[0] == "@server":
            self.servers.append(words[1])
        if words[0] == "@volume":
            for volume in span(words[1]):
                self.sizes.setdefault(volume, int(words[3]))

    def mark(self, at, line, said):
        after = self.stage if said == ("refused",) else said and AFTER[said[0]].get(self.stage)
        if not after:
            raise BadPlan(at, f"here may stand: {MAY_STAND[self.stage]}")
        if said[0] == "refused":
            self.plan.announced.add(at + 1)
            self.waits = True
        elif said[0] == "lose":
            self.lose(at, said[1])
        elif said[0] == "use":
            self.use(at, *said[1:])
        elif said[0] == "at":
            self.plan.bound = said[1]
        elif said[0] == "then":
            self.plan.then_line = at
        if said[0] not in ("here", "then"):
            self.keep(line)
        self.stage = after

    def lose(self, at, names):
        if len(self.plan.loses) == MOST:
            raise BadPlan(at, f"more than {MOST} disasters")
        if len(names) > MOST:
            raise BadPlan(at, f"more than {MOST} servers")
        for place, name in enumerate(names):
            if name in names[:place]:
                raise BadPlan(at, f"server twice: {name}")
            if name not in self.servers:
                raise BadPlan(at, f"unknown server {name}")
        self.plan.loses.append(names)

    def use(self, at, name, firsts, seconds):
        known = next((use for use in self.plan.uses if use.name == name), None)
        if not known and len(self.plan.uses) == MOST:
            raise BadPlan(at, f"more than {MOST} uses")
        if len(firsts) != len(seconds):
            raise BadPlan(at, "ranges of unequal length")
        for pair in zip(firsts, seconds):
            for volume in pair:
                if volume not in self.sizes:
                    raise BadPlan(at, f"unknown volume {volume}")
            if len({self.sizes[volume] for volume in pair}) > 1:
                raise BadPlan(at, f"other size: {pair[0]} {pair[1]}")
        if not known:
            known = Use(name, [])
            self.plan.uses.append(known)
        known.pairs += zip(firsts, seconds)

    def finish(self, at):
        if self.waits:
            raise BadPlan(at, "refused, but no line follows")
        if self.stage in MISSING:
            raise BadPlan(at, f"missing: {MISSING[self.stage]}")
        return self.plan


def read_plan(lines, steps):
    reader = Reader(steps)
    for at, line in enumerate(lines, 1):
        reader.read(at, line)
    return reader.finish(len(lines) + 1)


# ---- the steps of a line

# In this order the options of a step's own line stand, and these have a value. The others that a line may have change nothing.
OPTIONS = ("-dev", "-remotedev", "-force", "-type", "-mode", "-unconditional", "-at", "-nocp", "-persist", "-record", "-tgtinhibit", "-freeze", "-fast",
           "-tgtpprc", "-seqnum", "-lss", "-action", "-volume")
VALUED = ("-dev", "-remotedev", "-type", "-mode", "-at", "-seqnum", "-lss", "-action", "-volume", "-remotewwnn")


def options_of(words):
    """The options of a line with their values, and its operands."""
    options, place = {}, 1
    while place < len(words) and words[place].startswith("-"):
        word = words[place]
        place += 1
        options[word] = None
        if word in VALUED:
            options[word] = words[place]
            place += 1
    return options, words[place:]


def said(command, options, operand):
    """A line with options in their order."""
    words = [command]
    for option in OPTIONS:
        if option in options and (option, options[option]) != ("-mode", "full"):
            words += [option] if options[option] is None else [option, spelled(option, options[option])]
    return " ".join(words + [operand])


def spelled(option, value):
    return value.upper().lstrip("0") or "0" if option == "-seqnum" else value.upper() if option in ("-lss", "-volume") else value


def items(word):
    """The items that an operand names: volumes, pairs of volumes, subsystems or pairs of these."""
    if ":" in word:
        first, second = word.split(":")
        return [f"{a}:{b}" for a, b in zip(items(first), items(second))]
    return [word.upper()] if len(word) == 2 else [v for part in word.split(",") for v in span(part)]


def steps_of(line):
    """A line of several steps as a line for each step."""
    words = words_of(line)
    if words[0] == "@volume":
        return [f"@volume {volume} {words[2]} {int(words[3])}" for volume in span(words[1])]
    options, operands = options_of(words)
    if words[0] not in ("mksession", "chsession"):
        return [said(words[0], options, item) for word in operands for item in items(word)]
    session = operands[0].upper()
    found = [] if words[0] == "chsession" else [said("mksession", {k: v for k, v in options.items() if k != "-volume"}, session)]
    return found + [said("chsession", {"-action": "add", **options, "-volume": volume}, session) for volume in items(options["-volume"])]


def tried_of(at, line, count):
    """The tried steps of a line that makes that many."""
    if count < 2:
        return [Tried(at, 0, line)] * count
    return [Tried(at, part, text) for part, text in enumerate(steps_of(line), 1)]
