#!/usr/bin/env python3
"""Writes docs/BOOK.md: every definition that the contract of the top call reaches, by chapters.

    tools/book.py                 writes it
    tools/book.py --check         compares it with the sources, and ends with 1 where it differs
    tools/book.py --uncommented   lists the definitions of all specs that have no comment, and ends with 1 where there are any
"""
import re
import sys
from pathlib import Path

ROOT = Path(__file__).resolve().parent.parent
BOOK = ROOT / "docs" / "BOOK.md"
CALL = ROOT / "crates" / "dr_top" / "src" / "top.rt"
CALL_NAME = "pub fn drsim"

# The chapters with their modules, in reading order. What is reached and stands in none of them comes last.
CHAPTERS = [
    ("What a call is", "Words Outcome Trials Trial Stands Cut Followed Lines Faults Given Limits Runs Carried Fits View"),
    ("The headline", "Headline NewestGroup ClosedCuts Cuts Dependence HeldWrites Groups Recovered Decided Decisions"
                     " Seals Windows Moments Table Laws Held TakenWrites Stored Formed BothLost CutMoments"),
    ("Orders that travel", "Arrivals OldOrders OlderNumbers Commits Flashed Flights Attempts Calm"),
    ("Pairs, freezes and answers", "Sites FirstSite Compared Returned Frozen InSync Secondaries Acknowledged RefusedSteps Showing Stops"),
    ("Listings and images", "Listings Listing Listed PlantImage LineText Recovery Offline Found Pieces Imaged GivesBack"),
    ("Devices", "State Layout BigEndian Control Paths Links Views"),
    ("Journal and lists", "Histories Contents Tables Answers Refusals"),
    ("Moves", "Moves Carry Relations Pairs"),
    ("Plans by command", "Plans PlanParts Entries WriteEntries PairEntries Sessions Phases SessionPlans SessionEntries"
                         " Messages MessagePlans Forming RecoveryPlans"),
    ("Grammar", "Grammar LineTable LineSteps LineWords"),
    ("Texts", "Text Spelling"),
]
REST = "What else they need"

HEAD = re.compile(r" *(?P<how>(?:abbrev |unfoldable )?(?:pub )?(?:record |data )?)(?P<name>[A-Za-z_][\w-]*'*)(?= *:| *[({])")
USE = re.compile(r"(?:(?:ghost|unfoldable|pub) )*use Rattle\.([\w.]+?)(?:\.\{(.*)\}| as (\w+))?;?$")
WORD = re.compile(r"(?<![\w.'])[A-Za-z_]\w*'*(?:\.\w+'*)*")


class Uses:
    """The names that lines of use bring: each with its path, and its name there, or none where it stands for the path."""

    def __init__(self, lines=()):
        self.names, self.handed_on = {}, []
        for line in lines:
            self.take(line)

    def take(self, line):
        path, names, alias = USE.match(line).groups()
        if alias:
            self.names[alias] = (path, None)
        for name in re.split(r", *", names or ""):
            old, _, new = name.partition(" as ")
            self.names[new or old] = (path, old)
            if "pub use" in line:
                self.handed_on.append(new or old)


class Definition:
    def __init__(self, module, name, depth, comment, scopes):
        self.module, self.name, self.depth = module, name, depth
        self.comment, self.scopes, self.text = comment, scopes, []

    def code(self):
        return [line for line in self.text if not line.strip().startswith("--")]

    def names(self):
        """Its own name, and those of its constructors."""
        if " data " not in " " + self.text[0]:
            return [self.name]
        heads = (re.match(r" +(\w+) :", line) for line in self.text[1:])
        return [self.name] + [head[1] for head in heads if head]


class Module:
    """A file of specs: its definitions, and the names that it takes from others."""

    def __init__(self, path):
        self.path, self.crate, self.name = path, path.parts[-3], path.stem
        self.key = f"{self.crate}.specs.{self.name}"
        self.about, self.definitions, self.uses = [], [], Uses()
        self.read(path.read_text().splitlines())
        self.own = {name: d for d in reversed(self.definitions) for name in d.names()}

    def read(self, lines):
        scopes, comment, now = [], [], None
        for line in lines:
            bare, depth = line.strip(), len(line) - len(line.lstrip())
            if not bare:
                comment = []
            elif depth == 0 and USE.match(line):
                self.uses.take(line)
                self.about, comment = self.about or comment, []
            elif bare.startswith("--") and (now is None or depth <= now.depth):
                comment.append(line)
            elif bare.startswith("module _"):
                scopes = [s for s in scopes if s[0] < depth] + [(depth, line)]
                comment, now = [], None
            elif self.is_head(line, depth, scopes, now):
                scopes = [s for s in scopes if s[0] < depth]
                now = Definition(self, HEAD.match(line)["name"], depth, comment, scopes)
                self.definitions.append(now)
                now.text, comment = [line], []
            elif now:
                now.text += comment + [line]
                comment = []

    @staticmethod
    def is_head(line, depth, scopes, now):
        head = HEAD.match(line)
        if not head or depth > 2 * len(scopes):
            return False
        if re.search(r"abbrev|unfoldable|record|data", head["how"]):
            return True
        return bool(re.match(r" *(?:pub )?[\w'-]+ *:", line)) and (now is None or depth <= now.depth)


class Sources:
    def __init__(self):
        self.modules = {m.key: m for m in map(Module, sorted(ROOT.glob("crates/*/specs/*.antt")))}

    def look_up(self, key, name):
        """The definition that a module has, or hands on, under a name."""
        module = self.modules.get(key)
        if not module or name in module.own:
            return module and module.own[name]
        if name not in module.uses.handed_on:
            return None
        return self.look_up(*module.uses.names[name])

    def named(self, text, uses, own):
        """The definitions that a text names, and the paths of the types of Rust."""
        found, types = [], []
        for word in WORD.findall(text):
            first, _, later = word.partition(".")
            path, name = uses.names.get(first, ("", ""))
            there = own.get(first) or self.look_up(path, name or later.partition(".")[0])
            if there:
                found.append(there)
            elif ".declared." in path:
                types.append(path.removesuffix(".TheVariants"))
        return found, types

    def reached(self):
        """What the contract of the top call reaches, and the types of Rust that this speaks of."""
        lines = CALL.read_text().splitlines()
        begin = next(i for i, line in enumerate(lines) if line.startswith(CALL_NAME))
        end = lines.index("{", begin)
        clauses = [line for line in lines[begin:end] if re.match(r" +(requires|ensures) ", line)]
        left, types = self.named("\n".join(clauses), Uses(l for l in lines if l.startswith("ghost use")), {})
        seen = set()
        while left:
            definition = left.pop()
            if definition not in seen:
                seen.add(definition)
                text = "\n".join([line for _, line in definition.scopes] + definition.code())
                more, others = self.named(text, definition.module.uses, definition.module.own)
                left += more
                types += others
        return seen, {path for path in types if path.partition(".")[0] + ".specs." in "".join(self.modules)}


def block(definitions):
    """The text of some definitions of one module, with their comments and the parameters that they stand under."""
    lines, open_scopes = [], []
    for definition in definitions:
        for scope in definition.scopes:
            if scope not in open_scopes:
                lines.append(scope[1])
        open_scopes = definition.scopes
        lines += definition.comment + definition.text + [""]
    return lines[:-1]


def section(module, reached):
    definitions = [d for d in module.definitions if d in reached]
    about = " ".join(line.strip().lstrip("-").strip() for line in module.about)
    text = block(definitions)
    lines = sum(1 for line in text if line.strip() and not line.strip().startswith("--"))
    head = [f"### `{module.crate}` {module.name}", "", about, ""] if about else [f"### `{module.crate}` {module.name}", ""]
    return head + ["```"] + text + ["```", ""], len(definitions), lines


def rust_types(paths):
    """A line for each type of Rust: its name, and the file that declares it."""
    lines = []
    for path in sorted(paths):
        crate, *_, name = path.split(".")
        for source in sorted(ROOT.glob(f"crates/{crate}/src/**/*.rt")):
            if re.search(rf"^pub (?:struct|enum) {name}\b", source.read_text(), re.M):
                file = source.relative_to(ROOT)
                lines.append(f"- `{name}`: [{file}](../{file})")
    return lines


def book(sources):
    reached, types = sources.reached()
    modules = [m for m in sources.modules.values() if reached & set(m.definitions)]
    placed = [(title, [m for name in names.split() for m in modules if m.name == name]) for title, names in CHAPTERS]
    others = [m for m in modules if not any(m in inside for _, inside in placed)]
    body, definitions, lines = [], 0, 0
    for number, (title, inside) in enumerate(placed + [(REST, others)] * bool(others), 1):
        body += [f"## {number}. {title}", ""]
        for module in inside:
            text, more_definitions, more_lines = section(module, reached)
            body, definitions, lines = body + text, definitions + more_definitions, lines + more_lines
    head = ["# The book of definitions", "", f"{definitions} definitions, {lines} lines", ""]
    head += ["Made by `tools/book.py` from the sources: all that the contract of the top call reaches, std's definitions aside. The",
             "lines are those of the definitions, without comments. How to read them: [DEFINITIONS.md](DEFINITIONS.md).", ""]
    head += [f"- [{line[3:]}](#{re.sub(r'[^a-z0-9 ]', '', line.lower()).strip().replace(' ', '-')})" for line in body if line.startswith("## ")]
    head += [""]
    tail = ["## Types of Rust", "", "They are seen as they are declared, with numbers as plain numbers.", ""]
    return "\n".join(head + body + tail + rust_types(types)) + "\n"


def uncommented(sources):
    bare = [d for m in sources.modules.values() for d in m.definitions if not d.comment]
    for definition in bare:
        print(f"{definition.module.path.relative_to(ROOT)}: {definition.name}")
    return 1 if bare else 0


def main(words):
    sources = Sources()
    if words == ["--uncommented"]:
        return uncommented(sources)
    text = book(sources)
    if words == ["--check"]:
        if BOOK.exists() and BOOK.read_text() == text:
            return 0
        print(f"{BOOK.relative_to(ROOT)}:1: isn't what tools/book.py writes")
        return 1
    if words:
        print(__doc__)
        return 2
    BOOK.write_text(text)
    return 0


if __name__ == "__main__":
    sys.exit(main(sys.argv[1:]))
