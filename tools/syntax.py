#!/usr/bin/env python3
"""Writes the syntax files of editors/ for scripts and answers: commands with their options and words out of docs/COMMANDS.md, the codes of
answers out of docs/ANSWERS.md.

    tools/syntax.py            writes them, for vim and for VS Code
    tools/syntax.py --check    compares them with the two pages, and ends with 1 if one differs, or if a line of examples/ has a
                               command or an option that the pages haven't
"""
import json
import re
import sys
from pathlib import Path

ROOT = Path(__file__).resolve().parent.parent
EDITORS = ROOT / "editors"
PAGES = "docs/COMMANDS.md and docs/ANSWERS.md"
HEX = "[0-9A-Fa-f]"
END = r"(?=[ \t\r]|$)"


class Command:
    """The options that a command takes, and the words that stand in it as they are."""

    def __init__(self):
        self.options, self.words = set(), set()

    def take(self, form, values):
        """Takes what stands in a form; a value in capitals may be a word, too."""
        for token in re.split(r"[\s\[\]|]+", form):
            if token.startswith("-"):
                self.options.add(token)
            elif re.fullmatch("[a-z]+", token):
                self.words.add(token)
            self.words |= values.get(token, set())


def section(page, heading):
    """The text from a heading of the second level to the next one."""
    return page.partition(f"\n## {heading}\n")[2].partition("\n## ")[0]


def commands():
    """Each command of a script, by its name. A form `NAME ...` has the options of the one before it, and an option that no form has may
    stand in every command without an `@`."""
    page = (ROOT / "docs" / "COMMANDS.md").read_text(encoding="utf-8").partition("\n## The words of the program\n")[0]
    reading = section(page, "How a script reads")
    values = {name: set(re.findall("`([a-z]+)`", said)) for name, said in re.findall(r"^\| ([A-Z]+) \| (.*)", reading, re.M)}
    found = {}
    for heading in re.findall(r"^### (.*)$", page, re.M):
        first = None
        for form in re.findall(r"`([^`]+)`", heading):
            name, _, rest = form.partition(" ")
            first = first or rest
            found.setdefault(name, Command()).take(first if rest == "..." else rest, values)
    common = set(re.findall(r"`(-[a-z]+)", reading)).difference(*(command.options for command in found.values()))
    for name, command in found.items():
        if not name.startswith("@"):
            command.options |= common
    return dict(sorted(found.items()))


def codes():
    """The codes of the answers, with the words that stand after each as they are, the longest first."""
    page = (ROOT / "docs" / "ANSWERS.md").read_text(encoding="utf-8")
    found = {}
    for code, kind in re.findall(r"^\| `(E\d\d) ([a-z]+(?: [a-z]+)*)", page, re.M):
        found.setdefault(code, set()).add(kind)
    return {code: sorted(kinds, key=lambda kind: (-len(kind), kind)) for code, kinds in sorted(found.items())}


def words_of_answers():
    """The words of states, phases and decisions in what answers ask of a pair, a session or a recovery."""
    page = (ROOT / "docs" / "COMMANDS.md").read_text(encoding="utf-8")
    states = re.findall(r"^\| `([A-Z][A-Za-z ]+)`", section(page, "Paths and pairs"), re.M)
    phases = re.findall(r"^\| ([A-Z][a-z]+) \|", section(page, "Sessions"), re.M)
    decisions = re.findall(r"\| `([A-Z][A-Za-z]+)(?:\([a-z,]+\))?` \|", section(page, "Recovery"))
    return sorted({*states, *phases, *decisions}, key=lambda word: (-len(word), word))


# For vim

VIM_HEAD = """\
" {what}, as drsim {does} them. Written by tools/syntax.py from {pages}.
if exists("b:current_syntax")
  finish
endif
syn case match
"""
VIM_END = r"\ze\%(\s\|$\)"
VIM_BEFORE = r"\s\@1<="


def vim_any(words):
    return r"\%(" + r"\|".join(sorted(words)) + r"\)"


def vim_command(name, command):
    """The region of a command's line, with what may stand in it."""
    group = re.sub(r"\W", "At", name)
    inner, lines = ["dscliBadOption", "dscliNumber", "dscliVolume", "dscliPort"], []
    for kind, words in ((f"dscliOption_{group}", command.options), (f"dscliWord_{group}", command.words)):
        if words:
            inner.append(kind)
            lines.append(f"syn match {kind} /{VIM_BEFORE}{vim_any(words)}{VIM_END}/ contained")
            lines.append(f"hi def link {kind} {kind.partition('_')[0]}")
    start = f"syn region dscliLine matchgroup=dscliCommand start=/^\\s*{name}{VIM_END}/ end=/$/ oneline keepend"
    return [f"{start} contains={','.join(inner)}", *lines]


def vim_script():
    lines = [VIM_HEAD.format(what="Scripts", does="reads", pages=PAGES).rstrip("\n"),
             r"syn match dscliBadCommand /^\s*\S\+/",
             "syn match dscliComment /^#.*/ contains=dscliCode",
             r"syn match dscliPlan /^#sweep\>.*/",
             "syn region dscliImage start=/^image 1$/ end=/^end$/",
             rf"syn match dscliCode /\<{vim_any(codes())}\>/ contained",
             rf"syn match dscliBadOption /{VIM_BEFORE}-\S*/ contained",
             rf"syn match dscliNumber /{VIM_BEFORE}\%(\d\+\|\x\x\+\){VIM_END}/ contained",
             rf"syn match dscliVolume /{VIM_BEFORE}\%(\x\{{4}}\%([-,:]\x\{{4}}\)*\|\x\x:\x\x\){VIM_END}/ contained",
             rf"syn match dscliPort /{VIM_BEFORE}I\x\{{4}}:I\x\{{4}}{VIM_END}/ contained"]
    for name, command in commands().items():
        lines += vim_command(name, command)
    links = {"Command": "Statement", "Option": "Type", "Word": "Constant", "Volume": "Identifier", "Port": "Identifier", "Number": "Number",
             "Comment": "Comment", "Plan": "PreProc", "Image": "String", "Code": "Special", "BadCommand": "Error", "BadOption": "Error"}
    lines += [f"hi def link dscli{name} {group}" for name, group in links.items()]
    return "\n".join([*lines, 'let b:current_syntax = "dscli"', ""])


def vim_answers():
    kinds = [rf"{code} \%({'|'.join(kinds)}\)".replace("|", r"\|") for code, kinds in codes().items()]
    lines = [VIM_HEAD.format(what="Answers", does="prints", pages=PAGES).rstrip("\n"),
             r"syn match dscliLineNumber /^\d\+\ze /",
             rf"syn match dscliDone /\%(^\d\+ \)\@<=ok{VIM_END}/",
             rf"syn match dscliHeld /\%(^\d\+ \)\@<=held{VIM_END}/",
             *(rf"syn match dscliRefused /\%(^\d\+ \)\@<={kind}\>/" for kind in kinds),
             rf"syn match dscliState /\<{vim_any(words_of_answers())}\>/"]
    links = {"LineNumber": "LineNr", "Done": "Statement", "Held": "Todo", "Refused": "WarningMsg", "State": "Constant"}
    lines += [f"hi def link dscli{name} {group}" for name, group in links.items()]
    return "\n".join([*lines, 'let b:current_syntax = "dscli_answers"', ""])


# For VS Code

def either(words):
    return "(?:" + "|".join(re.escape(word).replace(r"\ ", " ").replace(r"\-", "-") for word in words) + ")"


def rule(name, match):
    return {"name": f"{name}.dscli", "match": match}


def line_of(name, command):
    """What colours the line of a command."""
    inner = []
    if command.options:
        inner.append(rule("storage.type.option", rf"(?<=[ \t]){either(sorted(command.options))}{END}"))
    if command.words:
        inner.append(rule("constant.language", rf"(?<=[ \t]){either(sorted(command.words))}{END}"))
    return {"begin": rf"^[ \t]*({re.escape(name)}){END}", "end": "$", "beginCaptures": {"1": {"name": "keyword.control.command.dscli"}},
            "patterns": [*inner, {"include": "#operands"}]}


def grammar(name, scope, patterns, **parts):
    said = {"information_for_contributors": [f"Written by tools/syntax.py from {PAGES}."]}
    return json.dumps({**said, "name": name, "scopeName": scope, "patterns": patterns, **parts}, indent=2) + "\n"


def code_script():
    code = rule("constant.other.code", rf"\b{either(codes())}\b")
    comments = [rule("keyword.other.plan", r"^#sweep\b.*$"),
                {"name": "string.unquoted.image.dscli", "begin": "^image 1$", "end": "^end$"},
                {"name": "comment.line.number-sign.dscli", "begin": "^#", "end": "$", "patterns": [code]}]
    operands = [rule("invalid.illegal.option", r"(?<=[ \t])-\S*"),
                rule("variable.other.port", rf"(?<=[ \t])I{HEX}{{4}}:I{HEX}{{4}}{END}"),
                rule("variable.other.volume", rf"(?<=[ \t])(?:{HEX}{{4}}(?:[-,:]{HEX}{{4}})*|{HEX}{{2}}:{HEX}{{2}}){END}"),
                rule("constant.numeric", rf"(?<=[ \t])(?:[0-9]+|{HEX}{{2,}}){END}")]
    lines = [line_of(*item) for item in commands().items()]
    unknown = rule("invalid.illegal.command", r"^[ \t]*[^ \t\r\n]+")
    return grammar("Scripts of drsim", "source.dscli", [*comments, *lines, unknown], repository={"operands": {"patterns": operands}})


def code_answers():
    number = {"1": {"name": "constant.numeric.line.dscli"}}
    kinds = [f"{code} {either(kinds)}" for code, kinds in codes().items()]
    told = {"keyword.control.done": "ok", "keyword.other.held": "held", "invalid.illegal.refused": f"(?:{'|'.join(kinds)})"}
    patterns = [{"match": rf"^(\d+) ({words}){END}", "captures": {**number, "2": {"name": f"{name}.dscli"}}} for name, words in told.items()]
    patterns += [{"match": r"^(\d+)(?= )", "captures": number}, rule("constant.language.state", rf"\b{either(words_of_answers())}\b")]
    return grammar("Answers of drsim", "source.dscli-answers", patterns)


def files():
    return {"vim/syntax/dscli.vim": vim_script(), "vim/syntax/dscli_answers.vim": vim_answers(),
            "vscode/syntaxes/dscli.tmLanguage.json": code_script(), "vscode/syntaxes/dscli-answers.tmLanguage.json": code_answers()}


def unknown_in_examples():
    """The lines of examples whose command or option isn't listed."""
    known = commands()
    for script in sorted((ROOT / "examples").glob("*.dscli")):
        if not (ROOT / "examples" / f"{script.stem}.words").exists():
            for number, line in enumerate(script.read_text(encoding="utf-8").splitlines(), 1):
                name, *rest = line.split() or ["#"]
                options = {word for word in rest if re.match("-[a-z]", word)}
                if not line.startswith("#") and line.split() and not (name in known and options <= known[name].options):
                    yield f"{script.relative_to(ROOT)}:{number}: not in the syntax files"


def main(words):
    if words not in ([], ["--check"]):
        print(__doc__)
        return 2
    faults = list(unknown_in_examples())
    for name, text in files().items():
        path = EDITORS / name
        if not words:
            path.parent.mkdir(parents=True, exist_ok=True)
            path.write_text(text, encoding="utf-8")
        elif not path.exists() or path.read_text(encoding="utf-8") != text:
            faults.append(f"editors/{name}:1: isn't what tools/syntax.py writes")
    print("\n".join(faults), end="\n" if faults else "")
    return 1 if faults else 0


if __name__ == "__main__":
    sys.exit(main(sys.argv[1:]))
