#!/usr/bin/env python3
"""Statements of lemmas that stand twice, up to the names that they bind, over all .antt files of crates/.

twins.py            lists each family of equal statements that tools/twins.kept does not name; exit status 1 where there is one
twins.py --all      lists every family
twins.py --blocks   lists blocks of six lines of .rt that stand twice up to names (a place to look, never a failure)

A line of tools/twins.kept is FILE:NAME, a blank and the reason why that statement stays beside its twin.
"""
import re
import sys
from collections import defaultdict
from pathlib import Path

TOP = Path(__file__).resolve().parent.parent
KEPT = TOP / "tools" / "twins.kept"
TOKEN = re.compile(r"[(){}]|[^\s(){}.,;]+|[.,;]")
HEAD = re.compile(r"^(pub )?(?:abbrev |unfoldable |private )*([^\s(){}:]+) : (.*)$")
MODULE = re.compile(r"^(?:pub )?module (\S+)(.*) where$")
WORDS = ("use ", "data ", "record ", "infix", "open ", "syntax ", "pub use ", "pub data ", "pub record ")
VALUES = {"List", "Option", "Result", "FinSet", "Turn", "Histories"}
LEAST = 5  # tokens of a statement that is worth a name of its own


def logical_lines(path):
    """The lines of a file with what is continued put together, as (indentation, line number, text)."""
    found = []
    for number, raw in enumerate(path.read_text(encoding="utf-8").split("\n"), 1):
        text = raw.split("--")[0].rstrip() if raw.lstrip().startswith("--") else raw.rstrip()
        if not text.strip():
            continue
        indent = len(text) - len(text.lstrip())
        found.append([indent, number, text.strip()])
    return found


def statements(path):
    """Each `name : type` of a file: (line, name, parameters of the modules that it stands in, type, the words of its proof)."""
    modules = []  # (indentation of what stands in it, parameters)
    lines = logical_lines(path)
    inner = {it[2].split(" ")[1 if it[2].startswith(("pub ", "abbrev ")) else 0] for it in lines if it[0] > 0 and HEAD.match(it[2])}
    at = 0
    while at < len(lines):
        indent, number, text = lines[at]
        at += 1
        while modules and indent < modules[-1][0]:
            modules.pop()
        level = modules[-1][0] if modules else 0
        if indent > level:
            continue
        module = MODULE.match(text)
        if module:
            modules.append((level + 2, module.group(2).strip()))
            continue
        if text.startswith(WORDS):
            continue
        head = HEAD.match(text)
        if not head:
            continue
        words = [head.group(3)]
        while at < len(lines) and lines[at][0] > indent:
            words.append(lines[at][2])
            at += 1
        proof = at
        body = []
        while proof < len(lines) and (lines[proof][0] > indent or re.match(r"unfolding |" + re.escape(head.group(2)) + r"(?=[ =])", lines[proof][2])) and lines[proof][0] >= indent:
            body.append(lines[proof][2])
            proof += 1
        tokens = set(TOKEN.findall(" ".join(body)))
        if tokens & (inner - {head.group(2)}):  # it rests on others of its module, so on what they rest
            tokens |= set(TOKEN.findall(" ".join(it[1] for it in modules)))
        yield number, head.group(2), " ".join(it[1] for it in modules), " ".join(words), tokens


def binders(tokens):
    """The names that a list of tokens binds, in order."""
    names = []
    for i, token in enumerate(tokens):
        if token in "({":
            j = i + 1
            while j < len(tokens) and re.match(r"^[^\W\d][\w'-]*$", tokens[j]):
                j += 1
            if j > i + 1 and j < len(tokens) and tokens[j] == ":":
                names += tokens[i + 1:j]
        if token == "λ":
            j = i + 1
            while j < len(tokens) and tokens[j] != ".":
                if re.match(r"^[^\W\d][\w'-]*$", tokens[j]):
                    names.append(tokens[j])
                j += 1
    return names


def groups(text):
    """The groups in brackets at the top of the parameters of a module."""
    depth, begin, found = 0, 0, []
    for i, letter in enumerate(text):
        if letter in "({":
            if depth == 0:
                begin = i
            depth += 1
        if letter in ")}":
            depth -= 1
            if depth == 0:
                found.append(text[begin:i + 1])
    return found


def spread(tokens):
    """(x y : T) as (x : T) (y : T), and no arrow behind a group that binds."""
    out, i = [], 0
    while i < len(tokens):
        if tokens[i] in "({":
            j = i + 1
            while j < len(tokens) and re.match(r"^[^\W\d][\w'-]*$", tokens[j]):
                j += 1
            if j > i + 1 and j < len(tokens) and tokens[j] == ":":
                depth, k = 1, j
                while depth and k + 1 < len(tokens):
                    k += 1
                    depth += tokens[k] in "({"
                    depth -= tokens[k] in ")}"
                kind = spread(tokens[j + 1:k])
                for name in tokens[i + 1:j]:
                    out += ["(", name, ":"] + kind + [")"]
                i = k + 1
                if i < len(tokens) and tokens[i] == "→":
                    i += 1
                continue
        out.append(tokens[i])
        i += 1
    return out


def normal(parameters, kind, proof=frozenset()):
    """A statement with its bound names numbered, and of its module's parameters those alone that it or its proof names."""
    tokens = TOKEN.findall(kind)
    used = set(tokens) | proof
    front = []
    for group in reversed(groups(parameters)):
        words = TOKEN.findall(group)
        if set(binders(words[:words.index(":") + 1] if ":" in words else words)) & used:
            front = words + front
            used |= set(words)
    tokens = spread(front + tokens)
    numbers = {}
    for name in binders(tokens):
        numbers.setdefault(name, f"#{len(numbers)}")
    return " ".join(numbers.get(token, token) for token in tokens)


def is_claim(shape):
    """Whether a statement claims something: a function into values has many bodies, and is no claim."""
    depth, begin = 0, 0
    tokens = shape.split()
    for i, token in enumerate(tokens):
        depth += token in "({"
        depth -= token in ")}"
        if depth == 0 and (token == "→" or token in ")}" and is_binder(tokens, i)):
            begin = i + 1
    end = tokens[begin:]
    if not end or end[0] == "Type":
        return False
    if {"≡", "≤", "<", "↔", "×", "⊎", "⊥", "≢"} & set(end):
        return True
    return end[0].startswith("#") or (len(end) > 1 and end[0] not in VALUES and end[0][0].isupper())


def is_binder(tokens, close):
    """Whether the group that ends at a place binds a name."""
    depth, i = 0, close
    while i >= 0:
        depth += tokens[i] in ")}"
        depth -= tokens[i] in "({"
        if depth == 0:
            return i + 2 < len(tokens) and tokens[i + 2] == ":"
        i -= 1
    return False


def families():
    found = defaultdict(list)
    for path in sorted(TOP.glob("crates/*/specs/**/*.antt")) + sorted(TOP.glob("crates/*/proofs/**/*.antt")):
        if path.name in ("Answers.antt", "Invariants.antt", "Proof.antt"):
            continue
        for number, name, parameters, kind, proof in statements(path):
            shape = normal(parameters, kind, proof)
            if len(shape.split()) >= LEAST and is_claim(shape):
                found[shape].append((path.relative_to(TOP), number, name))
    return [it for it in found.values() if len(it) > 1]


def blocks(size=6):
    """Runs of lines of .rt that are equal when names are numbered in their order."""
    places = defaultdict(list)
    for path in sorted(TOP.glob("crates/*/src/**/*.rt")):
        lines = [(n, it.strip()) for n, it in enumerate(path.read_text(encoding="utf-8").split("\n"), 1)]
        lines = [it for it in lines if len(it[1]) > 3 and not it[1].startswith(("//", "use ", "ghost use ", "mod ", "pub mod ", "pub use "))]
        for i in range(len(lines) - size):
            numbers = {}
            text = " ".join(it[1] for it in lines[i:i + size])
            shape = re.sub(r"[a-z_][A-Za-z0-9_]*", lambda it: numbers.setdefault(it.group(), f"#{len(numbers)}"), text)
            places[shape].append((path.relative_to(TOP), lines[i][0]))
    return sorted((it for it in places.values() if len(it) > 1), key=lambda it: -len(it))


def main(words):
    if words == ["--blocks"]:
        for family in blocks():
            print(" ~ ".join(f"{path}:{number}" for path, number in family))
        return 0
    kept = {}
    if KEPT.exists():
        kept = dict(it.split(" ", 1) for it in KEPT.read_text(encoding="utf-8").split("\n") if " " in it and not it.startswith("#"))
    every = sorted(families(), key=lambda it: -len(it))
    new = 0
    for family in every:
        left = [it for it in family if f"{it[0]}:{it[2]}" not in kept]
        if len(left) < 2 and words != ["--all"]:
            continue
        new += 1
        print("\n  ".join(f"{path}:{number} {name}" for path, number, name in family))
    print(f"{new} families of equal statements, {sum(map(len, every)) - len(every)} statements too many in all")
    return 1 if new and words != ["--all"] else 0


if __name__ == "__main__":
    sys.exit(main(sys.argv[1:]))
