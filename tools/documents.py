#!/usr/bin/env python3
"""Checks the documents, and the notes at the head of crates. Prints each finding as FILE:LINE: text, and ends with 1 if there is one.

    tools/documents.py             checks
    tools/documents.py --count     prints the lines of tools/documents.words as the documents are now, to lower the limits by

What it finds: names and files in backquotes that no source has; links that lead nowhere; a chapter of the book by another number than
it has, or by a number without a link; a field of what stands of a run that docs/CLAIMS.md lacks; docs/BOOK.md that isn't as tools/book.py
makes it; a document over its size, and a table of README over its rows; a document with more uses of a word, or more long sentences,
than tools/documents.words lets it have.
"""
import re
import sys
from pathlib import Path

sys.dont_write_bytecode = True
import book

ROOT = book.ROOT
DOCUMENTS = ("README.md", "CONTRIBUTING.md", "CHANGELOG.md", "docs/*.md", "examples/README.md", "editors/README.md")
NOTES = ("crates/*/src/lib.rt", "crates/*/src/main.rt", "crates/*/proofs/Lib.antt")
SOURCES = ("crates/**/*.rt", "crates/**/*.antt", "crates/*/data/*", "crates/*/must-fail/*", "crates/*/edits/*", "crates/scenarios/std*", "examples/*", "examples/sweeps/**/*",
           "bench/*", "tools/*", "tools/plain/*", "editors/**/*", ".ci/run", "crates.txt", "HANDLES")
SIZES = {"README.md": 14_336, "docs/PROOFS.md": 20_000}
ROWS = {"What it promises": 8}

# Words that have a plainer one (CONTRIBUTING.md), and the most words of a sentence. Some uses are right, so the table has a limit for each.
WORDS = ("behind", "but for", "so many", "so much", "front", "alone", "beside", "where")
LONGEST = 37
LIMITS = ROOT / "tools" / "documents.words"

# Words of the toolchain that no source needs to have; names in capitals stand for others.
FOREIGN = {"allow-holes", "arith", "grind", "omega", "sum_by", "unfolding"}
PLACEHOLDER = re.compile(r"rattle-kit-|std/|.*\.\.|.*-[A-Z]+$|.*(NAME|SCRIPT|FILE)|.*\bout/")

WORD = re.compile(r"[A-Za-z_]\w*(?:[-'][\w]+)*'*")
SPAN = re.compile(r"(?<!`)`([^`\n]+)`(?!`)")
LINK = re.compile(r"\[[^\]\n]*\]\(([^)\s]+)\)")
CHAPTER = re.compile(r"\[([^\]\n]*)\]\(\S*BOOK\.md#(\d+)-[^)]*\)")
BEGINS = re.compile(r"\s*(?:[-*] |#+ |\d+\. )")
SENTENCE_END = re.compile(r"(?<=[.!?])[)*\"]*\s+")
FILE = re.compile(r"[\w./*{},-]*[\w*]\.(?:rt|rs|antt|md|py|sh|dscli|out|status|words|edit|txt)")


def paths(patterns):
    return [path for pattern in patterns for path in sorted(ROOT.glob(pattern)) if path.is_file() and "/out/" not in str(path)]


def prose(path):
    """The lines of a document outside its blocks of code, and of a source those of its notes, as (number, text)."""
    inside = False
    for number, line in enumerate(path.read_text(encoding="utf-8").split("\n"), 1):
        if path.suffix != ".md":
            if line.startswith(("//!", "-- ")):
                yield number, line
        elif line.startswith("```"):
            inside = not inside
        elif not inside:
            yield number, line


def known_words():
    """Every word that a source has outside its comments, with the names of files and folders."""
    words = set(FOREIGN)
    for path in paths(SOURCES):
        words.update(WORD.findall(str(path.relative_to(ROOT))))
        try:
            text = path.read_text(encoding="utf-8")
        except UnicodeDecodeError:
            continue
        words.update(w for line in text.split("\n") if not line.lstrip().startswith(("--", "//")) for w in WORD.findall(line))
    return words | {part for word in words for part in re.split(r"[-']", word)}


def missing_file(name, base):
    """Whether a file that is named isn't there: from the top, beside the document, in crates, or by its own name anywhere."""
    places = (ROOT, base, ROOT / "crates", *ROOT.glob("crates/*"))
    if any(next(place.glob(name.lstrip("./")), None) for place in places):
        return False
    return "/" in name or not any(next(ROOT.glob(f"{top}/**/{name}"), None) for top in ("crates", "docs", "editors", "examples", "bench", "tools"))


def checked_names(span):
    """The names of a span that a source must have: one word alone, or within more those with an underscore, a hump or a path."""
    if re.fullmatch(r"-?[A-Za-z_][\w'.:-]*", span) and not span.isupper():
        return [word for word in WORD.findall(span)]
    return [w for w in WORD.findall(span) if re.search(r"[a-z]_[a-z]|[a-z][A-Z]|[a-z]-[a-z]", w)]


def names(path, words):
    for number, line in prose(path):
        for span in SPAN.findall(line):
            if FILE.fullmatch(span):
                if not PLACEHOLDER.match(span) and missing_file(span, path.parent):
                    yield number, f"no file `{span}`"
                continue
            for name in checked_names(span):
                if name not in words and not PLACEHOLDER.match(name) and ".." not in span:
                    yield number, f"no source has `{name}`"


def anchors(path):
    heads = (line.lstrip("#").strip().lower() for _, line in prose(path) if line.startswith("#"))
    return {re.sub(r"[^\w\- ]", "", head).replace(" ", "-") for head in heads}


def links(path):
    for number, line in prose(path):
        for target in LINK.findall(line):
            if re.match(r"[a-z]+:", target):
                continue
            file, _, anchor = target.partition("#")
            there = (path.parent / file) if file else path
            if not there.exists():
                yield number, f"the link to {target} leads nowhere"
            elif anchor and there.suffix == ".md" and anchor not in anchors(there):
                yield number, f"no heading #{anchor} in {there.name}"


def chapters(path):
    """Links to a chapter of the book whose words have another number, or none, and numbers of chapters without a link."""
    for number, line in prose(path):
        for text, chapter in CHAPTER.findall(line):
            if re.findall(r"\d+", text) != [chapter]:
                yield number, f"[{text}] leads to chapter {chapter} of the book"
        for bare in re.findall(r"\b[Cc]hapters? \d+", CHAPTER.sub("", line)):
            yield number, f"{bare} without a link to it in the book"


def long_tables(path):
    """The tables of a document that have more rows than they may, by the heading above them."""
    head, rows = "", 0
    for number, line in prose(path):
        if line.startswith("#"):
            head, rows = line.lstrip("# "), 0
        rows += line.startswith("| ")
        if head in ROWS and rows == ROWS[head] + 2 and line.startswith("| "):
            yield number, f"more than {ROWS[head]} rows below {head}"


def unnamed_crates():
    """The crates that the page on claims has no row for."""
    rows = "".join(line for _, line in prose(ROOT / "docs" / "CLAIMS.md") if line.startswith("- "))
    for line in (ROOT / "crates.txt").read_text(encoding="utf-8").splitlines():
        crate = line.partition(":")[0].strip()
        if crate and not crate.startswith("#") and f"`{crate}`" not in rows:
            yield f"no row of its own for `{crate}`"


def unnamed_fields():
    """The fields of what stands of a run that a table of that page doesn't name: that of one line each, and that of every run."""
    record = (ROOT / "crates" / "dr_top" / "specs" / "Stands.antt").read_text(encoding="utf-8").partition("pub record Stands")[2]
    page = (ROOT / "docs" / "CLAIMS.md").read_text(encoding="utf-8")
    for head in ("In one line each", "Of every run"):
        part = page.partition(f"## {head}\n")[2].partition("\n## ")[0]
        for field in re.findall(r"^  pub (\w+) :", record, re.M):
            if f"`{field}`" not in part:
                yield f"no row for `{field}` below {head}"


def parts(path):
    """The paragraphs, items of lists and cells of tables of a document, as (number of the first line, text). A name in backquotes is one word."""
    found, last = [], 0
    for number, line in prose(path):
        if line.startswith("|"):
            found += [(number, cell) for cell in SPAN.sub("NAME", line).split("|")]
        elif not line.strip() or BEGINS.match(line) or number != last + 1:
            found.append((number, line))
        else:
            found[-1] = (found[-1][0], f"{found[-1][1]} {line}")
        last = number if line.strip() else 0
    # What a link leads to isn't read as prose.
    return [(number, re.sub(r"\]\([^)\s]+\)", "]", SPAN.sub("NAME", text))) for number, text in found]


def words_of(sentence):
    return [word for word in sentence.split() if re.search(r"\w", word)]


def uses(path):
    """The lines of each word of the list, and last those of the long sentences."""
    texts = parts(path)
    for word in WORDS:
        pattern = re.compile(rf"\b{word}\b", re.I)
        yield [number for number, text in texts for _ in pattern.findall(text)]
    yield [number for number, text in texts for it in SENTENCE_END.split(text) if len(words_of(it)) > LONGEST]


def limits():
    """By document how often each word may stand in it, and last how many long sentences it may have."""
    lines = [line.split() for line in LIMITS.read_text(encoding="utf-8").splitlines() if not line.startswith("#")]
    return {name: [int(count) for count in counts] for name, *counts in lines}


def too_many(path, most):
    """What stands more often than it may, at the line of its last use."""
    for word, lines, limit in zip([*WORDS, None], uses(path), most, strict=True):
        if len(lines) > limit:
            what = f"'{word}' stands {len(lines)} times" if word else f"{len(lines)} sentences have more than {LONGEST} words"
            yield lines[-1], f"{what}, {limit} at most"


def counts():
    """The lines of the table of limits, as the documents are."""
    for path in paths(DOCUMENTS):
        if path != book.BOOK:
            yield f"{path.relative_to(ROOT)} {' '.join(str(len(lines)) for lines in uses(path))}"


def findings():
    words, most = known_words(), limits()
    yield from (("docs/CLAIMS.md", 1, text) for text in [*unnamed_crates(), *unnamed_fields()])
    for path in paths(DOCUMENTS):
        name = str(path.relative_to(ROOT))
        found = list(links(path))
        if path != book.BOOK:
            found += [*names(path, words), *chapters(path), *too_many(path, most.get(name, [0] * (len(WORDS) + 1)))]
        if name == "README.md":
            found += long_tables(path)
        size = path.stat().st_size
        if size > SIZES.get(name, size):
            found.append((1, f"{size} bytes, and may have {SIZES[name]}"))
        yield from ((name, number, text) for number, text in sorted(found))
    for path in paths(NOTES):
        yield from ((path.relative_to(ROOT), number, text) for number, text in names(path, words))


def main(switches):
    if switches not in ([], ["--count"]):
        print(__doc__)
        return 2
    if switches:
        print("\n".join(counts()))
        return 0
    found = list(findings())
    for name, number, text in found:
        print(f"{name}:{number}: {text}")
    return 1 if book.main(["--check"]) or found else 0


if __name__ == "__main__":
    sys.exit(main(sys.argv[1:]))
