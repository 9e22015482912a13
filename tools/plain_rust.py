#!/usr/bin/env python3
"""Writes a cargo package of the programs `drsim` and `sweep` in plain Rust: tools/plain_rust.py DIR.

It is the same code without its contracts, built by another compiler, and not proved: contracts, ghost items and what only proofs need are
taken out of each crate that the programs stand on, and the rest stays as it is. It takes no crate but Rust's own library: what Rattle's
library does otherwise, and what the code uses of `clap`, `indexmap`, `itoa` and `memchr`, is the crate `shim`, the files of tools/plain. The scripts
that the repository stores are copied along, so the folder can be moved; so are tools/explain.py and the pages that it needs. In DIR:

    cargo run --release -- run < examples/first-group.dscli         builds the programs, and runs a script
    cargo run --release --bin sweep < examples/sweeps/two-hosts.plan
    cargo test --release                                            runs each stored script, and compares
    cargo build --profile timed                                     target/timed/drsim, as the page on speed has it

What was built in DIR before stays, and files that wouldn't change aren't written."""
import json
import re
import sys
from pathlib import Path

ROOT = Path(__file__).resolve().parent.parent
PLAIN = ROOT / "tools" / "plain"
PROGRAMS = ("drsim", "sweep")
STORED_TEST = "stored.rs"

# The folders of scripts, in the package and in the repository.
SCRIPTS = {"scenarios": "crates/scenarios/data", "examples": "examples"}
PLANS = ("examples/sweeps", "examples/sweeps/mistakes")

# What goes along for who reads answers.
ALONG = ("LICENSE", "docs/ANSWERS.md", "docs/COMMANDS.md", "tools/explain.py", "tools/rows.py")
EDITION = "2021"
# The oldest Rust whose library has all calls, by the lint incompatible_msrv of clippy.
OLDEST = "1.73"

CLAUSE = re.compile(r"\s*(requires|ensures)( \w+)? \{")
GHOST = re.compile(r"\s*ghost ")
PROOF_ONLY = re.compile(r"\s*(#!?\[tactic\(|#\[error\(|use std::marker::Model;|use thiserror::Error;)")
DERIVE = re.compile(r"(\s*)#\[derive\((.*)\)\]$")
TEXT = re.compile(r'"(?:\\.|[^"\\])*"')
OPENING, CLOSING = "{([", "})]"

# Blocks that hold ghost items only.
MODEL = re.compile(r"^impl(<[^>\n]*>)? Model for [^{\n]+\{\s*\}\n", re.M)
TESTS = re.compile(r"\n#\[cfg\(test\)\]\nmod tests;\n")
HEAD = re.compile(r"(?://!.*\n|\n)*")
CRATE = re.compile(r"\b(dr_\w+)::")

# Derives that only proofs, or the text of errors that nobody prints, need.
DROPPED_DERIVES = {"Drop", "Error"}

# What Rust calls otherwise.
RENAMED = (
    (r"\bstd::(alloc|fs)\b", r"shim::\1"),
    (r"\buse std::\{env, io\};", "use shim::env;\nuse std::io;"),
    (r"\buse (clap|indexmap|itoa|memchr)::", r"use shim::\1::"),
    (r"\buse std::simd::prelude::\*", "use shim::simd::*"),
    (r"\b(vec|format)!([\[(]in )", r"shim::\1!\2"),
    (r"\.(collect|to_string)\(alloc\)", r".\1_in(alloc)"),
    (r"\bfn main\(rt: HostRuntime\)(.*)\{", r"fn main()\1{\n    let rt = HostRuntime;"),
    (r"= prove!", "= assert!"),
    (r" \+ Drop\b", ""),
    (r"<(\w+): Drop>", r"<\1>"),
)

PACKAGE = """\
[package]
name = "levermatte"
version = "0.1.0"
edition = "{edition}"
rust-version = "{rust}"
description = "drsim and sweep, simulators of storage copy functions: the proved code without its contracts, not proved"
license = "ISC"
publish = false
default-run = "drsim"

{programs}
[dependencies]
{dependencies}
[workspace]
members = ["crates/*"]

# As programs are built for times: by one unit, with what is linked optimized as one.
[profile.timed]
inherits = "release"
lto = true
codegen-units = 1
panic = "abort"
"""

PROGRAM = """\
[[bin]]
name = "{name}"
path = "src/bin/{name}.rs"
test = false
"""

LIBRARY = """\
[package]
name = "{name}"
version = "0.1.0"
edition = "{edition}"
publish = false

[lib]
test = false
doctest = false

[dependencies]
{dependencies}"""


def depth_of(line):
    """How many brackets a line opens more than it closes, outside of texts."""
    bare = TEXT.sub("", line)
    return sum(map(bare.count, OPENING)) - sum(map(bare.count, CLOSING))


def whole_item(lines, first):
    """The place after an item that begins in a line and ends as all its brackets are closed."""
    place, depth = first, 0
    while True:
        depth += depth_of(lines[place])
        place += 1
        if depth == 0:
            return place


def derives_kept(line):
    """A line of derives without those that are dropped; empty if none is left."""
    begin, names = DERIVE.match(line).groups()
    kept = [name for name in names.split(", ") if name not in DROPPED_DERIVES]
    return [f"{begin}#[derive({', '.join(kept)})]"] if kept else []


def without_proofs(text):
    """The code of a source without its contracts, its ghost items and the attributes for its proofs."""
    lines, kept, place = text.split("\n"), [], 0
    while place < len(lines):
        line = lines[place]
        if DERIVE.match(line):
            kept += derives_kept(line)
            place += 1
        elif CLAUSE.match(line) or GHOST.match(line) or PROOF_ONLY.match(line):
            after = whole_item(lines, place)
            # The last clause of a method without a body ends the method.
            if CLAUSE.match(line) and lines[after - 1].endswith("};"):
                kept[-1] += ";"
            place = after
        else:
            kept.append(line)
            place += 1
    return MODEL.sub("", "\n".join(kept))


def plain(text, is_root):
    """A source in plain Rust."""
    code = TESTS.sub("", without_proofs(text))
    for name, instead in RENAMED:
        code = re.sub(name, instead, code)
    begin = HEAD.match(code).end()
    allowed = "#![allow(unused)]\n" if is_root else ""
    return f"{code[:begin]}{allowed}use shim::prelude::*;\n{code[begin:]}"


def sources_of(crate):
    """The sources of a crate that are no tests, by their paths within it, in plain Rust."""
    folder = ROOT / "crates" / crate / "src"
    paths = [path for path in sorted(folder.glob("**/*.rt")) if "tests" not in str(path.relative_to(folder))]
    return {
        str(path.relative_to(folder).with_suffix(".rs")): plain(path.read_text(encoding="utf-8"), path.stem in ("lib", "main"))
        for path in paths
    }


def crates_named(sources):
    return {name for text in sources.values() for name in CRATE.findall(text)}


def listed(crates, folder):
    return "".join(f'{name} = {{ path = "{folder}{name}" }}\n' for name in sorted(crates))


def library(name, sources, crates):
    """The files of a crate of the package, by their paths."""
    files = {f"crates/{name}/src/{path}": text for path, text in sources.items()}
    files[f"crates/{name}/Cargo.toml"] = LIBRARY.format(name=name, edition=EDITION, dependencies=listed(crates, "../"))
    return files


def code():
    """The programs, all crates that they stand on, and the package that they are."""
    files = {f"src/bin/{name}.rs": sources_of(name)["main.rs"] for name in PROGRAMS}
    first = crates_named(files)
    waiting, seen = sorted(first), set(first)
    while waiting:
        crate = waiting.pop()
        sources = sources_of(crate)
        named = crates_named(sources) - {crate}
        files.update(library(crate, sources, named | {"shim"}))
        waiting += sorted(named - seen)
        seen |= named
    shim = {path.name: path.read_text(encoding="utf-8") for path in PLAIN.glob("*.rs") if path.name != STORED_TEST}
    files.update(library("shim", shim, []))
    programs = "".join(PROGRAM.format(name=name) for name in PROGRAMS)
    files["Cargo.toml"] = PACKAGE.format(edition=EDITION, rust=OLDEST, programs=programs, dependencies=listed(first | {"shim"}, "crates/"))
    return files


class Stored:
    """A run that the repository stores: the program's words and status, and the files of its input and its output."""

    def __init__(self, name, paths, folder, usual_words):
        source, output, words, status = paths
        self.name = re.sub(r"\W", "_", name)
        self.words = (words.read_text(encoding="utf-8") if words.exists() else usual_words).splitlines()
        self.status = int(status.read_text()) if status.exists() else 0
        self.files = {f"{folder}/{path.name}": path.read_bytes() for path in (source, output)}
        self.input, self.output = self.files

    def line(self):
        """Its line of the test."""
        words = ", ".join(json.dumps(word) for word in self.words)
        return f'        {self.name} [{words}] "{self.input}" "{self.output}" {self.status};\n'


def beside(script, *endings):
    return (script, *map(script.with_suffix, endings))


def stored_runs():
    """All runs that the repository stores, with the program of each: those of a folder together."""
    for folder, place in SCRIPTS.items():
        found = sorted((ROOT / place).glob("*.dscli"))
        yield folder, "drsim", [Stored(it.stem, beside(it, ".out", ".words", ".status"), folder, "run") for it in found]
    sweeps = []
    for place in PLANS:
        sweeps += [Stored(it.stem, beside(it, ".report", ".words", ".status"), place, "") for it in sorted((ROOT / place).glob("*.plan"))]
    pictures = sorted((ROOT / "docs" / "pictures").glob("*.svg"))
    for picture in pictures:
        plan = ROOT / "examples" / "sweeps" / f"{picture.stem}.plan"
        drawn = (plan, picture, plan.with_suffix(".words"), plan.with_suffix(".status"))
        sweeps.append(Stored(f"{picture.stem}_picture", drawn, "examples/sweeps", "picture"))
    folder = "examples/sweeps"
    practice = [ROOT / folder / f"{name}.plan" for name in ("practice-on-the-group", "practice-on-the-secondaries")]
    both = (practice[0], ROOT / folder / "practice-compared.txt", practice[0].with_suffix(".words"), practice[0].with_suffix(".status"))
    sweeps.append(Stored("practice_compared", both, folder, "\n".join(["compare", *(f"{folder}/{plan.name}" for plan in practice)])))
    yield "sweeps", "sweep", sweeps
    for program in PROGRAMS:
        files = [ROOT / "crates" / program / name for name in ("stdin", "stdout", "args", "status")]
        yield f"run_of_{program}", program, [Stored("stored", files, f"runs/{program}", "")]


def scripts():
    """The stored scripts, and the test that runs them all; and how many there are."""
    files, lines, count = {}, [], 0
    for folder, program, runs in stored_runs():
        lines += [f'    {folder} "{program}" {{\n', *(run.line() for run in runs), "    }\n"]
        for run in runs:
            files.update(run.files)
        count += len(runs)
    test = (PLAIN / STORED_TEST).read_text(encoding="utf-8")
    files[f"tests/{STORED_TEST}"] = f"{test}\nstored! {{\n{''.join(lines)}}}\n"
    return files, count


def write(out, files):
    """Makes the folder have just these files, and what was built."""
    for path in sorted(out.glob("**/*"), reverse=True):
        name = str(path.relative_to(out))
        if name.split("/")[0] in ("target", "Cargo.lock"):
            continue
        if path.is_dir() and not any(path.iterdir()):
            path.rmdir()
        elif path.is_file() and name not in files:
            path.unlink()
    for name, text in files.items():
        file, data = out / name, text if isinstance(text, bytes) else text.encode()
        if not file.exists() or file.read_bytes() != data:
            file.parent.mkdir(parents=True, exist_ok=True)
            file.write_bytes(data)
            file.chmod(0o755 if file.suffix == ".py" else 0o644)


def main():
    if len(sys.argv) != 2 or sys.argv[1].startswith("-"):
        print(__doc__)
        return 2
    out = Path(sys.argv[1])
    if out.exists() and any(out.iterdir()) and not (out / "crates" / "shim").exists():
        print(f"{out} has something else", file=sys.stderr)
        return 1
    stored, count = scripts()
    files = {**code(), **stored, "README.md": (PLAIN / "README.md").read_text(encoding="utf-8")}
    files.update({name: (ROOT / name).read_bytes() for name in ALONG})
    write(out, files)
    print(f"{out}: {sum('Cargo.toml' in name for name in files)} crates, {count} stored scripts")
    return 0


if __name__ == "__main__":
    sys.exit(main())
