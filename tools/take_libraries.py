#!/usr/bin/env python3
"""Gives the crates of a checkout the libraries that `rt ci` proved on this machine, so that `rt check` needn't prove them once more.

    tools/take_libraries.py [CHECKOUT]

What `rt ci` (also `rt ci NAME..`) passed is kept by kit 13f outside each checkout, by the sums of all that it read. A crate whose files and whose
libraries have these sums gets its library from there, with the stamp by which `rt check` knows it; all others are named, and stay as they are.
No verdict rests on it: `rt ci` reads its own store alone.
"""
import hashlib
import importlib.machinery
import importlib.util
import json
import os
import shutil
import sys

sys.dont_write_bytecode = True
RT = "/opt/rattle/bin/rt"


def rt_module():
    """The command `rt`, as a module."""
    loader = importlib.machinery.SourceFileLoader("rt_command", RT)
    made = importlib.util.module_from_spec(importlib.util.spec_from_loader("rt_command", loader))
    sys.modules["rt_command"] = made
    loader.exec_module(made)
    return made


def remember_below(crate_type):
    """Has a crate's list of libraries made once: rt makes it anew for each way that leads to the crate."""
    made, known = crate_type.below, {}

    def below(crate):
        if crate.folder not in known:
            known[crate.folder] = made(crate)
        return known[crate.folder]

    crate_type.below = below


def built_sum(rtlib, crate):
    """The sum of a library as it stands in the crate's out/, as rt's store has it."""
    out = f"{crate.folder}/out"
    files = sorted(os.path.relpath(f"{at}/{name}", out) for at, _, names in os.walk(f"{out}/rlib/{crate.name}.rlib") for name in names)
    return hashlib.sha256(repr([(it, rtlib.sum_of(f"{out}/{it}")) for it in files]).encode()).hexdigest()


def take(rt, crate, kept, stamp):
    """Puts a kept library into the crate's out/, with its stamp."""
    out = f"{crate.folder}/out"
    shutil.rmtree(f"{out}/rlib", ignore_errors=True)
    with open(f"{kept}/made.json", encoding="utf-8") as file:
        made = json.load(file)
    for number, (path, _) in enumerate(made["files"]):
        os.makedirs(os.path.dirname(f"{out}/{path}"), exist_ok=True)
        rt.link_or_copy(f"{kept}/{number}", f"{out}/{path}")
    with open(f"{out}/rlib/stamp", "w", encoding="utf-8") as file:
        file.write(stamp)


def main(root):
    os.chdir(root)
    rt = rt_module()
    rtlib = rt.rtlib
    remember_below(rtlib.Crate)
    rt.STAMPS.seen = {}
    rt.Crate.allowed = rt.handles_of(root)
    sums, taken, lacking = {}, [], []
    for crate in rtlib.crates_below(root):
        if crate.is_program or any(it.name not in sums for it in crate.below()):
            lacking += [] if crate.is_program else [crate.name]
            continue
        key = hashlib.sha256(repr((rt.own_sum(crate), [(it.name, sums[it.name]) for it in crate.below()])).encode()).hexdigest()
        kept, stamp = f"{rt.STORE}/proof-{crate.name}-{key}", crate.stamp()
        if not os.path.isdir(kept):
            lacking.append(crate.name)
            continue
        if rtlib.text_of(f"{crate.folder}/out/rlib/stamp") != stamp:
            take(rt, crate, kept, stamp)
            taken.append(crate.name)
        sums[crate.name] = built_sum(rtlib, crate)
    print(f"taken: {' '.join(taken) or 'none'}\nnot kept: {' '.join(lacking) or 'none'}")


if __name__ == "__main__":
    main(os.path.abspath(sys.argv[1] if len(sys.argv) > 1 else "."))
