#!/usr/bin/env python3
"""Refuses each allocation of the program in turn, outside the gate: bench/refused_memory.py [PROGRAM]

The program takes its memory from the C library. A library that is loaded before it counts these calls, and refuses the one of a number,
or it and all behind it. So for each number up to the last call of a run in which a server stops in a commit and a recovery follows, of one
whose orders travel as messages, and of a recovery of an image: the program ends with status 5, and has printed a front of what it prints with
ample memory (nothing, where it is a recovery of an image), or it has printed all and ends as with ample memory. What is printed of the recovery is so the group that it found.
The library is made by gcc, in a folder that goes again."""
import os
import subprocess
import sys
import tempfile
from collections import Counter
from pathlib import Path

ROOT = Path(__file__).resolve().parent.parent
PROGRAM = ROOT / "crates" / "drsim" / "out" / "drsim"
SCRIPTS = ROOT / "crates" / "scenarios" / "data"
NO_MEMORY = 5

REFUSING = r"""
#include <errno.h>
#include <stdio.h>
#include <stdlib.h>

extern void *__libc_malloc(size_t);
extern void *__libc_calloc(size_t, size_t);
extern void *__libc_realloc(void *, size_t);
extern void *__libc_memalign(size_t, size_t);

static long calls, first, last;

__attribute__((constructor)) static void begin(void) {
    calls = 0;
    first = atol(getenv("REFUSED_FIRST"));
    last = atol(getenv("REFUSED_LAST"));
}

__attribute__((destructor)) static void end(void) {
    long made = calls;
    first = last = 0; /* the library's own calls pass */
    FILE *counted = fopen(getenv("REFUSED_COUNT"), "w");
    if (counted) { fprintf(counted, "%ld", made); fclose(counted); }
}

static int refused(void) {
    calls++;
    if (calls < first || last < calls) return 0;
    errno = ENOMEM;
    return 1;
}

void *malloc(size_t size) { return refused() ? NULL : __libc_malloc(size); }
void *calloc(size_t n, size_t size) { return refused() ? NULL : __libc_calloc(n, size); }
void *realloc(void *p, size_t size) { return refused() ? NULL : __libc_realloc(p, size); }
void *memalign(size_t to, size_t size) { return refused() ? NULL : __libc_memalign(to, size); }
void *aligned_alloc(size_t to, size_t size) { return memalign(to, size); }
int posix_memalign(void **p, size_t to, size_t size) { return (*p = memalign(to, size)) ? 0 : ENOMEM; }
"""


def library_in(folder):
    source, library = folder / "refusing.c", folder / "refusing.so"
    source.write_text(REFUSING)
    subprocess.run(["gcc", "-O1", "-shared", "-fPIC", "-o", library, source], check=True)
    return library


def called(program, words, text, library, first, last):
    """What a call printed, its status, and how often it asked for memory, where these of its requests were refused."""
    count = library.parent / "count"
    count.write_text("0")
    refusing = {"LD_PRELOAD": library, "REFUSED_FIRST": first, "REFUSED_LAST": last, "REFUSED_COUNT": count}
    environment = os.environ | {name: str(value) for name, value in refusing.items()}
    ended = subprocess.run([program, *words], input=text, capture_output=True, check=False, env=environment)
    return ended.stdout, ended.returncode, int(count.read_text())


def refuse(program, words, name, library, is_lasting):
    """Refuses each request in turn, and all behind it where that is asked for; how the calls ended."""
    text = (SCRIPTS / f"{name}.dscli").read_bytes()
    printed, status, requests = called(program, words, text, library, 0, 0)
    if printed != (SCRIPTS / f"{name}.out").read_bytes() or requests == 0:
        sys.exit(f"{name} prints something else with ample memory, or asks the C library for none")
    ends = Counter()
    for first in range(1, requests + 1):
        last = 2**40 if is_lasting else first
        front, ended, _ = called(program, words, text, library, first, last)
        is_wanting = ended == NO_MEMORY and (printed.startswith(front) if words == ["run"] else front == b"")
        is_whole = (front, ended) == (printed, status)
        if not is_wanting and not is_whole:
            sys.exit(f"{name} without request {first} ended with {ended} and printed\n{front.decode(errors='replace')}")
        ends["status 5" if is_wanting else "as with ample memory"] += 1
        if is_wanting and b" ok group " in front:
            ends["behind the recovery"] += 1
    return requests, ends


def main():
    if len(sys.argv) > 2:
        sys.exit(__doc__)
    program = sys.argv[1] if len(sys.argv) == 2 else str(PROGRAM)
    with tempfile.TemporaryDirectory() as folder:
        library = library_in(Path(folder))
        runs = [(["run"], "site-lost-in-a-commit"), (["run"], "orders-delivered-twice"), (["recover", "01"], "recover-of-one-target")]
        for words, name in runs:
            for is_lasting in [False, True]:
                requests, ends = refuse(program, words, name, library, is_lasting)
                told = ", ".join(f"{count} {end}" for end, count in sorted(ends.items()))
                print(f"{name}, {requests} requests, {'each and all behind it' if is_lasting else 'each alone'}: {told}")


if __name__ == "__main__":
    main()
