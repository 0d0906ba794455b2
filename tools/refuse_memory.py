#!/usr/bin/env python3
"""Refuses memory to runs of the built program, at one allocation each, and checks how each run ends.

usage: tools/refuse_memory.py [--step S] [--workers N] -- PROGRAM SCENARIO

PROGRAM is the built program, as crates/cmrun/out/cmrun (`rt run` builds it), SCENARIO a file that it reads, as
examples/every_member.json. A small library, which is made with `cc` and loaded before libc, lets the allocation of one number
fail. Each run has to end with the exit status 5 and nothing written (out of memory), or with the status 0 and the text that it
writes with ample memory; with threads, whose texts differ, with some summary. Runs are made for the numbers 1, 1 + S, 1 + 2 S,
.. up to one that no run comes to any more. Nothing here is proved, and it is no part of the gate.
"""
import argparse
import os
import pathlib
import subprocess
import sys
import tempfile

LIBRARY = r"""
#include <errno.h>
#include <stdatomic.h>
#include <stddef.h>
#include <stdlib.h>

static atomic_long made;
static long refused;

__attribute__((constructor)) static void begin(void) {
    const char *number = getenv("REFUSED_ALLOCATION");
    refused = number ? atol(number) : 0;
    made = 0;
}

static int is_refused(void) { return atomic_fetch_add(&made, 1) + 1 == refused; }

extern void *__libc_malloc(size_t);
extern void *__libc_realloc(void *, size_t);
extern void *__libc_calloc(size_t, size_t);
extern void *__libc_memalign(size_t, size_t);

void *malloc(size_t size) {
    if (is_refused()) { errno = ENOMEM; return NULL; }
    return __libc_malloc(size);
}
void *realloc(void *old, size_t size) {
    if (is_refused()) { errno = ENOMEM; return NULL; }
    return __libc_realloc(old, size);
}
void *calloc(size_t count, size_t size) {
    if (is_refused()) { errno = ENOMEM; return NULL; }
    return __libc_calloc(count, size);
}
void *aligned_alloc(size_t align, size_t size) {
    if (is_refused()) { errno = ENOMEM; return NULL; }
    return __libc_memalign(align, size);
}
int posix_memalign(void **into, size_t align, size_t size) {
    if (is_refused()) { return ENOMEM; }
    *into = __libc_memalign(align, size);
    return *into ? 0 : ENOMEM;
}
"""


def library(folder):
    """The library, made in the folder."""
    source = pathlib.Path(folder, "refuse.c")
    source.write_text(LIBRARY)
    made = source.with_suffix(".so")
    subprocess.run(["cc", "-O2", "-shared", "-fPIC", "-o", made, source], check=True)
    return made


def run(given, made, number):
    """The exit status of a run whose allocation of this number fails (of none at 0), and what it wrote."""
    loaded = dict(os.environ, LD_PRELOAD=str(made), REFUSED_ALLOCATION=str(number))
    words = [given.program, "run", "--workers", str(given.workers)]
    with open(given.scenario, "rb") as scenario:
        ran = subprocess.run(words, stdin=scenario, capture_output=True, env=loaded, timeout=60)
    return ran.returncode, ran.stdout


def main():
    words = argparse.ArgumentParser(description=__doc__.split("\n")[0])
    words.add_argument("--step", type=int, default=1, help="from one number to the next")
    words.add_argument("--workers", type=int, default=0)
    words.add_argument("program")
    words.add_argument("scenario", type=pathlib.Path)
    given = words.parse_args()
    wrong = []
    counts = {0: 0, 5: 0}
    with tempfile.TemporaryDirectory(prefix="refuse-memory-") as folder:
        made = library(folder)
        whole = run(given, made, 0)
        if whole[0] != 0:
            sys.exit(f"with ample memory the run ends with status {whole[0]}")
        # (what threads leave for want of memory is gone on with, so their runs do not tell how many allocations there are)
        alone = argparse.Namespace(**dict(vars(given), workers=0))
        most = 64
        while any(run(alone, made, most + more)[0] == 5 for more in range(8)):
            most *= 2
        for number in range(1, most, given.step):
            status, text = run(given, made, number)
            is_whole = text == whole[1] if given.workers == 0 else b'{"summary":' in text
            if (status == 5 and not text) or (status == 0 and is_whole):
                counts[status] += 1
            else:
                wrong.append(f"at allocation {number}: status {status}, {len(text)} bytes written")
    print(f"{sum(counts.values()) + len(wrong)} runs: {counts[5]} out of memory, {counts[0]} done, {len(wrong)} neither")
    for line in wrong:
        print("   ", line)
    sys.exit(1 if wrong else 0)


if __name__ == "__main__":
    main()
