#!/usr/bin/env python3
"""Runs a program over scripts once for each of its allocations, and lets that allocation fail.

Each such run must end with status 5 and whole lines from the front of what the script prints, or print all of it.
A small library of C, made by `cc` in a folder that is removed again, stands before the C library's allocator.
"""

import argparse
import os
import subprocess
import sys
import tempfile
from pathlib import Path

REPOSITORY = Path(__file__).resolve().parent.parent
ALLOCATOR = r"""
#include <errno.h>
#include <stdio.h>
#include <stdlib.h>
#include <unistd.h>

extern void *__libc_malloc(size_t);
extern void *__libc_realloc(void *, size_t);

static long count, wanted;

static int fails(void) {
    if (!wanted) { char *word = getenv("FAIL_AT"); wanted = word ? atol(word) : -1; }
    return ++count == wanted;
}

void *malloc(size_t size) {
    if (fails()) { errno = ENOMEM; return NULL; }
    return __libc_malloc(size);
}

void *realloc(void *at, size_t size) {
    if (fails()) { errno = ENOMEM; return NULL; }
    return __libc_realloc(at, size);
}

__attribute__((destructor)) static void tell(void) {
    char text[32];
    int length = snprintf(text, sizeof text, "%ld", count);
    if (getenv("FAIL_AT")) (void)!write(2, text, length);
}
"""


def run(program, script, environment=None):
    return subprocess.run([program, "run"], input=script, capture_output=True, check=False,
                          env={**os.environ, **(environment or {})})


def compare(program, library, path):
    """How many allocations were let fail, and how many of those runs ended with status 5."""
    script = path.read_bytes()
    whole = run(program, script)
    stopped, failing = 0, 1
    while True:
        part = run(program, script, {"FAIL_AT": str(failing), "LD_PRELOAD": str(library)})
        lines = part.stdout == b"" or part.stdout.endswith(b"\n")
        if part.returncode == 5 and lines and whole.stdout.startswith(part.stdout):
            stopped += 1
        elif (part.returncode, part.stdout) != (whole.returncode, whole.stdout):
            sys.exit(f"{path}: allocation {failing}: status {part.returncode}, {part.stdout[-80:]!r}")
        if int(part.stderr or 0) < failing:
            return failing - 1, stopped
        failing += 1


def main():
    parser = argparse.ArgumentParser(description=__doc__)
    parser.add_argument("--program", default=REPOSITORY / "crates/incr/out/incr")
    parser.add_argument("scripts", nargs="+", type=Path)
    words = parser.parse_args()
    with tempfile.TemporaryDirectory() as folder:
        source, library = Path(folder) / "allocator.c", Path(folder) / "allocator.so"
        source.write_text(ALLOCATOR, encoding="ascii")
        subprocess.run(["cc", "-shared", "-fPIC", "-O1", "-o", library, source], check=True)
        for path in words.scripts:
            tried, stopped = compare(words.program, library, path)
            print(f"{path}: {tried} allocations, {stopped} ended with status 5", flush=True)


if __name__ == "__main__":
    main()
