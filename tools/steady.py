#!/usr/bin/env python3
"""Runs incr_bench with no memory to be had in its rounds: each allocation that they ask for fails.

    steady.py [--program PROGRAM] [JOB..]     a job is a load of incr_bench; `steady 10 1000000` where none is told

incr_bench looks at the clock four times: before and after it builds its graph, of which the first stabilize is the
last act, and before and after its rounds. A small library of C, made by `cc` in a folder that is removed again, stands
before the C library's clock and allocator. It has malloc, calloc and realloc fail from the third look to the fourth:
so from the first change behind the first stabilize on. Such a run must end with status 0, write what it writes with
memory, and ask for none meanwhile. Where it asks, a second run is given what it asks for, and tells where: how often,
for how many bytes, and the functions that seem to be on the stack.
The last line is `N passed, M failed`, and the status is 1 where one failed.
"""
import argparse
import bisect
import collections
import os
import subprocess
import sys
import tempfile
from pathlib import Path

PROGRAM = Path(__file__).resolve().parent.parent / "crates/incr_bench/out/incr_bench"
LOOKS = 4
ALLOCATOR = r"""
#define _GNU_SOURCE
#include <elf.h>
#include <errno.h>
#include <stdio.h>
#include <stdlib.h>
#include <string.h>
#include <sys/auxv.h>
#include <sys/syscall.h>
#include <time.h>
#include <unistd.h>

extern void *__libc_malloc(size_t);
extern void *__libc_calloc(size_t, size_t);
extern void *__libc_realloc(void *, size_t);

enum { FIRST = 3, LAST = 4, SEEN = 160, DEEP = 6, KINDS = 64 };
static long looks, before, asked;
static int lets, kinds, inside;
static struct { void *stack[DEEP]; int deep; size_t size; long count; } kind[KINDS];

/* The program has no tables to unwind by: what lies on the stack and points behind a call is taken for a return. */
static int walk(void **stack) {
    Elf64_Phdr *part = (Elf64_Phdr *)getauxval(AT_PHDR);
    char *base = (char *)part - part->p_offset, *start = NULL, *end = NULL;
    if (part->p_type == PT_PHDR) base = (char *)part - part->p_vaddr;
    for (int i = getauxval(AT_PHNUM); i--; part++)
        if (part->p_type == PT_LOAD && part->p_flags & PF_X) {
            start = base + part->p_vaddr;
            end = start + part->p_memsz;
        }
    char **at = __builtin_frame_address(0);
    int deep = 0;
    for (int i = 0; i < SEEN && deep < DEEP; i++)
        if (at[i] >= start + 5 && at[i] < end && (unsigned char)at[i][-5] == 0xe8)
            stack[deep++] = (void *)(at[i] - base);
    return deep;
}

static void note(size_t size) {
    void *stack[DEEP] = {0};
    int deep = walk(stack), k = 0;
    while (k < kinds && (kind[k].size != size || memcmp(kind[k].stack, stack, sizeof stack))) k++;
    if (k == KINDS) return;
    if (k == kinds) {
        kinds++;
        kind[k].deep = deep;
        kind[k].size = size;
        memcpy(kind[k].stack, stack, sizeof stack);
    }
    kind[k].count++;
}

static int fails(size_t size) {
    if (inside) return 0;
    if (looks < FIRST) { before++; return 0; }
    if (looks >= LAST) return 0;
    asked++;
    if (lets) { note(size); return 0; }
    errno = ENOMEM;
    return 1;
}

void *malloc(size_t size) { return fails(size) ? NULL : __libc_malloc(size); }
void *calloc(size_t count, size_t size) { return fails(count * size) ? NULL : __libc_calloc(count, size); }
void *realloc(void *at, size_t size) { return fails(size) ? NULL : __libc_realloc(at, size); }

int clock_gettime(clockid_t clock, struct timespec *time) {
    looks++;
    return syscall(SYS_clock_gettime, clock, time);
}

__attribute__((constructor)) static void begin(void) { lets = getenv("STEADY_LETS") != NULL; }

__attribute__((destructor)) static void tell(void) {
    inside = 1;
    FILE *file = fopen(getenv("STEADY_TOLD"), "w");
    if (!file) return;
    fprintf(file, "%ld %ld %ld\n", looks, before, asked);
    for (int k = 0; k < kinds; k++) {
        fprintf(file, "%ld %zu", kind[k].count, kind[k].size);
        for (int i = 0; i < kind[k].deep; i++) fprintf(file, " %lx", (long)kind[k].stack[i]);
        fputc('\n', file);
    }
    fclose(file);
}
"""


def run(words, environment=None):
    return subprocess.run(words, capture_output=True, check=False, env={**os.environ, **(environment or {})})


def under(library, words, lets=False):
    """A run over the library, and what that told: looks, allocations before the rounds and in them, and where."""
    told = library.with_name("told")
    told.unlink(missing_ok=True)
    environment = {"LD_PRELOAD": str(library), "STEADY_TOLD": str(told)}
    ended = run(words, {**environment, "STEADY_LETS": "1"} if lets else environment)
    lines = [line.split() for line in told.read_text().splitlines()] if told.exists() else [["0", "0", "0"]]
    return ended, [int(word) for word in lines[0]], lines[1:]


def symbols(program):
    """The addresses of the program's functions, in order, and their names."""
    lines = run(["nm", "-n", "-C", program]).stdout.decode().splitlines()
    found = [line.split(" ", 2) for line in lines if line[17:19] in ("t ", "T ")]
    return [int(at, 16) for at, _, _ in found], [name for _, _, name in found]


def where(program, kinds):
    """A line for each kind of allocation: how often, its bytes, and the functions that seem to be on the stack."""
    starts, names = symbols(program)
    counts = collections.Counter()
    for count, size, *stack in kinds:
        calls = [names[bisect.bisect_right(starts, int(at, 16) - 1) - 1].split("::<")[0] for at in stack]
        counts[int(size), " < ".join(calls)] += int(count)
    return [f"    {count} times {size} bytes: {calls}" for (size, calls), count in counts.most_common()]


def fault(whole, ended, looks, before, asked):
    """What is wrong with a run without memory, or None."""
    if whole.returncode != 0:
        return f"status {whole.returncode} with memory"
    if looks < LOOKS - 1 or before == 0:
        return f"{looks} looks at the clock and {before} allocations before the rounds: the library was passed by"
    if ended.returncode != 0:
        return f"status {ended.returncode} without memory, {asked} allocations asked for"
    if looks != LOOKS:
        return f"{looks} looks at the clock"
    if ended.stdout != whole.stdout:
        return f"other output without memory: {ended.stdout!r}"
    return f"{asked} allocations asked for" if asked else None


def main():
    parser = argparse.ArgumentParser(description=__doc__, formatter_class=argparse.RawDescriptionHelpFormatter)
    parser.add_argument("--program", default=PROGRAM)
    parser.add_argument("jobs", nargs="*", metavar="JOB", default=["steady 10 1000000"])
    words = parser.parse_args()
    if not Path(words.program).exists():
        sys.exit(f"{words.program} is missing: rt run builds it")
    failed = 0
    with tempfile.TemporaryDirectory() as folder:
        source, library = Path(folder) / "allocator.c", Path(folder) / "allocator.so"
        source.write_text(ALLOCATOR, encoding="ascii")
        subprocess.run(["cc", "-shared", "-fPIC", "-O1", "-o", library, source], check=True)
        for job in words.jobs:
            command = [words.program, *job.split()]
            whole = run(command)
            ended, (looks, before, asked), _ = under(library, command)
            wrong = fault(whole, ended, looks, before, asked)
            print(f"{job}: {wrong or f'{asked} allocations in the rounds, {before} before them'}", flush=True)
            failed += wrong is not None
            if asked:
                _, (_, _, given), kinds = under(library, command, lets=True)
                print(f"  given all that they ask for, the rounds take {given} allocations:")
                print(*where(words.program, kinds), sep="\n", flush=True)
    print(f"{len(words.jobs) - failed} passed, {failed} failed")
    return 1 if failed else 0


if __name__ == "__main__":
    sys.exit(main())
