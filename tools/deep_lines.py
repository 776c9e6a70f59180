#!/usr/bin/env python3
"""Runs incr under a small stack, on lines of at most 4,096 bytes that are nested as deep as the grammar lets them.

    deep_lines.py [KILOBYTES]     the stack; 256 where it isn't told

The last line is `N passed, M failed`, and the status is 1 where a line was answered otherwise.
"""
import resource
import subprocess
import sys
from pathlib import Path

PROGRAM = Path(__file__).resolve().parent.parent / "crates/incr/out/incr"
KILOBYTES = 256
LONGEST_LINE = 4096

# What a line is made of: its front, what stands so often before its middle, its middle, and what stands as often behind it.
LINES = [
    ("var x int 1", "", 0, "", "", "ok"),
    ("var p bool true", "", 0, "", "", "ok"),
    ("let a ", "neg(", 64, "x", ")", "ok"),
    ("let b ", "fold add from 0 [", 64, "x", "]", "ok"),
    ("let c ", "neg(fold add from 0 [", 32, "x", "])", "ok"),
    ("let d ", "if p then x else ", 64, "x", "", "ok"),
    ("let e ", "if ", 62, "p", " then p else p", "ok"),
    ("let f ", "bind v = ", 42, "x", " in v", "ok"),
    ("let g ", "bind v = x in ", 62, "v", "", "ok"),
    ("observe oa a", "", 0, "", "", "ok"),
    ("observe ob b", "", 0, "", "", "ok"),
    ("observe od d", "", 0, "", "", "ok"),
    ("observe oe e", "", 0, "", "", "ok"),
    ("observe of f", "", 0, "", "", "ok"),
    ("observe og g", "", 0, "", "", "ok"),
    ("stabilize", "", 0, "", "", "stable 1"),
    ("show oa", "", 0, "", "", "oa = 1"),
    ("show ob", "", 0, "", "", "ob = 1"),
    ("show od", "", 0, "", "", "od = 1"),
    ("show oe", "", 0, "", "", "oe = true"),
    ("show of", "", 0, "", "", "of = 1"),
    ("show og", "", 0, "", "", "og = 1"),
    ("set x 2", "", 0, "", "", "ok"),
    ("stabilize", "", 0, "", "", "stable 2"),
    ("show of", "", 0, "", "", "of = 2"),
    ("show og", "", 0, "", "", "og = 2"),
    ("let h ", "bind v = x in ", 64, "v", "", "ok"),
    ("let i ", "bind v = ", 64, "x", " in v", "ok"),
    ("let y ", "join(", 64, "x", ")", "refused 6"),
    ("let y ", "neg(", 65, "x", ")", "refused 25"),
    ("let y ", "(", 4000, "", "", "refused 25"),
    ("let y ", "if ", 1300, "", "", "refused 25"),
    ("let y ", "bind v = ", 400, "", "", "refused 25"),
    # freezes round one another, and what is no line
    ("let y ", "freeze ", 290, "x", " when f", "refused 5"),
    ("let y ", "freeze ", 584, "", "", "refused 1"),
    ("let y ", "freeze ", 290, "x", " when ", "refused 1"),
    ("let y ", "freeze join(", 64, "x", ") when f", "refused 5"),
    ("let y ", "after ", 600, "1", "", "refused 1"),
]


def main():
    if len(sys.argv) > 2 or not all(word.isdecimal() for word in sys.argv[1:]):
        sys.exit("usage: deep_lines.py [KILOBYTES]")
    stack = 1024 * int(sys.argv[1] if len(sys.argv) > 1 else KILOBYTES)
    lines = [front + before * count + middle + behind * count for front, before, count, middle, behind, _ in LINES]
    if any(len(line) > LONGEST_LINE for line in lines):
        sys.exit("a line is too long")
    run = subprocess.run([PROGRAM, "run"], input="".join(line + "\n" for line in lines), stdout=subprocess.PIPE, text=True,
                         preexec_fn=lambda: resource.setrlimit(resource.RLIMIT_STACK, (stack, stack)))
    found = run.stdout.splitlines()
    found += ["nothing, and the program ended with %d" % run.returncode] * (len(LINES) - len(found))
    failed = [(line, answer, wanted) for line, answer, (*_, wanted) in zip(lines, found, LINES) if answer != wanted]
    for line, answer, wanted in failed:
        print("%s .. (%d bytes): %s, not %s" % (line[:40], len(line), answer, wanted))
    print("%d passed, %d failed" % (len(LINES) - len(failed), len(failed)))
    return 1 if failed else 0


if __name__ == "__main__":
    sys.exit(main())
