"""Rounds of `set`, `stabilize`, `show` for timing: rounds.py [COUNT]. Prints the last answer, and the seconds to standard error."""

import sys
import time

import incr

rounds = int(sys.argv[1]) if len(sys.argv) > 1 else 100_000
start = time.perf_counter()
with incr.Session() as session:
    for line in (b"var x int 3", b"let y add(x, 4)", b"observe o y", b"stabilize"):
        session.give(line)
    for i in range(rounds):
        session.give(b"set x %d" % i)
        session.give(b"stabilize")
        last = session.give(b"show o")
print(last[1].decode(), end="")
print("Python: %.3f s" % (time.perf_counter() - start), file=sys.stderr)
