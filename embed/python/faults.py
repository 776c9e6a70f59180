"""As c/faults.c, by the calls of incr.py: faults.py WAY SCRIPT, where the way is `give`, `line` or `run`.

What the module asks of ctypes fails in its turn as what the library allocates does. Behind these runs are others, in which each
allocation of Python itself fails in turn, if the interpreter has its own tests beside it.
"""

import ctypes
import sys

import incr

try:
    import _testcapi as interpreter
except ImportError:
    interpreter = None

FAILING = ctypes.PyDLL(incr._LIBRARY._name)
WANTS = (MemoryError, ctypes.ArgumentError, SystemError)
FAILING_MOST = 31
MOST_ALLOCATIONS = 60


class FailingCtypes:
    """ctypes, where the two calls fail in their turn that ask for memory."""

    def __getattr__(self, name):
        return getattr(ctypes, name)

    def create_string_buffer(self, size):
        return self._made(ctypes.create_string_buffer, size)

    def string_at(self, room, size):
        return self._made(ctypes.string_at, room, size)

    def _made(self, call, *arguments):
        if FAILING.failing_fails():
            raise MemoryError
        return call(*arguments)


def by_library(call, *arguments):
    """Makes a call in which the library and ctypes find no memory in their turn."""
    FAILING.failing_watch(1)
    try:
        return call(*arguments)
    finally:
        FAILING.failing_watch(0)


class ByPython:
    """Makes calls of which one finds no memory for one allocation of Python."""

    def __init__(self, number, allocation):
        self.until, self.allocation, self.answer = number, allocation, None

    def __call__(self, call, *arguments):
        self.until -= 1
        if self.until != -1:
            return call(*arguments)
        interpreter.set_nomemory(self.allocation, self.allocation + 1)
        try:
            self.answer = call(*arguments)
        finally:
            self.end()
        return self.answer

    def end(self):
        while True:
            try:
                interpreter.remove_mem_hooks()
                return
            except MemoryError:
                pass


def give(session, line, watch):
    return watch(session.give, line)[1]


def tell(session, line, watch):
    try:
        told = watch(session.line, line)
    except incr.Refused as refused:
        told = refused.printed
    return told.encode() + b"\n" if told else b""


def run(session, lines, watch):
    return watch(session.run, b"".join(line + b"\n" for line in lines[session.lines:]))


def heard(session, round, watch):
    """What the last stabilize told, if that is a later one than that of this number."""
    while session.round > round:
        try:
            notices = watch(session.notices)
        except WANTS:
            continue
        return b"".join(b"told %d %s,%s,%s\n" % (kind, name.encode(), before.encode(), now.encode()) for kind, name, before, now in notices)
    return b""


def transcript(way, lines, watch):
    """What a session hands out for the lines, each given again that wasn't taken, and but in a `run` what each stabilize told."""
    told, session, round = b"", None, 0
    while session is None:
        try:
            session = watch(incr.Session)
        except WANTS:
            pass
    with session:
        while session.lines < len(lines):
            taken = session.lines
            try:
                told += run(session, lines, watch) if way is run else way(session, lines[session.lines], watch)
            except WANTS:
                if session.lines > taken and watch is not by_library:
                    told += session.last + session.rest()
            if way is not run:
                told += heard(session, round, watch)
                round = session.round
        return told + session.rest() + b"--\n"


def main(way, name):
    with open(name, "rb") as script:
        lines = script.read().split(b"\n")[:-1]
    way = {"give": give, "line": tell, "run": run}[way]
    out = sys.stdout.buffer
    incr.ctypes = FailingCtypes()
    for which in range(1, FAILING_MOST + 1, 2):
        first = 0
        while True:
            FAILING.failing_from(ctypes.c_long(first), ctypes.c_uint(which))
            out.write(transcript(way, lines, by_library))
            if first >= FAILING.failing_asked():
                break
            first += 1
    incr.ctypes = ctypes
    if interpreter:
        calls = 2 if way is run else len(lines) + 1 + lines.count(b"stabilize")
        for number in range(calls):
            for allocation in range(MOST_ALLOCATIONS * (len(lines) if way is run and number else 1)):
                out.write(transcript(way, lines, ByPython(number, allocation)))


main(*sys.argv[1:])
