"""Sessions of Garovymba for Python 3.8 and later, by ctypes.

    with incr.Session() as session:
        session.line("var x int 3")
        session.line("let y add(x, 4)")
        session.line("observe o y")
        session.line("stabilize")
        print(session.line("show o"))               # o = 7
        session.line("watch o")
        session.line("stabilize")
        print(session.notices())                    # [Notice(kind=<Kind.INIT: 1>, name='o', before='', now='7')]

Nothing that was printed is lost for want of memory: it waits in the session, and the next answer, or `rest`, hands it out.

Each call takes str or bytes, and raises TypeError for anything else.

The shared library is libincr.so in the folder that INCR_LIBRARY names, else beside this file, as the wheel has it, else in embed/out.
"""

from __future__ import annotations

import ctypes
import enum
import os
import pathlib
import threading
import typing

from ._words import ACCEPTED, BLANK, DONE, IS_OPEN, NO_MEMORY, NO_NOTICE, NO_SESSION, NO_SLOT, REFUSED, TOO_MANY, words

__version__ = "0.2.0"
__all__ = [
    "Session", "Notice", "Kind", "IncrError", "Refused", "Closed", "NoMemory", "TooManyLines", "WrongThread", "words",
    "BLANK", "ACCEPTED", "DONE", "REFUSED", "NO_NOTICE", "NO_SESSION", "NO_MEMORY", "TOO_MANY", "NO_SLOT", "IS_OPEN",
]

Text = typing.Union[str, bytes]
NO_NUMBER = ctypes.c_size_t(-1).value


class Kind(enum.IntEnum):
    """What a notice tells of an observer: what it shows at first, another value, or that what it shows turned to invalid."""

    INIT, CHANGE, INVALID = 1, 2, 3


class Notice(typing.NamedTuple):
    """A notice: its kind, the observer's name, which is empty where the observer ended since, what was told of it before, which only a
    change has, and what it shows now, both as `show` prints them.
    """

    kind: Kind
    name: str
    before: str
    now: str


class IncrError(Exception):
    """What a session does not do."""


class Refused(IncrError):
    """The session refused a line: `number` is that of docs/language.md, `words` what it means, `printed` what was printed, and `line` what
    was given.

    The session stays as it was, but where the line is a stabilize: that one breaks it, and each command behind it is refused with 22.
    """

    def __init__(self, number: int, printed: str, line: Text) -> None:
        super().__init__(number, printed, line)
        self.number, self.printed, self.line = number, printed, line

    @property
    def words(self) -> str:
        return words(REFUSED + self.number)

    def __str__(self) -> str:
        line = self.line.decode("utf-8", "backslashreplace") if isinstance(self.line, bytes) else self.line
        return "refused %d: %s: %s" % (self.number, self.words, line if len(line) <= 100 else line[:100] + "..")


class Closed(IncrError):
    """The session was closed."""


class NoMemory(IncrError, MemoryError):
    """The library found no memory for the session, or for a line, which printed nothing.

    The line may be given again: it changed nothing, but where it is a stabilize, which may have been carried out or broke the session.
    """


class TooManyLines(IncrError):
    """The session has taken 2^30 lines, and takes no more."""


class WrongThread(IncrError):
    """The session belongs to another thread."""


class _Slot(ctypes.Structure):
    _fields_ = [("live", ctypes.c_uint64), ("at", ctypes.c_void_p)]


class _Told(ctypes.Structure):
    _fields_ = [("round", ctypes.c_uint64), ("name", ctypes.c_size_t), ("before", ctypes.c_size_t), ("now", ctypes.c_size_t)]


def _library():
    here = pathlib.Path(__file__).resolve().parent
    named = os.environ.get("INCR_LIBRARY")
    folders = [pathlib.Path(named)] if named else [here, here.parent.parent / "out"]
    for folder in folders:
        if (folder / "libincr.so").exists():
            library = ctypes.CDLL(str(folder / "libincr.so"))
            break
    else:
        raise ImportError("libincr.so is in none of %s: `make -C embed` builds it" % ", ".join(map(str, folders)))
    slot, size, count = ctypes.POINTER(_Slot), ctypes.c_size_t, ctypes.POINTER(ctypes.c_size_t)
    library.incr_open.argtypes = [slot]
    library.incr_line.argtypes = [slot, ctypes.c_char_p, size, ctypes.c_char_p, size, count]
    library.incr_rest.argtypes = [slot, ctypes.c_char_p, size, count]
    library.incr_notice.argtypes = [slot, size, ctypes.c_char_p, size, ctypes.POINTER(_Told)]
    library.incr_close.argtypes = [slot]
    for call in (library.incr_open, library.incr_line, library.incr_rest, library.incr_notice, library.incr_close):
        call.restype = ctypes.c_int32
    return library


_LIBRARY = _library()


def _bytes(text: Text) -> bytes:
    if isinstance(text, str):
        return text.encode()
    if isinstance(text, bytes):
        return text
    raise TypeError("a line is str or bytes, and not %s" % type(text).__name__)


class Session:
    """A session: a script in the making. It is used by the thread that made it, and closed at the end of a `with`.

    `lines` is how many lines it has taken. A call may raise since Python itself finds no memory: by a MemoryError that isn't NoMemory, or
    what is made of one, as ctypes.ArgumentError. Then `lines` tells whether the line was taken; if it was, what didn't arrive of what was
    printed is `last`, the bytes that the call was about to hand out, and then `rest()`.
    """

    # What was printed and not handed out stands in `_pieces`, and behind these are `_count` bytes: in `_room` where they fit, else
    # in the library. Where an allocation fails between two steps each byte is still in one of these places, or in `last`.

    def __init__(self) -> None:
        self.lines, self.last = 0, b""
        self._slot, self._count, self._pieces = _Slot(), ctypes.c_size_t(), []
        self._at, self._counted = ctypes.byref(self._slot), ctypes.byref(self._count)
        self._room, self._thread = ctypes.create_string_buffer(256), threading.get_ident()
        if _LIBRARY.incr_open(self._at) != DONE:
            raise NoMemory(words(NO_MEMORY))

    def give(self, text: Text) -> typing.Tuple[int, bytes]:
        """Gives the session a line, without its newline: how it was taken, as in incr.h, and the bytes that it prints.

        What waited comes in front of them.
        """
        return self._take(_bytes(text)), self._hand_out()

    def line(self, text: Text) -> str:
        """Gives the session a line, and answers what it prints, without the newline at its end; raises `Refused` where it is refused.

        What waited comes in front, each line with its newline.
        """
        how = self._take(_bytes(text))
        told = self._hand_out().decode("ascii")
        if told.endswith("\n"):
            told = told[:-1]
        if how >= REFUSED:
            raise Refused(how - REFUSED, told, text)
        return told

    def run(self, script: Text) -> bytes:
        """Gives the session each line of a script, and answers its transcript, refusals too.

        Where a line raises, what was printed before it waits, and `lines` tells how many were taken.
        """
        lines = _bytes(script).split(b"\n")
        if not lines[-1]:
            lines.pop()
        for line in lines:
            self._take(line)
        return self._hand_out()

    def rest(self) -> bytes:
        """The bytes that wait: what was printed and not handed out, where memory was wanting or a line of `run` raised."""
        self._check()
        return self._hand_out()

    def notices(self) -> typing.List[Notice]:
        """What the last accepted stabilize told: a `Notice` of each observer of which it told something, in the order in which these were made.

        The notices can be read until the next accepted stabilize, also where that one raised NoMemory. Reading changes nothing.
        """
        self._check()
        told, room, notices = _Told(), ctypes.create_string_buffer(256), []
        while True:
            what = _LIBRARY.incr_notice(self._at, len(notices), room, len(room), ctypes.byref(told))
            length = told.name + told.before + told.now
            if length > len(room):
                room = ctypes.create_string_buffer(length)
            elif what == NO_NOTICE:
                return notices
            elif what == NO_MEMORY:
                raise NoMemory(words(NO_MEMORY))
            elif what == NO_SESSION:
                raise Closed(words(NO_SESSION))
            else:
                text = ctypes.string_at(room, length).decode("ascii")
                name, before = told.name, told.name + told.before
                notices.append(Notice(Kind(what), text[:name], text[name:before], text[before:]))

    @property
    def round(self) -> int:
        """How many stabilizes were accepted: the number of the one whose notices can be read."""
        self._check()
        told = _Told()
        if _LIBRARY.incr_notice(self._at, NO_NUMBER, None, 0, ctypes.byref(told)) == NO_SESSION:
            raise Closed(words(NO_SESSION))
        return told.round

    def close(self) -> None:
        """Ends the session, and lets go of what waits. A second close does nothing."""
        if self._slot.live:
            self._check()
            _LIBRARY.incr_close(self._at)
        self._pieces.clear()
        self._count.value = 0

    @property
    def closed(self) -> bool:
        return self._slot.live == 0

    def _take(self, text):
        """Gives the session a line, and answers how it was taken. What it prints waits."""
        self._check()
        self.last = b""
        if self._count.value:
            self._keep()
        lines = self.lines + 1
        how = _LIBRARY.incr_line(self._at, text, len(text), self._room, len(self._room), self._counted)
        if how >= 0:
            self.lines = lines
            return how
        if how == NO_SESSION:
            raise Closed(words(NO_SESSION))
        if how == TOO_MANY:
            raise TooManyLines(words(TOO_MANY))
        raise NoMemory(words(NO_MEMORY))

    def _keep(self):
        """Puts what waits in the library or in the room behind the pieces."""
        count = self._count.value
        if count > len(self._room):
            room = ctypes.create_string_buffer(count)
            _LIBRARY.incr_rest(self._at, room, count, self._counted)
            self._room = room
        if count:
            self._pieces.append(ctypes.string_at(self._room, count))
            self._count.value = 0

    def _hand_out(self):
        """All that waits, which waits no more."""
        self._keep()
        self.last = b"".join(self._pieces)
        self._pieces.clear()
        return self.last

    def _check(self):
        if threading.get_ident() != self._thread:
            raise WrongThread("the session belongs to another thread")

    def __enter__(self) -> Session:
        return self

    def __exit__(self, *raised: object) -> None:
        self.close()

    def __del__(self):
        # (of a session that its own thread did not close, and another one lets go, the memory stays)
        if getattr(self, "_thread", None) == threading.get_ident() and self._slot.live:
            _LIBRARY.incr_close(self._at)

    def __copy__(self):
        raise TypeError("a session can't be copied")

    def __deepcopy__(self, memo):
        raise TypeError("a session can't be copied")

    def __reduce__(self):
        raise TypeError("a session can't be pickled")
