"""What the module does where a session is used wrongly. The last line is `N passed, M failed`."""

import copy
import ctypes
import pickle
import sys
import threading

import incr

passed = failed = 0


def is_so(what, holds):
    global passed, failed
    if holds:
        passed += 1
    else:
        failed += 1
        print("edges: not so: " + what)


def raises(what, kind, call):
    try:
        call()
    except kind:
        is_so(what, True)
    else:
        is_so(what, False)


with incr.Session() as session:
    is_so("an accepted line tells", session.line("var x int 3") == "ok")
    is_so("a line may be bytes", session.line(b"let y add(x, 4)") == "ok")
    is_so("a note tells nothing", session.line("# note") == "")
    raises("a refused line", incr.Refused, lambda: session.line("set z 1"))
    raises("bytes of no command", incr.Refused, lambda: session.line("\0é\n"))
    raises("a line past 4,096 bytes", incr.Refused, lambda: session.line(b"#" * 4097))
    raises("a copy", TypeError, lambda: copy.copy(session))
    raises("a deep copy", TypeError, lambda: copy.deepcopy([session]))
    raises("a pickle", TypeError, lambda: pickle.dumps(session))
    text = "t" * 4000
    is_so("a long text is declared", session.line('var t text "%s"' % text) == "ok")
    session.run(b"observe o y\nobserve t t\nstabilize")
    is_so("and told whole, past the first room", session.line("show t") == 't = "%s"' % text)
    is_so("a script has its transcript", session.run(b"show o\n\nshow none\n") == b"o = 7\nrefused 11\n")
    is_so("an empty script has none", session.run(b"") == b"" and session.run(b"\n") == b"")
    is_so("each line was counted that was taken", session.lines == 15)
    is_so("nothing waits", session.rest() == b"")
    is_so("nothing is told", session.notices() == [] and session.round == 1)
    session.run(b"watch t\nwatch o\nstabilize\n")
    notices = session.notices()
    is_so("the first notices", [(n.kind, n.name, n.before) for n in notices] == [(incr.Kind.INIT, "o", ""), (incr.Kind.INIT, "t", "")])
    is_so("have what is shown, past the first room", [n.now for n in notices] == ["7", '"%s"' % text])
    is_so("and stay", session.line("set x 5") == "ok" and session.notices() == notices and session.round == 2)
    session.run(b"stabilize\nunobserve o\n")
    is_so("a change, of an observer that ended", session.notices() == [(incr.Kind.CHANGE, "", "7", "9")] and session.round == 3)
    caught = []

    def elsewhere():
        for call in (lambda: session.line("show o"), session.notices, lambda: session.round, session.close):
            try:
                call()
            except incr.WrongThread:
                caught.append(True)

    thread = threading.Thread(target=elsewhere)
    thread.start()
    thread.join()
    is_so("another thread is refused", caught == [True] * 4)
    try:
        session.line("set z 1")
    except incr.Refused as refused:
        is_so("a refusal has its number and what was printed", (refused.number, refused.printed) == (4, "refused 4"))
        is_so("and its words and its line", (refused.words, refused.line) == ("a name isn't declared", "set z 1"))
        is_so("and tells them", str(refused) == "refused 4: a name isn't declared: set z 1")
        is_so("and is pickled whole", str(pickle.loads(pickle.dumps(refused))) == str(refused))
    try:
        session.line(b"\xff" + b"#" * 4096)
    except incr.Refused as refused:
        is_so("a long line is told in part", str(refused) == "refused 2: the line has more than 4,096 bytes: \\xff" + "#" * 96 + "..")
    lines = session.lines
    for call in (session.line, session.give, session.run):
        for other in (3, None, ["show o"], bytearray(b"show o")):
            raises("%s of %r" % (call.__name__, other), TypeError, lambda: call(other))
    is_so("what is no text isn't taken", session.lines == lines)
    is_so("each call takes str", (session.give("show t"), session.run("show t")) == (session.give(b"show t"), session.run(b"show t")))
is_so("the end of a `with` closes", session.closed)
incr._LIBRARY.incr_errstr.restype = ctypes.c_char_p
is_so("words are those of the library", all(incr.words(n) == incr._LIBRARY.incr_errstr(n).decode() for n in range(-1000, 1000)))
version = [int(part) for part in incr.__version__.split(".")]
is_so("the version is that of the library", incr._LIBRARY.incr_version() == 10000 * version[0] + 100 * version[1] + version[2])
raises("a closed session", incr.Closed, lambda: session.line("show o"))
raises("the notices of a closed session", incr.Closed, session.notices)
raises("the count of a closed session", incr.Closed, lambda: session.round)
session.close()
is_so("a second close does nothing", session.closed)
sessions = [incr.Session() for _ in range(100)]
for number, other in enumerate(sessions):
    other.run(b"var x int %d\nobserve o x\nstabilize" % number)
is_so("sessions are apart", all(other.line("show o") == "o = %d" % number for number, other in enumerate(sessions)))
del sessions, other

print("%d passed, %d failed" % (passed, failed))
sys.exit(failed != 0)
