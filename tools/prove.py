#!/usr/bin/env python3
"""Proves and builds programs of this repository, as the gate does, and tells how far it is.

prove.py [NAME..]      of incr and incr_profile, both where none is named; a program is put to crates/NAME/out/NAME

The crates that these programs stand on are proved by `rt ci`, over a copy of them that has no crates of tests and no
must-fail edits. So what is proved here is kept on this machine for the gate and for every other checkout, and what they
proved isn't proved again. A run that was stopped goes on where it was, but for the crates that it was at. Of two runs in
a checkout the second waits. How far it is goes to standard error: one line that is written over where that is a terminal,
else a line a crate. All that was said is in out/prove.log. It is not the gate.
"""
import ctypes
import fcntl
import os
import re
import shutil
import signal
import subprocess
import sys
import tempfile
import threading
import time

ROOT = os.path.dirname(os.path.dirname(os.path.abspath(__file__)))
PROGRAMS = ("incr", "incr_profile")
LOG = "out/prove.log"
ROOM = "incr-prove-"
# What `rt ci` says where it is done with a crate, and where it waits for another run.
DONE = re.compile(r"rt: (\w+) (proved|is kept|NOT PROVED)\b(: its library)?")
WAITS = re.compile(r"rt: (\w+): another run .*waiting for it")
# The signal of prctl(2) that a process gets when the one that started it ends.
SET_PARENT_DEATH_SIGNAL = 1


def lines_below(names):
    """Returns the lines of crates.txt of these programs and of all crates that they stand on, by crate."""
    with open(f"{ROOT}/crates.txt", encoding="utf-8") as file:
        lines = [line.strip() for line in file]
    named = {line.split(":")[0].split()[0]: line for line in lines if line and not line.startswith("#")}
    wanted, left = set(), [*names]
    while left:
        it = left.pop()
        if it in named and it not in wanted:
            wanted.add(it)
            left += named[it].split(":")[1].split()
    return {it: line for it, line in named.items() if it in wanted}


def copy_crates(lines, room):
    """Copies what `rt ci` reads of these crates to the folder room, without their must-fail edits."""
    unread = shutil.ignore_patterns("out", "must-fail")
    for name in lines:
        shutil.copytree(f"{ROOT}/crates/{name}", f"{room}/crates/{name}", symlinks=True, ignore=unread)
    with open(f"{room}/crates.txt", "w", encoding="utf-8") as file:
        file.write("".join(f"{line}\n" for line in lines.values()))
    shutil.copyfile(f"{ROOT}/HANDLES", f"{room}/HANDLES")
    # (the copy is the top of a repository)
    os.mkdir(f"{room}/.git")


def sweep():
    """Removes the copies of runs that were killed."""
    for name in os.listdir(tempfile.gettempdir()):
        of = re.match(rf"{ROOM}(\d+)-", name)
        if of and not os.path.exists(f"/proc/{of[1]}"):
            shutil.rmtree(f"{tempfile.gettempdir()}/{name}", ignore_errors=True)


def told(seconds):
    """Returns a length of time in words."""
    return f"{int(seconds)} s" if seconds < 60 else f"{int(seconds) // 60} min {int(seconds) % 60} s"


class Progress:
    """Tells how far a run is: how many crates are done, which have all below them done, and which failed."""

    def __init__(self, lines):
        self.below = {it: {word for word in line.split(":")[1].split() if word in lines} for it, line in lines.items()}
        self.done, self.failed, self.began = set(), [], time.monotonic()
        self.is_terminal, self.ended, self.writes = sys.stderr.isatty(), threading.Event(), threading.Lock()
        self.looks = threading.Thread(target=self.look, daemon=True)

    def words(self):
        ended = self.done | {*self.failed}
        ready = [it for it in self.below if it not in ended and self.below[it] <= self.done]
        words = f"proved {len(self.done)} of {len(self.below)} crates ({told(time.monotonic() - self.began)})"
        return f"{words}; next {', '.join(ready)}" if ready else words

    def say(self, words):
        """Writes a line that stays."""
        with self.writes:
            print(f"{chr(13) + chr(27) + '[K' if self.is_terminal else ''}{words}", file=sys.stderr, flush=True)

    def take(self, line):
        """Takes a line that `rt ci` said."""
        done, waits = DONE.match(line), WAITS.match(line)
        if done and done[2] != "NOT PROVED":
            self.done.add(done[1])
            if not self.is_terminal:
                self.say(self.words())
        elif done and not done[3]:
            self.failed.append(done[1])
            self.say(f"incr: {done[1]} is not proved")
        elif waits:
            self.say(f"incr: another run on this machine is proving {waits[1]}; waiting for it")

    def look(self):
        while not self.ended.wait(0.5):
            with self.writes:
                words = self.words()[: shutil.get_terminal_size().columns - 1]
                print(f"\r\033[K{words}", end="", file=sys.stderr, flush=True)

    def begin(self):
        if self.is_terminal:
            self.looks.start()

    def end(self):
        self.ended.set()
        if self.looks.is_alive():
            self.looks.join()


def end_with_parent():
    """Has this process end when the one that started it does, however that ends."""
    ctypes.CDLL(None).prctl(SET_PARENT_DEATH_SIGNAL, signal.SIGKILL)


def prove(room, log, progress):
    """Runs `rt ci` over the copy in the folder room, with all that it says in the log, and returns its status."""
    # (what it leaves among its temporary files where it is killed goes with the folder)
    how = {"cwd": f"{room}/copy", "env": {**os.environ, "TMPDIR": f"{room}/temporary"}, "text": True, "errors": "replace"}
    how.update(stdin=subprocess.DEVNULL, stdout=subprocess.PIPE, stderr=subprocess.STDOUT)
    ran = subprocess.Popen(["rt", "ci"], start_new_session=True, preexec_fn=end_with_parent, **how)
    progress.begin()
    try:
        for line in ran.stdout:
            # (the copy is gone when the log is read)
            log.write(line.replace(f"{room}/copy", ROOT))
            log.flush()
            progress.take(line)
        return ran.wait()
    finally:
        progress.end()
        if ran.poll() is None:
            os.killpg(ran.pid, signal.SIGKILL)
            ran.wait()


def why_failed(progress):
    """Returns at which crates a run failed, or else the last that `rt` said."""
    if progress.failed:
        return f"at {', '.join(progress.failed)}"
    with open(f"{ROOT}/{LOG}", encoding="utf-8") as log:
        said = [line[4:].strip() for line in log if line.startswith("rt: ")]
    return f"({said[-1]})" if said else ""


def install(made, name, began):
    """Puts a built program to its place in one step, as old as the files that it was built of."""
    out = f"{ROOT}/crates/{name}/out"
    os.makedirs(out, exist_ok=True)
    number, path = tempfile.mkstemp(prefix=f"{name}-", dir=out)
    os.close(number)
    shutil.copyfile(made, path)
    os.chmod(path, 0o755)
    os.utime(path, (began, began))
    os.replace(path, f"{out}/{name}")


def build(names, room):
    """Proves and builds the programs in the folder room and puts them to their places. Returns the status."""
    began, lines = time.time(), lines_below(names)
    for name in ("copy", "temporary"):
        os.mkdir(f"{room}/{name}")
    # (`rt ci` runs a program as nobody, below its temporary files)
    for path in (room, f"{room}/temporary"):
        os.chmod(path, 0o711)
    copy_crates(lines, f"{room}/copy")
    progress = Progress(lines)
    progress.say(f"incr: proving {len(lines)} crates: some 66 minutes of a processor, less what is proved on this machine already")
    try:
        with open(f"{ROOT}/{LOG}", "w", encoding="utf-8") as log:
            status = prove(room, log, progress)
    except SystemExit:
        progress.say("incr: stopped; the crates that are proved are kept, and the next ./incr prove goes on from there")
        raise
    took = told(time.time() - began)
    if status or not all(os.path.isfile(f"{room}/copy/crates/{it}/out/{it}") for it in names):
        progress.say(f"incr: failed {why_failed(progress)} after {took}; all that was said is in {ROOT}/{LOG}")
        return 1
    for it in names:
        install(f"{room}/copy/crates/{it}/out/{it}", it, began)
    progress.say(f"incr: proved and built in {took}")
    return 0


def main():
    names = sys.argv[1:] or [*PROGRAMS]
    if not {*names} <= {*PROGRAMS}:
        sys.exit(__doc__)
    # Whoever asks a run to end has what it made beside the checkout removed.
    for it in (signal.SIGTERM, signal.SIGHUP, signal.SIGINT):
        signal.signal(it, lambda number, _: sys.exit(128 + number))
    if shutil.which("rt") is None:
        sys.exit("incr: rt, the command of the Rattle kit that proves and builds the program, is not on the path")
    try:
        for place in ("out", *[f"crates/{it}/out" for it in names]):
            os.makedirs(f"{ROOT}/{place}", exist_ok=True)
            tempfile.TemporaryFile(dir=f"{ROOT}/{place}").close()
    except OSError as error:
        sys.exit(f"incr: the programs are built into this checkout, and {place} in it can't be written: {error.strerror}")
    with open(f"{ROOT}/crates.txt", encoding="utf-8") as held:
        try:
            fcntl.flock(held, fcntl.LOCK_EX | fcntl.LOCK_NB)
        except BlockingIOError:
            print("incr: another ./incr prove is at work in this checkout; waiting for it", file=sys.stderr, flush=True)
            fcntl.flock(held, fcntl.LOCK_EX)
        sweep()
        room = tempfile.mkdtemp(prefix=f"{ROOM}{os.getpid()}-")
        try:
            return build(names, room)
        finally:
            shutil.rmtree(room, ignore_errors=True)


sys.exit(main())
