#!/usr/bin/env python3
"""Has the built programs answer the dialogues: scripts with the answer to each of their lines.

dialogues.py [FILE..]                  those of these files, or of dialogues/*.txt
dialogues.py --model MODEL [FILE..]    has the reference model judge what stands there, and runs no program
dialogues.py --cases NEW [FILE..]      writes them to a new folder, for `rt try --cases NEW -- run` in crates/incr, which proves nothing

A dialogue begins with `== NAME`, and below stands what it shows. The script's lines have `> ` before them, and below each stands its
answer; lines in a row have the same answer each, which stands below the last of them. `(nothing)` is an empty answer. Behind `stable N`
and its notices stand `calls N` and, where something was built, `builds N`: incr_profile writes these lines too, incr doesn't. In a line

    {TEXT*N}                 is N times the text
    {0d}                     is the byte of these two digits
    {each 00-09 0b 21-7e}    is each of these bytes in turn, in a line of its own
    >~                       stands before a last line without a newline

and between `for A to B` and `end` stand lines for each number from A to B, with the number in place of `#` and the next one in place of `@`.

Each dialogue is read by each program in three ways: whole, from a file; in pieces, of 7 bytes a read, or of 1 where the script is short; and
line by line, where the next line comes only once the last one is answered. The status must be 1 where a line is refused, else 0.
The last line is `N passed, M failed`, and the status is 1 where one failed or a program isn't built.
"""
import argparse
import difflib
import os
import re
import select
import socket
import subprocess
import sys
import tempfile
import threading
from pathlib import Path

from compare import put_off

REPOSITORY = Path(__file__).resolve().parent.parent
PROGRAMS = ("incr", "incr_profile")
PATIENCE = 20       # seconds for an answer
SHORT = 400         # the most bytes of a script that is also read byte by byte
SHOWN = 20          # the most lines of a difference that are printed
THROUGH = 8         # the reference model's stage of the language
LATER = ()          # stages among these whose forms are yet to come
COUNTS = re.compile(rb"(calls|builds) (\d+)")
REFUSED = re.compile(rb"refused \d")
TIMES = re.compile(r"\{([^{}]*)\*(\d+)\}")
EACH = re.compile(r"\{each ([0-9a-f -]+)\}")
BYTE = re.compile(r"\{([0-9a-f]{2})\}")


class Dialogue:
    """The lines of a script, each with the lines of its answer."""

    def __init__(self, name):
        self.name = name
        self.turns = []

    def lines(self):
        """Returns the lines of the script."""
        return [line for line, _ in self.turns]

    def answers(self, program):
        """Returns the bytes that a program is to write behind each line."""
        return [b"".join(it + b"\n" for it in answer if program == "incr_profile" or not COUNTS.fullmatch(it)) for _, answer in self.turns]

    def status(self):
        """Returns the status with which a program is to end."""
        return 1 if any(REFUSED.match(it) for _, answer in self.turns for it in answer) else 0


def spelled(text):
    """Returns the lines that a line of a file stands for, as bytes."""
    each = EACH.search(text)
    if each:
        ranges = [[int(end, 16) for end in it.split("-")] for it in each[1].split()]
        numbers = [number for it in ranges for number in range(it[0], it[-1] + 1)]
        return [line for number in numbers for line in spelled(f"{text[:each.start()]}{{{number:02x}}}{text[each.end():]}")]
    text = TIMES.sub(lambda it: it[1] * int(it[2]), text)
    return [BYTE.sub(lambda it: chr(int(it[1], 16)), text).encode("latin-1")]


def blocks_written_out(file):
    """Returns the numbered lines of a file, with the lines of its blocks once for each number."""
    lines, block = [], None
    for number, line in enumerate(file.read_text(encoding="utf-8").split("\n"), 1):
        opens = re.fullmatch(r"for (\d+) to (\d+)", line)
        if opens:
            block = range(int(opens[1]), int(opens[2]) + 1), []
        elif line == "end" and block:
            lines += [(at, it.replace("#", str(n)).replace("@", str(n + 1))) for n in block[0] for at, it in block[1]]
            block = None
        else:
            (block[1] if block else lines).append((number, line))
    if block:
        sys.exit(f"dialogues: {file}: a block has no end")
    return lines


def read(file):
    """Returns the dialogues of a file."""
    found, asked, answer = [], [], []

    def answered():
        if asked and not answer:
            sys.exit(f"dialogues: {file}:{number}: the lines above have no answer")
        if asked:
            found[-1].turns += [(line, [] if answer == [b"(nothing)"] else list(answer)) for line in asked]
        asked.clear()
        answer.clear()

    for number, line in blocks_written_out(file):
        if line.startswith("== "):
            answered()
            found.append(Dialogue(line[3:]))
        elif line.startswith(">"):
            if answer:
                answered()
            asked += [it + (b"" if line.startswith(">~") else b"\n") for it in spelled(re.sub("^>~? ?", "", line))]
        elif line and asked:
            answer += spelled(line)
    answered()
    return found


def rest_of(ran):
    """Returns what a program still writes. One that doesn't end is ended."""
    try:
        return ran.communicate(timeout=3 * PATIENCE)[0]
    except subprocess.TimeoutExpired:
        ran.kill()
        return ran.communicate()[0]


def whole(program, lines, _):
    """Runs a program over a file of lines. Returns what it writes, and its status."""
    with tempfile.TemporaryFile() as source:
        source.write(b"".join(lines))
        source.seek(0)
        with subprocess.Popen([program, "run"], stdin=source, stdout=subprocess.PIPE) as ran:
            return rest_of(ran), ran.returncode


def in_pieces(program, lines, _):
    """The same, with as many bytes a read as a packet has."""
    script = b"".join(lines)
    size = 1 if len(script) <= SHORT else 7
    feeding, source = socket.socketpair(socket.AF_UNIX, socket.SOCK_SEQPACKET)

    def feed():
        try:
            for at in range(0, len(script), size):
                feeding.send(script[at : at + size])
        except OSError:
            pass    # (the program ended)
        feeding.close()

    with subprocess.Popen([program, "run"], stdin=source, stdout=subprocess.PIPE) as ran:
        source.close()
        feeder = threading.Thread(target=feed)
        feeder.start()
        written = rest_of(ran)
        feeder.join()
        return written, ran.returncode


def line_by_line(program, lines, answers):
    """The same, where a line is written once as many bytes are there as the answer to the last one has."""
    written = b""
    with subprocess.Popen([program, "run"], stdin=subprocess.PIPE, stdout=subprocess.PIPE, bufsize=0) as ran:
        try:
            for line, answer in zip(lines, answers):
                ran.stdin.write(line)
                lacking = len(answer) if line.endswith(b"\n") else 0
                while lacking and select.select([ran.stdout], [], [], PATIENCE)[0]:
                    more = os.read(ran.stdout.fileno(), lacking)
                    written, lacking = written + more, lacking - len(more) if more else 0
                if lacking:
                    ran.kill()
        except BrokenPipeError:
            pass    # (it ended)
        written += rest_of(ran)
        return written, ran.returncode


def difference(written, wanted):
    """Returns how what is written differs from what is wanted, as lines."""
    lines = [it.decode(errors="replace").split("\n") for it in (wanted, written)]
    return [it[:120] for it in difflib.unified_diff(*lines, "wanted", "written", lineterm="", n=1)][:SHOWN]


def run_all(dialogues):
    """Has both programs answer the dialogues. Returns how many runs were as wanted, and how many were not."""
    passed, failed = 0, 0
    for name in PROGRAMS:
        program = REPOSITORY / "crates" / name / "out" / name
        if not os.access(program, os.X_OK):
            print(f"dialogues: {program.relative_to(REPOSITORY)} is missing: rt ci builds it")
            failed += 1
            continue
        for dialogue in dialogues:
            answers = dialogue.answers(name)
            for way in (whole, in_pieces, line_by_line):
                written, status = way(program, dialogue.lines(), answers)
                if (written, status) == (b"".join(answers), dialogue.status()):
                    passed += 1
                    continue
                failed += 1
                told = "" if status == dialogue.status() else f": status {status}, and not {dialogue.status()}"
                print(f"dialogues: {dialogue.name}: {name}, {way.__name__.replace('_', ' ')}{told}")
                print("\n".join(difference(written, b"".join(answers))))
    return passed, failed


def judge_all(dialogues, model):
    """Has the reference model judge the dialogues. Returns how many it allows, and how many it doesn't."""
    sys.path.insert(0, model)
    from incr_oracle import grammar, judge   # pylint: disable=import-outside-toplevel,import-error
    put_off(grammar, LATER)
    passed, failed = 0, 0
    for dialogue in dialogues:
        ran = [answer for _, answer in dialogue.turns if answer and re.match(rb"stable \d|refused 2[01] ", answer[0])]
        calls = [next((int(line[len("calls "):]) for line in answer if re.fullmatch(rb"calls \d+", line)), None) for answer in ran]
        verdict = judge.judge(b"".join(dialogue.lines()), b"".join(dialogue.answers("incr")), THROUGH, calls, walks=True)
        passed, failed = passed + verdict.ok, failed + (not verdict.ok)
        if not verdict.ok:
            print(f"dialogues: {dialogue.name}: {verdict.message}: line {verdict.script_line} of the script, "
                  f"where one of {list(verdict.allowed)} may stand")
    return passed, failed


def write_cases(folder, dialogues):
    """Writes each script as a file, and one of what incr is to write."""
    folder.mkdir()
    for number, dialogue in enumerate(dialogues):
        (folder / f"{number:02}").write_bytes(b"".join(dialogue.lines()))
        (folder / f"{number:02}.stdout").write_bytes(b"".join(dialogue.answers("incr")))


def main():
    words = argparse.ArgumentParser(description="Has the built programs answer the dialogues.")
    words.add_argument("--model", metavar="MODEL", help="the folder of the reference model, which judges them instead")
    words.add_argument("--cases", metavar="NEW", type=Path, help="a new folder, to which they are written instead")
    words.add_argument("files", metavar="FILE", nargs="*", type=Path)
    options = words.parse_args()
    dialogues = [it for file in options.files or sorted(REPOSITORY.glob("dialogues/*.txt")) for it in read(file)]
    if options.cases:
        write_cases(options.cases, dialogues)
        return
    passed, failed = judge_all(dialogues, options.model) if options.model else run_all(dialogues)
    print(f"{passed} passed, {failed} failed")
    sys.exit(1 if failed else 0)


main()
