#!/usr/bin/env python3
"""Compares the programs with the reference model, on scripts that are written at random.

Each script is run whole, in small pieces and line by line. The model judges the transcript, the status
must fit it, and the three runs must agree. In the last two the answers to the lines that are complete
must come before more is written. The profiling program must print the same lines, and the model judges
the calls that it tells for each stabilize.
"""

import argparse
import os
import random
import re
import select
import subprocess
import sys
from pathlib import Path

REPOSITORY = Path(__file__).resolve().parent.parent
PATIENCE = 20                # seconds for an answer
BEHIND_ALL = 1000            # a stage behind each one that the model has
LONGEST_LINE = 4096          # bytes, without the newline
CHAINS = (120, 128, 129, 129, 130, 130, 130, 131, 135)      # points, each read by the next; 130 are too many
EDGES = (-(2**63), 2**63 - 1)

NAMES = (b"a b c x y o x1 _ A Z_9 add var let set show ok stable refused observe stabilize run sub gather sum9 cat advance"
         b" xx xy x10 aaaaaaaaaaaaaaaaaaaaaaaaaaaaaaab aaaaaaaaaaaaaaaaaaaaaaaaaaaaaaac").split()
RESERVED = (b"if then else bind in join fold from at steps now freeze when after every true false"
            b" int bool text node").split()
NUMBERS = b"0 1 -1 2 7 -0 007 -000 4294967296 -4294967297".split() + [b"%d" % edge for edge in EDGES] * 2
TEXTS = [b'""', b'"a"', b'"a \\"b\\" \\\\"', b'"# ~ ( )"', b'"' + b"t" * 300 + b'"']
UNITS = ((b"", 1), (b"ns", 1), (b"us", 10**3), (b"ms", 10**6), (b"s", 10**9))
SPANS = (0, 1, 1, 2, 10, 255, 256, 257, 65_535, 65_536, 65_537, 5 * 10**9, 10**10, 2**40)
BORDERS = tuple([256**level for level in (1, 1, 1, 2, 2, 3, 4, 7)])     # where a wheel of 256 slots to a level turns
NO_TIMES = (b"-1 -0 5h 5S 1sx 5 s 1e3 now x 0x5s 9223372036854775808 9223372036855s 00099999999999999999999us"
            b" 1ns2 4ms: 1_s s").split() + [b"9223372036854775808ns"]
NO_LITERALS = (b'+1 --1 - 1x 0x10 1_000 1.5 1e3 & &1 3ns -3s 99999999999999999999999 "open "\\n" "\x7f" true1'
               b" \xd9\xa3").split() + [b"%d" % (EDGES[0] - 1), b"%d" % (EDGES[1] + 1)]
BYTES = b" ,()-_019azAZ\n\r\t\x00#\"\\=&[]{}:@\x7f\x80\xff"
SEPARATORS = (b"", b"", b" ", b"   ", b"\t", b"\r")
ENDS = (b"\r", b"\r\r", b" \r", b"\r ", b" #", b" x", b"(", b"\x00")
INT, BOOL, TEXT = b"int", b"bool", b"text"
FUNCTIONS = {b"neg": (INT, (INT,)), b"clamp": (INT, (INT,) * 3), b"pick": (INT, (BOOL, INT, INT)), b"sum9": (INT, (INT,) * 9),
             b"and": (BOOL, (BOOL, BOOL)), b"or": (BOOL, (BOOL, BOOL)), b"not": (BOOL, (BOOL,)), b"pos": (BOOL, (INT,)),
             b"cat": (TEXT, (TEXT, TEXT)), b"len": (INT, (TEXT,)), b"same": (BOOL, (TEXT, TEXT)), b"show": (TEXT, (INT,))}
FUNCTIONS |= {name: (INT, (INT, INT)) for name in b"add sub mul div rem min max".split()}
FUNCTIONS |= {name: (BOOL, (INT, INT)) for name in b"eq lt le".split()}
FOLDS = {name: (gives, takes[1]) for name, (gives, takes) in FUNCTIONS.items() if len(takes) == 2 and takes[0] == gives}
BASES = (INT, BOOL, TEXT)
REFERENCES = {base: b"node " + base for base in BASES}
TYPES = (*BASES, *REFERENCES.values())
NOTICE = re.compile(rb"[A-Za-z_][A-Za-z0-9_]* (init |change |invalid\n)")      # behind the line of a stabilize
LEVELS = ((b"neg(", b")"), (b"add(1, ", b")"), (b"add(", b", d0)"), (b"pick(true, ", b", 2)"), (b"clamp(-9, ", b", 9)"),
          (b"rem(", b", 5)"), (b"sum9(1, 2, 3, 4, ", b", 6, 7, 8, d0)"), (b"fold sub from 1 [2, ", b", d0]"), (b"fold max from -9 [", b"]"),
          (b"if true then ", b" else d0"), (b"if lt(d0, d0) then 4 else ", b""), (b"if at 0 then ", b" else d0"),
          (b"if steps false [0: true, 9223372036854775807: false] then ", b" else d0"))
BODIES = (b"join(&%s)", b"join(steps &%s [9223372036854775807ns: &d0])", b"join(if true then &%s else &d0)", b"bind v = d0 in %s", b"bind v = %s in 4", b"bind v = d0 in bind w = v in %s")


class Disagreement(Exception):
    """What the program did, and the model does not allow."""


class Generator:
    """Writes scripts over a few names, so that the lines meet."""

    def __init__(self, chance, chains=CHAINS):
        self.chance = chance
        self.chains = chains
        self.names = chance.sample(NAMES, chance.randint(3, len(NAMES))) + [chance.choice(RESERVED)]
        self.nodes = {}                             # name to type and whether it is a variable
        self.binds = []                             # the names of binds
        self.bound = []                             # the variables of the binds round a formula, with their types
        self.observers, self.ended = [], []
        self.now, self.turns = 0, []                # about what the clock is, and the times that something waits for

    def name(self, known):
        """Mostly one of the known names."""
        known = list(known)
        return self.chance.choice(known if known and self.chance.random() < 0.93 else self.names)

    def new_name(self, known):
        """Mostly a name that is not known."""
        unused = [name for name in self.names if name not in known]
        return self.chance.choice(unused) if unused and self.chance.random() < 0.93 else self.name(known)

    def literal(self, ty):
        """Mostly a literal of the type."""
        if self.chance.random() < 0.04:
            return self.chance.choice(NO_LITERALS)
        if self.chance.random() < 0.03:
            ty = self.chance.choice(TYPES)
        if ty in REFERENCES.values():
            return b"&" + self.name([name for name, (of, _) in self.nodes.items() if REFERENCES.get(of) == ty])
        return self.chance.choice({b"int": NUMBERS, b"bool": (b"true", b"false"), b"text": TEXTS}[ty])

    def about(self, time):
        """A time, mostly the same and at times the one before or behind it."""
        return min(max(time + self.chance.choice((-1, 0, 0, 0, 1)), 0), EDGES[1])

    def later(self):
        """A time that mostly comes soon, or about where a level of a wheel turns."""
        chance, border = self.chance, self.chance.choice(BORDERS)
        return self.about(chance.choices((
            self.now + chance.randint(0, 9), self.now + chance.choice(SPANS), (self.now // border + chance.randint(1, 2)) * border,
            self.now // 2, chance.randint(0, EDGES[1]), EDGES[1]), (6, 6, 6, 1, 1, 1))[0])

    def spelled(self, time):
        """A time as a script may have it."""
        if self.chance.random() < 0.05:
            return self.chance.choice(NO_TIMES)
        unit, many = self.chance.choice([it for it in UNITS if time % it[1] == 0])
        return self.chance.choice((b"", b"", b"", b"0", b"000")) + b"%d" % (time // many) + unit

    def timed(self, ty):
        """The words of a formula that reads the clock, mostly of the type."""
        chance = self.chance
        times = sorted({self.later() for _ in range(chance.randint(0, 4))})
        if ty == INT and chance.random() < 0.25:
            return [b"now"]
        if ty == BOOL and chance.random() < 0.7 and times:
            self.turns.append(times[0])
            return [b"at", self.spelled(times[0])]
        self.turns += times
        if chance.random() < 0.1:
            times = [chance.choice(times) for _ in times]
        words = [b"steps", self.literal(ty), b"["]
        for number, time in enumerate(times):
            words += ([b","] if number else []) + [self.spelled(time), b":", self.literal(ty)]
        return words + [b"]"]

    def beat(self, ty):
        """The words of a formula that stands alone in its line."""
        span = self.chance.choice(SPANS)
        self.turns += [self.now + span, self.now + 2 * span]
        return [b"every" if ty == INT or self.chance.random() < 0.1 else b"after", self.spelled(span)]

    def move(self):
        """The words of a line that moves the clock: mostly about to where something turns, at times far."""
        chance = self.chance
        turns = [time for time in self.turns if self.now <= time < self.now + 2**41]
        time = self.about(chance.choice(turns)) if turns and chance.random() < 0.6 else self.later()
        if time > self.now + 2**44 and chance.random() < 0.8:
            time = self.now
        span = max(time - self.now, 0)
        self.now = max(time, self.now)
        return [b"advance", self.spelled(span)] if chance.random() < 0.5 else [b"advance-to", self.spelled(time)]

    def formula(self, ty, room):
        """The words of a formula, mostly of the type."""
        if self.chance.random() < 0.13:
            return self.timed(ty) if self.chance.random() < 0.96 else self.beat(ty)
        known = [name for name, (of, _) in self.nodes.items() if of == ty]
        known += [name for name, of in self.bound if of == ty] * 3
        functions = [name for name, (gives, _) in FUNCTIONS.items() if gives == ty]
        folds = [name for name, (gives, _) in FOLDS.items() if gives == ty]
        draw = self.chance.random()
        if room > 0 and self.chance.random() < 0.12:
            return self.choice(ty, room)
        if room > 0 and self.chance.random() < 0.12:
            return self.bind(ty, room)
        if room > 0 and ty in REFERENCES and self.chance.random() < 0.12:
            child = self.formula(REFERENCES[ty if self.chance.random() < 0.97 else self.chance.choice(BASES)], room - 1)
            return [b"join", b"("] + child + [b")"]
        if folds and room > 0 and draw < 0.1:
            return self.fold(self.chance.choice(folds), ty, room)
        if functions and room > 0 and draw < 0.6:
            function = self.chance.choice(functions)
            takes = FUNCTIONS[function][1]
            parts = [self.formula(ty, room - 1 if len(takes) < 9 else 0) for ty in takes]
            if self.chance.random() < 0.03:
                parts = parts * 2 if self.chance.random() < 0.5 else parts[1:]
            if self.chance.random() < 0.02:
                function = self.name(self.names)
            words = [function, b"("]
            for number, part in enumerate(parts):
                words += ([b","] if number else []) + part
            return words + [b")"]
        return [self.name(known) if draw < 0.85 and known or draw < 0.62 else self.literal(ty)]

    def bind(self, ty, room):
        """The words of a `bind`, mostly of the type. Its variable may hide a name."""
        of = self.chance.choices(TYPES, (15, 6, 3, 2, 1, 1))[0]
        left, variable = self.formula(of, room - 1), self.name(self.names)
        self.bound.append((variable, of))
        body = self.formula(ty, room - 1)
        self.bound.pop()
        return [b"bind", variable, b"=", *left, b"in", *body]

    def choice(self, ty, room):
        """The words of an `if`, mostly of the type."""
        test = BOOL if self.chance.random() < 0.97 else self.chance.choice(TYPES)
        other = ty if self.chance.random() < 0.97 else self.chance.choice(TYPES)
        sides = [self.formula(of, room - 1) for of in (test, ty, other)]
        return [b"if", *sides[0], b"then", *sides[1], b"else", *sides[2]]

    def fold(self, function, ty, room):
        """The words of a fold, mostly of the type."""
        count = self.chance.choice((0, 1, 1, 2, 2, 3, 3, 5, 9))
        element = FOLDS[function][1] if self.chance.random() < 0.97 else self.chance.choice(TYPES)
        if self.chance.random() < 0.03:
            function = self.name(self.names)
        words = [b"fold", function, b"from", self.literal(ty), b"["]
        for number in range(count):
            words += ([b","] if number else []) + self.formula(element, room - 1 if count < 4 else 0)
        words.append(b"]")
        if self.chance.random() < 0.03:
            del words[self.chance.randrange(len(words))]
        return words

    def deep(self):
        """An application as deep as a line may nest, or a little more or less."""
        levels = self.chance.choice((1, 63, 64, 64, 65, 66, 200))
        start, end = self.chance.choice(((b"neg(", b")"), (b"neg(", b")"), (b"fold add from 1 [", b"]"), (b"bind v = 1 in ", b"")))
        return [start] * levels + [self.literal(b"int")] + [end] * self.chance.choice((levels, levels, levels - 1))

    def chain(self):
        """Lines that declare a chain of points and mostly ask for its end; `d5` has five points below it."""
        chance, lines, last = self.chance, [b"var d0 int 3"], b"d0"
        count, longest = chance.choice(self.chains), chance.choice((1, 2, 64))
        points = 1
        while points < count:
            levels = chance.randint(1, min(longest, count - points))
            formula = last
            if levels == 1 and chance.random() < 0.2:
                levels, formula = 0, chance.choice(BODIES) % last
                points += 1
            for _ in range(levels):
                start, end = chance.choice(LEVELS)
                formula = start + formula + end
            points += levels
            last = b"d%d" % (points - 1)
            lines.append(b"let " + last + b" " + formula)
            if chance.random() < 1 / 32:
                lines += [self.observe(last), b"stabilize"]
            self.nodes[last] = (b"int", False)
        draw = chance.random()
        if draw < 0.15:
            return lines
        self.observers.append(b"end")
        ended = [b"unobserve end"] if draw < 0.3 else []
        return lines + [b"observe end " + last] + ended + [b"stabilize", b"show end"]

    def observe(self, node):
        """A line that makes an observer, mostly by a name that isn't in use, at times by one that was."""
        again = self.ended and self.chance.random() < 0.3
        name = self.chance.choice(self.ended) if again else self.new_name(self.observers)
        self.observers.append(name)
        return b"observe " + name + b" " + node

    def words(self):
        """The words and signs of a line of one of the eleven forms."""
        forms = ("var", "set", "let", "grab", "observe", "unobserve", "watch", "stabilize", "show", "advance")
        form = self.chance.choices(forms, (3, 4, 5, 1, 3, 1, 3, 4, 5, 3))[0]
        if form == "var":
            ty, name = self.chance.choice(TYPES), self.new_name(self.nodes)
            self.nodes.setdefault(name, (ty, True))
            return [b"var", name, *ty.split(), self.literal(ty)]
        if form == "set":
            variables = [name for name, (_, variable) in self.nodes.items() if variable]
            name = self.name(variables if self.chance.random() < 0.9 else self.nodes)
            return [b"set", name, self.literal(self.nodes.get(name, (b"int",))[0])]
        if form == "let":
            ty, name = self.chance.choices(TYPES, (15, 6, 3, 2, 1, 1))[0], self.new_name(self.nodes)
            words = self.deep() if self.chance.random() < 0.02 else self.formula(ty, self.chance.randint(0, 4))
            if self.chance.random() < 0.2:
                words = self.bind(ty, 3)
            elif ty in (INT, BOOL) and self.chance.random() < 0.2:
                words = self.beat(ty)
            if words[0] == b"bind" and name not in self.nodes:
                self.binds.append(name)
            self.nodes.setdefault(name, (ty, False))
            return [b"let", name] + words
        if form == "grab":
            bind, name = self.name(self.binds), self.new_name(self.nodes)
            self.nodes.setdefault(name, (self.nodes.get(bind, (INT,))[0], False))
            return [b"grab", name, bind]
        if form == "observe":
            return self.observe(self.name(self.nodes)).split(b" ")
        if form == "unobserve":
            name = self.name(self.observers)
            self.observers = [other for other in self.observers if other != name]
            self.ended.append(name)
            return [b"unobserve", name]
        if form == "watch":
            return [b"watch", self.name(self.observers if self.chance.random() < 0.95 else self.ended)]
        if form == "advance":
            return self.move()
        if form == "stabilize":
            return [b"stabilize"]
        return [b"show", self.name(self.observers if self.chance.random() < 0.9 else self.ended)]

    def line(self):
        """A line, mostly in the usual spelling."""
        chance, words = self.chance, self.words()
        line = b" ".join(words).replace(b" ( ", b"(").replace(b" , ", b", ").replace(b" )", b")")
        if chance.random() < 0.75:
            return line
        shuffled = chance.sample(words, chance.randint(1, len(words)))
        return chance.choice((
            b"".join([chance.choice((b" ", b"   ")) + word for word in words]) + b" ",
            b"".join([word + chance.choice(SEPARATORS) for word in words]),
            b" ".join(shuffled), line + chance.choice(ENDS), line + b"\r", self.long_line(line),
            chance.choice((b"", b" ", b"   ", b"\r", b"  \r", b"#", b"# " + line, b"  #\xff\r", b"\t")),
            mangled(chance, line).replace(b"\n", b""), line[: chance.randint(0, len(line))]))

    def long_line(self, line):
        """A line about as long as one may be, filled up with spaces, a note, a name or a number."""
        length = LONGEST_LINE + self.chance.choice((-1, 0, 0, 1, 1, 2, 900))
        start, filling, end = self.chance.choice((
            (line, b" ", b""), (line, b" ", b"\r"), (line, b" ", b"x"), (b"#", b"\xfe", b""),
            (b"var ", b"n", b" int 5"), (b"show ", b"n", b""), (b"var " + self.name([]) + b" int ", b"0", b"9"),
            (b"var " + self.name([]) + b' text "', b"t", b'"'), (b"let y ", b"(", b"")))
        return start + filling * (length - len(start) - len(end)) + end

    def script(self):
        """Some lines, at times a chain, and more lines."""
        counts = (0, 1, 5, 10, 20, 40)
        lines = [self.line() for _ in range(self.chance.choice(counts))]
        lines += self.chain() if self.chance.random() < 0.5 else []
        lines += [self.line() for _ in range(self.chance.choice(counts))]
        return b"".join([line + b"\n" for line in lines])


def mangled(chance, data):
    """The bytes with some put in, taken out or changed at one place."""
    at = chance.randint(0, len(data))
    return data[:at] + bytes([chance.choice(BYTES)])[: chance.randint(0, 1)] + data[at + chance.randint(0, 2) :]


def spoiled(chance, chains):
    """A script with some bytes changed, and cut at any two places."""
    script = Generator(chance, chains).script()
    for _ in range(chance.choice((0, 1, 5, 30))):
        script = mangled(chance, script)
    start, end = sorted([chance.randint(0, len(script)) for _ in range(2)])
    return chance.choice((script, script[:end], script[start:], script[:start] + script[end:]))


def noise(chance):
    """Random bytes: any, those of scripts, or words of scripts."""
    words = NAMES + RESERVED + NUMBERS + NO_LITERALS + [b"(", b")", b",", b"add(", b"[", b"\n", b"\r\n"] * 9
    size = chance.choice((1, 10, 100, 1000, 5000))
    known = bytes(chance.choices(BYTES, k=size))
    return chance.choice((chance.randbytes(size), known, b" ".join(chance.choices(words, k=size // 5))))


def long_script(chance, chains):
    """Sums of sums, of which each is about the double of the one before it."""
    count, back = chance.choice((20, 100, *chains)), chance.randint(1, 4)
    lets = [b"let d%d add(d%d, d%d)" % (i, i - 1, max(0, i - chance.randint(1, back))) for i in range(1, count)]
    return b"\n".join([b"var d0 int 3", *lets, b"observe o d%d" % (count - 1), b"stabilize", b"show o",
                       b"set d0 3", b"stabilize", b"set d0 4", b"stabilize", b"show o"])


def long_texts(chance):
    """Texts of texts, of which each is about twice as long as the one before it, up to the most bytes of a text."""
    count = chance.randint(2, 20)
    start = b'"' + b"".join(chance.choices((b"t", b"u", b" ", b'\\"', b"\\\\"), k=chance.choice((0, 1, 7, 300)))) + b'"'
    lets = [b"let d%d cat(d%d, d%d)" % (i, i - 1, max(0, i - chance.choice((1, 1, 2, i)))) for i in range(1, count)]
    last = count - 1
    return b"\n".join([b"var d0 text " + start, *lets, b"let n len(d%d)" % last, b"let s same(d%d, d%d)" % (last, last - 1),
                       b"observe o d%d" % last, b"observe p n", b"observe q s", b"stabilize", b"show o", b"show p", b"show q",
                       b'set d0 "v"', b"stabilize", b"show o", b"show p", b"show q"])


def unprofiled(profile):
    """The lines of a profile but for those of counts, and the calls of each stabilize. They stand behind its notices."""
    lines, calls, due, counted = [], [], False, False
    for line in profile.splitlines(keepends=True):
        told = re.fullmatch(rb"calls ([0-9]+)\n", line)
        built = re.fullmatch(rb"builds [1-9][0-9]*\n", line)
        if due and told:
            calls.append(int(told[1]))
            due, counted = False, True
            continue
        if due and not NOTICE.match(line):
            raise Disagreement("no calls are told after a stabilize: %r" % profile)
        if not (built and counted):
            lines.append(line)
        due, counted = due or bool(re.fullmatch(rb"stable [0-9]+\n", line)), False
    if due:
        raise Disagreement("no calls are told after the last stabilize: %r" % profile)
    return b"".join(lines), calls


def profiled(profile, script, transcript):
    """The calls of each stabilize, by the profiling program, whose other lines must be the transcript."""
    run = subprocess.run([profile, "run"], input=script, stdout=subprocess.PIPE, timeout=PATIENCE)
    lines, calls = unprofiled(run.stdout)
    if lines != transcript:
        raise Disagreement("the profile has other lines: %r" % run.stdout)
    return calls


def run_by_pieces(program, pieces, printed):
    """Status and transcript of a run that is fed these pieces; line i is due to print `printed[i]` lines."""
    transcript, line = b"", 0
    with subprocess.Popen([program, "run"], stdin=subprocess.PIPE, stdout=subprocess.PIPE) as run:
        try:
            for piece in pieces:
                run.stdin.write(piece)
                run.stdin.flush()
                line += piece.count(b"\n")
                while transcript.count(b"\n") < sum(printed[:line]):
                    ready = select.select([run.stdout], [], [], PATIENCE)[0]
                    more = os.read(run.stdout.fileno(), 65_536) if ready else b""
                    if not more:
                        raise Disagreement("no answer to line %d comes; before it %r" % (line, transcript))
                    transcript += more
            transcript += run.communicate(timeout=PATIENCE)[0]
        except BrokenPipeError as fault:
            raise Disagreement("the program reads no more after line %d" % line) from fault
        finally:
            run.kill()
    return run.returncode, transcript


def put_off(grammar, stages):
    """Has the model refuse the forms of these stages with 1, as it refuses those of a stage behind its own."""
    for forms in (grammar._COMMANDS, grammar._FORMS):
        for word, (stage, read) in forms.items():
            if stage in stages:
                forms[word] = (BEHIND_ALL, read)


def compare(programs, judge, chance, script, through):
    """Runs the script in each way, and raises a `Disagreement` where the model does not allow what comes."""
    program, profile = programs
    whole = subprocess.run([program, "run"], input=script, stdout=subprocess.PIPE, timeout=PATIENCE)
    calls = profiled(profile, script, whole.stdout) if profile else None
    told = "status %d, transcript %r, calls %s" % (whole.returncode, whole.stdout, calls)
    verdict = judge(script, whole.stdout, through, calls, walks=True)
    if not verdict.ok:
        raise Disagreement("%s: line %d of the script, %d of the transcript, where one of %s may stand; %s" % (
            verdict.message, verdict.script_line, verdict.transcript_line, list(verdict.allowed), told))
    if whole.returncode != (1 if re.search(rb"^refused [0-9]", whole.stdout, re.MULTILINE) else 0):
        raise Disagreement("not the status of such a transcript: " + told)
    size = chance.choice((1, 2, 3, 7, 20, 100)) if len(script) < 5000 else LONGEST_LINE
    small = [script[at : at + size] for at in range(0, len(script), size)]
    for pieces in (small, re.findall(rb"[^\n]*\n|[^\n]+", script)):
        if run_by_pieces(program, pieces, verdict.printed) != (whole.returncode, whole.stdout):
            raise Disagreement("by the pieces %r the answers are others than %s" % (pieces, told))


def main():
    parser = argparse.ArgumentParser(description=__doc__)
    parser.add_argument("model", type=Path, help="the folder of the reference model")
    parser.add_argument("--program", default=REPOSITORY / "crates/incr/out/incr", help="default: incr of this repository")
    parser.add_argument("--profile", default=REPOSITORY / "crates/incr_profile/out/incr_profile",
                        help="default: incr_profile of this repository; an empty word for none")
    parser.add_argument("--through", type=int, default=8, help="the model's stage of the language (default 8)")
    parser.add_argument("--later", type=int, nargs="*", default=[], help="stages among these whose forms are yet to come, and are "
                        "refused with 1 (default none)")
    parser.add_argument("--written", type=int, help="the stage that the model's own scripts are written for (default: that of --through): "
                        "lines of forms that come behind --through are to be refused with 1")
    parser.add_argument("--chain", type=int, help="how many points each chain has (default: 120 to 135, of which 129 may be needed)")
    parser.add_argument("--seed", type=int, default=1)
    parser.add_argument("--first", type=int, default=0, help="the number of the first script (default 0)")
    parser.add_argument("--count", type=int, default=600, help="how many scripts (default 600)")
    options = parser.parse_args()
    sys.path.insert(0, str(options.model))
    from incr_oracle import fuzz, grammar, judge
    put_off(grammar, options.later)
    chains = (options.chain,) if options.chain else CHAINS
    failed = 0
    for number in range(options.first, options.first + options.count):
        chance = random.Random("%d/%d" % (options.seed, number))
        script = (Generator(chance, chains).script, lambda: spoiled(chance, chains),
                  lambda: fuzz.script(options.seed, number, 60, options.written or options.through),
                  lambda: {3: lambda it: long_script(it, chains), 7: long_texts}.get(number % 20, noise)(chance))[number % 4]()
        try:
            compare((options.program, options.profile), judge.judge, chance, script, options.through)
        except (Disagreement, subprocess.TimeoutExpired) as fault:
            failed += 1
            if failed == 1:
                print("script %d of seed %d: %s" % (number, options.seed, fault))
                print("\n".join(["    %r" % line for line in script.split(b"\n")]))
    print("%d passed, %d failed" % (options.count - failed, failed))
    return 1 if failed else 0


if __name__ == "__main__":
    sys.exit(main())
