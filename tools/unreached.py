#!/usr/bin/env python3
"""Lists the definitions of specs/ and proofs/ that nothing reaches.

    tools/unreached.py            a line for each, and then `N reached, M not`; the status is 1 where M isn't 0
    tools/unreached.py CRATE..    the same, but lists those of these crates alone

What a contract, Rattle code, or a proof of a function (Answers.antt, Invariants.antt, Proof.antt) names is reached, and so is what the text
of a reached definition names. A name leads where the file's `use` lines say, or to the file's own definition. So a
definition may be listed as reached for a name that means something else, but what is listed as not reached can go.
"""

import re
import sys
from collections import defaultdict
from pathlib import Path

ROOT = Path(__file__).resolve().parent.parent / "crates"
WORD = re.compile(r"[^\s(){}\[\],;→λ×|]+")
USE = re.compile(r"use +(Rattle\.[^\s{};]+?)(?:\.\{([^}]*)\})?(?: as +([^\s;]+))?\s*;?(?=\n|$)")
USE_LINE = re.compile(r"^ *(?:ghost )?(?:pub )?use +Rattle\..*$", re.M)
MODULE = re.compile(r" *(?:(?:pub )?module\b|(?:abbrev )?mutual\b)")
MARKS = r"(?:(?:abbrev|pub|opaque|unfoldable) +)*"
TYPE_HEAD = re.compile(rf" *{MARKS}(?:record|data) +([^\s:({{]+)")
TERM_HEAD = re.compile(rf" *{MARKS}([^\s:({{]+) *:(?: |$)")
CASE = re.compile(r"^ +([^\s:({]+) *:", re.M)
OF_FUNCTIONS = ("Answers.antt", "Invariants.antt", "Proof.antt")
REASON = re.compile(r"(?:using|unfolding)\(([^)]*)\)")


def indent_of(line):
    return len(line) - len(line.lstrip())


def is_blank(line):
    return not line.strip() or line.strip().startswith("--")


class File:
    """A file of specs/ or proofs/, or of Rattle: its module's name, text, and what its `use` lines bring in."""

    def __init__(self, path):
        self.path = path.relative_to(ROOT)
        self.text = path.read_text(encoding="utf-8")
        self.crate = self.path.parts[0]
        self.module = "Rattle." + ".".join(self.path.with_suffix("").parts)
        self.names, self.modules = defaultdict(list), {}
        for module, names, other in USE.findall(self.text):
            for name in filter(None, (it.strip() for it in names.split(","))):
                own = name.split(" as ")
                self.names[own[-1].strip()].append((module, own[0].strip()))
            if not names:
                self.modules[other or module.split(".")[-1]] = module

    def is_asked_for(self):
        """Whether the prover or the compiler reads the file for itself: Rattle code, or what it asks for of a function's proof."""
        parts = self.path.parts
        return self.path.suffix == ".rt" or (parts[1] == "proofs" and len(parts) > 3 and self.path.name in OF_FUNCTIONS)

    def body(self):
        return USE_LINE.sub("", self.text)


class Definition:
    def __init__(self, file, name, line, text):
        self.file, self.name, self.line, self.text = file, name, line, text
        self.cases = CASE.findall(text) if re.match(rf" *{MARKS}data ", text) else []


def definitions_of(file):
    """The definitions of a file, and the heads of its modules, whose parameters hold for all that stands in it."""
    lines = file.text.split("\n")
    allowed, inside, heads, found = [0], None, [], []
    for number, line in enumerate(lines):
        indent = indent_of(line)
        if is_blank(line):
            continue
        while len(allowed) > 1 and indent < allowed[-1]:
            allowed.pop()
        if inside is not None and indent > inside:
            continue
        inside = None
        if MODULE.match(line):
            allowed = [it for it in allowed if it <= indent] + [indent + 2]
            heads.append(number)
        elif not re.match(r" *(?:pub )?(?:use|mod) ", line) and indent in allowed:
            head = TYPE_HEAD.match(line) or TERM_HEAD.match(line)
            if head:
                found.append((head[1], number))
                inside = indent if TYPE_HEAD.match(line) else None
    starts = sorted([number for _, number in found] + heads + [len(lines)])

    def text_from(number):
        return "\n".join(lines[number : min(it for it in starts if it > number)])

    return [Definition(file, name, number + 1, text_from(number)) for name, number in found], [text_from(it) for it in heads]


class Search:
    """What is reached so far, and what of it is still to be read."""

    def __init__(self, files):
        self.files, self.heads = files, {}
        self.found, self.of_case = defaultdict(list), {}
        for file in files:
            definitions, self.heads[file] = ([], []) if file.is_asked_for() else definitions_of(file)
            for it in definitions:
                self.found[file.module, it.name].append(it)
                self.of_case.update({(file.module, case): (file.module, it.name) for case in it.cases})
        self.reached, self.waiting = set(), []

    def reach(self, module, name):
        key = (module, name)
        key = key if key in self.found else self.of_case.get(key, key)
        above, _, last = module.rpartition(".")
        if key not in self.found and (above, last) in self.found:
            key = (above, last)
        if key in self.found and key not in self.reached:
            self.reached.add(key)
            self.waiting.append(key)

    def read(self, file, text):
        """Reaches what a text names."""
        for word in set(WORD.findall(re.sub(r"(?:^|\s)--.*", "", text))):
            first, *rest = word.split(".")
            for name in {word, word.rstrip("."), first}:
                for it in file.names.get(name, ()):
                    self.reach(*it)
                self.reach(file.module, name)
            if rest and first in file.modules:
                self.reach(file.modules[first], rest[0])
                self.reach(f"{file.modules[first]}.{rest[0]}", rest[1] if len(rest) > 1 else "")

    def read_reasons(self, file):
        """Reaches what the attributes of functions name, as `using(crate::proofs::Sums::total)`."""
        for names in REASON.findall(file.text):
            for path in (it.strip().split("::") for it in names.split(",")):
                if len(path) > 2:
                    start = [file.crate] + path[1:-1] if path[0] == "crate" else path[:-1]
                    self.reach("Rattle." + ".".join(start), path[-1])

    def run(self):
        for file in self.files:
            if file.is_asked_for():
                self.read(file, re.sub(r"//.*", "", file.body()) if file.path.suffix == ".rt" else file.body())
                self.read_reasons(file)
        while self.waiting:
            for it in self.found[self.waiting.pop()]:
                self.read(it.file, it.text)
                for head in self.heads[it.file]:
                    self.read(it.file, head)


def main():
    paths = [it for it in sorted(ROOT.rglob("*")) if it.suffix in (".rt", ".antt") and not {"out", "must-fail"} & set(it.parts)]
    search = Search([File(it) for it in paths])
    search.run()
    lost = [it for key, all_of in search.found.items() if key not in search.reached for it in all_of]
    for it in sorted(lost, key=lambda it: (it.file.path, it.line)):
        if not sys.argv[1:] or it.file.crate in sys.argv[1:]:
            print(f"crates/{it.file.path}:{it.line} {it.name}")
    print(f"{len(search.reached)} reached, {len(lost)} not")
    return 1 if lost or not search.reached else 0


sys.exit(main())
