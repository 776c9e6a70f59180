#!/usr/bin/env python3
"""Prints the definitions of specs/, on which the contracts stand, each with its comment.

    tools/glossary.sh                 every definition: crate by crate, file by file
    tools/glossary.sh CRATE           those of a crate
    tools/glossary.sh WORD            those of this name, whole; where there is none, those with the word in their name or comment
    tools/glossary.sh --check         says which names README.md and docs/ have in backticks that aren't found in the sources

The check passes a word that stands in a source outside of Rattle's comments, and a file or folder that is there; of `Type::name` the code of
one crate has to have both. In the tables of docs/theorems.md each clause has to be one of the call beside it, and each definition one of
specs/. The last line is `N passed, M failed`, and the status is 1 where one failed or nothing was found.
"""

import re
import sys
from pathlib import Path

ROOT = Path(__file__).resolve().parent.parent
THEOREMS = ROOT / "docs/theorems.md"
COLUMNS = ("crate", "call", "clause", "definitions")

# Words in backticks that are of the world outside, and where from.
OUTSIDE = {
    "the kit": "rt rattle-kit-13f logic dac8208d650f15bf",
    "examples": "mine.c mine.cpp mine.rs mine.py -Iembed -Iembed/cpp _p",
    "other libraries": "react QProperty swap_remove",
}


class Definition:
    """A definition: its crate and file, its line there, name, kind or type, comment, and whole text."""

    def __init__(self, path, line, name, stated, comment, text):
        self.path, self.line, self.name, self.stated, self.comment, self.text = path, line, name, stated, comment, text
        self.crate = path.parts[1]

    def brief(self):
        comment = "".join("\n      " + line for line in self.comment)
        return "  %s%s%s" % (self.name, self.stated, comment)

    def whole(self):
        return "%s:%d\n%s" % (self.path, self.line, "\n".join(["-- " + line for line in self.comment] + self.text))


HEAD = re.compile(r"( *)(?:(?:abbrev|unfoldable|opaque) +)?pub +(?:(record|data) +)?([^\s:({]+)(.*)")


def definitions_of(path):
    """The definitions of a file: what `pub` declares, but for modules, fields, cases and names brought in."""
    lines = (ROOT / path).read_text(encoding="utf-8").split("\n")
    found, comment, inside = [], [], None
    for number, line in enumerate(lines):
        indent = len(line) - len(line.lstrip())
        if inside is not None and line.strip() and indent <= inside:
            inside = None
        if line.strip().startswith("--"):
            comment.append(line.strip().lstrip("- ").rstrip("- "))
            continue
        head = HEAD.fullmatch(line)
        if head and inside is None and head[3] not in ("mod", "use"):
            data = head[2]
            if data:
                inside = indent
            end = number + 1
            while end < len(lines) and (lines[end].strip() if not data else not lines[end].strip() or lines[end].startswith(" " * (indent + 1))):
                end += 1
            text = [part[indent:] for part in lines[number:end]]
            while text and not text[-1].strip():
                text.pop()
            stated = " : " + data if data else head[4].rstrip()
            found.append(Definition(path, number + 1, head[3], stated, comment, text))
        comment = []
    return found


def heading_of(path):
    """The comment with which a file begins."""
    heading = []
    for line in (ROOT / path).read_text(encoding="utf-8").split("\n"):
        if not line.startswith("--"):
            break
        heading.append(line.lstrip("- "))
    return " ".join(heading)


def all_definitions():
    paths = sorted(path.relative_to(ROOT) for path in ROOT.glob("crates/*/specs/*.antt"))
    return [definition for path in paths for definition in definitions_of(path)]


def tell(definitions):
    """Prints definitions by their files."""
    path = None
    for definition in definitions:
        if definition.path != path:
            path = definition.path
            print("\n%s: %s" % (path, heading_of(path)))
        print(definition.brief())


def glossary(words):
    definitions = all_definitions()
    told = []
    if not words:
        told = definitions
        tell(told)
    for word in words:
        if (ROOT / "crates" / word).is_dir():
            found = [it for it in definitions if it.crate == word]
            tell(found)
        else:
            found = [it for it in definitions if it.name == word]
            if not found:
                found = [it for it in definitions if word in it.name or any(word in line for line in it.comment)]
            print("\n\n".join(it.whole() for it in found))
        if not found:
            print("glossary: no definition has the word %s" % word, file=sys.stderr)
        told += found
    return 0 if told else 1


# ---- the check


def sources():
    """Every file of the repository but the documents, and what is made."""
    for path in sorted(ROOT.rglob("*")):
        parts = path.relative_to(ROOT).parts
        if path.is_file() and not {".git", "out", "__pycache__"} & set(parts):
            yield path


def without_comments(path, text):
    if path.suffix == ".rt":
        return re.sub(r"//.*", "", text)
    if path.suffix == ".antt":
        return re.sub(r"(?m)^\s*--.*", "", text)
    return text


CODE = (".rt", ".c", ".h", ".hpp", ".cpp", ".rs", ".py")
CLAUSE = re.compile(r"\b(?:ensures|requires)\*? +(?:(\w+) +)?\{")


class Sources:
    """What stands in the sources: words, names of files and folders, clauses of functions, and the words of the code of a crate or folder."""

    def __init__(self, definitions):
        self.paths, self.clauses, self.code = set(), {}, {}
        self.definitions = {it.name for it in definitions}
        self.words = {word for words in OUTSIDE.values() for word in words.split()}
        for path in sources():
            place = path.relative_to(ROOT)
            self.paths.update("/".join(place.parts[start:end]) for end in range(1, len(place.parts) + 1) for start in range(end))
            if place.suffix == ".md" or place.name == "glossary.py":
                continue
            self.words.update(re.findall(r"\w+", str(place)))
            try:
                text = without_comments(path, path.read_text(encoding="utf-8"))
            except UnicodeDecodeError:
                continue
            words = set(re.findall(r"\w+", text))
            self.words |= words
            if path.suffix in CODE:
                self.code.setdefault(place.parts[:2], set()).update(words)
            if path.suffix == ".rt":
                self.take_clauses(place.parts[1], text)

    def take_clauses(self, crate, text):
        """Notes which clauses stand between each `fn NAME` and the next; one without a name is noted as an empty word."""
        for part in re.split(r"\bfn (?=\w)", text)[1:]:
            clauses = self.clauses.setdefault((crate, re.match(r"\w+", part)[0]), set())
            clauses.update(clause[1] or "" for clause in CLAUSE.finditer(part))

    def has_path(self, word):
        return word.rstrip("/") in self.paths or re.match(r"(embed/|crates/\w+/)?out/", word)

    def has_member(self, owner, member):
        """Whether the code of one crate or folder has both names."""
        return any({owner, member} <= words for words in self.code.values())

    def has(self, span):
        """Whether what stands in backticks is of the sources: files and folders, and words."""
        for word in span.split():
            word = re.sub(r"^(\.{1,2}/)+", "", word.strip("(),;:"))
            if word in self.words or self.has_path(word):
                continue
            if IS_PATH.fullmatch(word):
                return False
            if any(not self.has_member(*pair) for pair in re.findall(r"(\w+)::(?=(\w+))", word)):
                return False
            if not all(name in self.words for name in re.findall(r"[^\W\d]\w*", word) if not IS_PLACE.fullmatch(name)):
                return False
        return True


# a word that is a file or folder by its looks; one that stands for what a reader writes there
IS_PATH = re.compile(r"[\w.-]+(/[\w.-]+)+/?|[\w-]+\.(md|rt|antt|py|sh|incr|h|hpp|c|cpp|rs|edit|map|txt)")
IS_PLACE = re.compile(r"[A-Z]|[A-Z][A-Z_]+")


def spans_of(text):
    """What stands in backticks, and of blocks of lines what is a path of the repository, with the number of the line."""
    is_block = False
    for number, line in enumerate(text.split("\n"), 1):
        if line.startswith("```"):
            is_block = not is_block
        for span in re.findall(r"(?:\.ci|crates|docs|embed|examples|tools)/[\w./-]*" if is_block else r"`([^`]+)`", line):
            yield number, span


def rows_of(text):
    """The rows of tables that have these columns: the line's number, and what stands in backticks in each."""
    columns = None
    for number, line in enumerate(text.split("\n"), 1):
        cells = [cell.strip() for cell in line.strip().strip("|").split("|")] if line.startswith("|") else None
        if cells is None:
            columns = None
        elif columns is None:
            columns = {name: place for place, name in enumerate(cells)}
        elif set(COLUMNS) <= set(columns) and not set(line) <= set("|- "):
            yield number, [re.findall(r"`([^`]+)`", cells[columns[name]]) for name in COLUMNS]


def document_faults(path, known):
    """What of a document isn't there: for each name and each link, nothing or what is wrong."""
    text, name = path.read_text(encoding="utf-8"), path.relative_to(ROOT)
    for number, span in spans_of(text):
        yield None if known.has(span) else "%s:%d: `%s`" % (name, number, span)
    for target in re.findall(r"\]\(([^)#\s]+)[^)]*\)", text):
        if "://" not in target:
            yield None if (path.parent / target).exists() else "%s: no file %s" % (name, target)


def row_faults(known):
    """What of the rows of docs/theorems.md isn't there: for each call, clause and definition, nothing or what is wrong."""
    for number, (crates, calls, clauses, definitions) in rows_of(THEOREMS.read_text(encoding="utf-8")):
        names = [re.findall(r"\w+", call)[-1] for call in calls]
        contracts = [known.clauses.get((crate, name)) for crate in crates for name in names]
        wrong = ["no call %s" % name for name, contract in zip(names, contracts) if contract is None]
        had = set().union(*(contract for contract in contracts if contract))
        wrong += ["no clause %s of %s" % (clause, ", ".join(names)) for clause in clauses or [""] if clause not in had]
        wrong += ["no definition %s" % it for it in definitions if it not in known.definitions]
        for fault in wrong or [None]:
            yield fault and "%s:%d: %s in %s" % (THEOREMS.relative_to(ROOT), number, fault, ", ".join(crates))


def check():
    definitions = all_definitions()
    known = Sources(definitions)
    told = [fault for path in [ROOT / "README.md", *sorted((ROOT / "docs").glob("*.md"))] for fault in document_faults(path, known)]
    told += row_faults(known)
    faults = [fault for fault in told if fault]
    for fault in faults:
        print("glossary: " + fault)
    print("%d definitions; %d passed, %d failed" % (len(definitions), len(told) - len(faults), len(faults)))
    return 1 if faults or not told or not definitions else 0


def main():
    words = sys.argv[1:]
    if words == ["--check"]:
        return check()
    if any(word.startswith("-") for word in words):
        print(__doc__, file=sys.stderr)
        return 2
    return glossary(words)


if __name__ == "__main__":
    try:
        sys.exit(main())
    except BrokenPipeError:
        sys.exit(1)
