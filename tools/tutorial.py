#!/usr/bin/env python3
"""Writes the scripts of examples/ with their answers into the blocks of docs/tutorial.md.

tutorial.py            rewrites each block that stands behind a line `examples/NAME.incr`
tutorial.py --check    tells the first block that isn't as the files have it, and ends with 1

A row of a block has a line of the script on the left and what `incr_profile` answers to it on the right, as examples/NAME.profile
has it. Notes of the script have no row.
"""
import os
import re
import sys

ROOT = os.path.dirname(os.path.dirname(os.path.abspath(__file__)))
PAGE = os.path.join(ROOT, "docs/tutorial.md")
NAMED = re.compile(r"`examples/([\w-]+)\.incr`:\n\n```\n(.*?)```\n", re.S)


def lines_of(name):
    with open(os.path.join(ROOT, "examples", name), encoding="ascii") as file:
        return file.read().splitlines()


def answers_of(lines, answers):
    """Yields each command with its answers: a line that answers a command begins anew, what is told of a stabilize goes on."""
    rest = iter(answers)
    answer = next(rest, None)
    for line in lines:
        if not line.strip() or line.startswith("#"):
            continue
        of_line = [answer]
        answer = next(rest, None)
        while line == "stabilize" and answer is not None and re.match(r"calls |builds |\w+ (init|change) |\w+ invalid$", answer):
            of_line.append(answer)
            answer = next(rest, None)
        yield line, of_line


def block_of(name):
    rows = list(answers_of(lines_of(name + ".incr"), lines_of(name + ".profile")))
    width = max(len(line) for line, _ in rows) + 3
    return "".join(f"{line:<{width}}{', '.join(answers)}\n" for line, answers in rows)


def main():
    with open(PAGE, encoding="utf-8") as file:
        page = file.read()
    count = 0
    if sys.argv[1:] == ["--check"]:
        for name, block in NAMED.findall(page):
            count += 1
            if block != block_of(name):
                print(f"docs/tutorial.md: the block of examples/{name}.incr isn't as the script and its profile have it")
                return 1
        print(f"tutorial: {count} scripts stand in it as they are")
        return 0 if count else 1
    page = NAMED.sub(lambda m: f"`examples/{m[1]}.incr`:\n\n```\n{block_of(m[1])}```\n", page)
    with open(PAGE, "w", encoding="utf-8") as file:
        file.write(page)
    return 0


sys.exit(main())
