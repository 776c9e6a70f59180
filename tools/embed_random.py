#!/usr/bin/env python3
"""Gives random scripts to sessions by the Python module and to the program, by hand: the transcripts must be alike.

The scripts are those of tools/compare.py: over a few names that meet, with bytes changed, long ones, random bytes, and
where the folder of the reference model is given its own ones too. The last line is `N passed, M failed`.
"""

import argparse
import random
import subprocess
import sys
from pathlib import Path

REPOSITORY = Path(__file__).resolve().parent.parent
sys.path[:0] = [str(REPOSITORY / "tools"), str(REPOSITORY / "embed/python")]
import compare
import incr


def main():
    parser = argparse.ArgumentParser(description=__doc__)
    parser.add_argument("model", nargs="?", type=Path, help="the folder of the reference model, for its scripts")
    parser.add_argument("--program", default=REPOSITORY / "crates/incr/out/incr", help="default: incr of this repository")
    parser.add_argument("--through", type=int, default=4, help="the model's stage of the language (default 4)")
    parser.add_argument("--seed", type=int, default=1)
    parser.add_argument("--count", type=int, default=1000, help="how many scripts (default 1000)")
    options = parser.parse_args()
    fuzz = None
    if options.model:
        sys.path.insert(0, str(options.model))
        from incr_oracle import fuzz
    failed = lines = refused = size = 0
    for number in range(options.count):
        chance = random.Random("%d/%d" % (options.seed, number))
        makers = [compare.Generator(chance).script, lambda: compare.spoiled(chance),
                  lambda: compare.long_script(chance) if number % 20 == 3 else compare.noise(chance)]
        if fuzz:
            makers.append(lambda: fuzz.script(options.seed, number, 60, options.through))
        script = makers[number % len(makers)]()
        wanted = subprocess.run([options.program, "run"], input=script, stdout=subprocess.PIPE, timeout=compare.PATIENCE).stdout
        with incr.Session() as session:
            found = session.run(script)
        lines += script.count(b"\n")
        size += len(found)
        refused += found.count(b"refused ")
        if found != wanted:
            failed += 1
            if failed == 1:
                print("script %d of seed %d:\n%r\nby the program %r\nembedded %r" % (number, options.seed, script, wanted, found))
    print("%d lines, %d bytes printed, %d refusals" % (lines, size, refused))
    print("%d passed, %d failed" % (options.count - failed, failed))
    return 1 if failed else 0


if __name__ == "__main__":
    sys.exit(main())
