#!/usr/bin/env python3
"""Tries the edits that the gate leaves out for the time that they take: wrong bodies that the proofs must refuse.

planted.py [CRATE..]      those of these crates, or all of them

They are the files planted/CRATE/NAME.edit, written as the must-fail edits of the gate are. `rt ci` tries them, over a copy of crates/ in
which they stand in place of the gate's own. So a crate that the gate proved on this machine isn't proved again, but for the check that its
edits begin with; and an edit that was refused isn't tried again until its crate or one below changes.

What `rt ci` says of each is printed. The last line is `N refused, M not`, and the status is 1 where one wasn't refused, which is also so
where it couldn't be applied or read, or its crate wasn't proved. To be run before a release, and for crates whose contracts changed.
"""
import os
import re
import shutil
import subprocess
import sys
import tempfile

ROOT = os.path.dirname(os.path.dirname(os.path.abspath(__file__)))
TOLD = re.compile(r"rt: must-fail (\w+/[\w.-]+): (.*)")
FAILED = re.compile(r"rt: .*(NOT PROVED|FAILED)")


def edits_of(crate):
    """Returns the names of a crate's planted edits."""
    folder = f"{ROOT}/planted/{crate}"
    return sorted(name for name in os.listdir(folder) if name.endswith(".edit")) if os.path.isdir(folder) else []


def copy_with(planted, room):
    """Copies to the folder room what `rt ci` reads, with these edits, by crate, as the only ones."""
    shutil.copytree(f"{ROOT}/crates", f"{room}/crates", ignore=shutil.ignore_patterns("out", "must-fail"))
    for name in ("crates.txt", "HANDLES"):
        shutil.copyfile(f"{ROOT}/{name}", f"{room}/{name}")
    # (rt takes the folder for the top of a repository by this)
    os.mkdir(f"{room}/.git")
    for crate, edits in planted.items():
        os.mkdir(f"{room}/crates/{crate}/must-fail")
        for name in edits:
            shutil.copyfile(f"{ROOT}/planted/{crate}/{name}", f"{room}/crates/{crate}/must-fail/{name}")


def try_in(room, crates):
    """Runs `rt ci` for these crates in the folder room. Returns its status, what it said of each edit, and its lines on what failed."""
    ran = subprocess.Popen(["rt", "ci", *crates], cwd=room, stdin=subprocess.DEVNULL, stdout=subprocess.PIPE, text=True, errors="replace")
    told, failed = {}, []
    for line in ran.stdout:
        found = TOLD.match(line)
        if found:
            told[found[1]] = found[2]
            print(line, end="", flush=True)
        elif FAILED.match(line):
            failed.append(line)
    return ran.wait(), told, failed


def main():
    crates = sys.argv[1:] or sorted(os.listdir(f"{ROOT}/planted"))
    planted = {crate: edits_of(crate) for crate in crates}
    lacking = [crate for crate, edits in planted.items() if not edits or not os.path.isdir(f"{ROOT}/crates/{crate}")]
    if lacking:
        sys.exit(f"planted: no edits are planted for {' '.join(lacking)}")
    with tempfile.TemporaryDirectory(prefix="planted-") as room:
        copy_with(planted, room)
        status, told, failed = try_in(room, crates)
    every = [f"{crate}/{name}" for crate, edits in planted.items() for name in edits]
    refused = [name for name in every if told.get(name, "").startswith("refused")]
    if status:
        print("".join(failed), end="")
    print(f"{len(refused)} refused, {len(every) - len(refused)} not")
    return 1 if status or len(refused) < len(every) else 0


if __name__ == "__main__":
    sys.exit(main())
