#!/usr/bin/env python3
"""Translates a crate and those below it to plain Rust and builds them: plain.py CRATES CRATE OUT.

CRATES is the folder of crates, beside which crates.txt stands. OUT gets the translated sources and a library for each
crate. Contracts, models and drops are left out, and kit.rs stands for the kit. A line keeps its number, so what
rustc or a panic says of a line is said of the source.
"""

import os
import re
import subprocess
import sys
from pathlib import Path

HERE = Path(__file__).parent
RUSTC = os.environ.get("RUSTC", "rustc")
FLAGS = ["--edition", "2021", "-O", "-C", "overflow-checks=on", "-A", "warnings", "--crate-type", "rlib"]
CLAUSE = re.compile(r"(ghost|requires|ensures)\b")
# Implementations that say nothing in plain Rust.
LEFT_OUT = re.compile(r"impl\b.* (Model|Drop) for ")
CHANGES = [
    (r"#!?\[(tactic|cycle|error)\(.*\)\]", ""),
    (r"use (std::marker::Model|std::convert::AsStr|thiserror::Error);", ""),
    (r"use (std::alloc|std::collections|slab|smallvec|indexmap|itoa)::", "use kit::"),
    (r"(derive\([^)]*), (Drop|Error)\)", r"\1)"),
    (r"#\[derive\(Drop\)\]", ""),
    (r"<R: Drop>", "<R>"),
    (r" +where\n +R: Drop,\n", "\n\n"),
    (r"(trait \w+|type \w+): Drop( \{|;)", r"\1\2"),
    (r"impl AsStr for (\w+) \{(\s+)fn", r"impl \1 {\2pub fn"),
    (r"vec!\[in (\w+); (\w+); (\w+)\]", r"kit::filled(\1, \2, \3)"),
    (r"format!\(in alloc; ", "kit::said!("),
    (r"\.(collect|to_vec)\(((self\.)?alloc)\)", r".\1_in(\2)"),
    (r"\bBox::new\(((self\.)?alloc), ", r"kit::boxed(\1, "),
]


def depth(line):
    return line.count("{") - line.count("}")


def plain(source):
    """Returns the text of a source in plain Rust."""
    lines = source.split("\n")
    at = 0
    while at < len(lines):
        starts = CLAUSE.match(lines[at].strip())
        if not starts and not LEFT_OUT.match(lines[at]):
            at += 1
            continue
        first, level = at, 0
        while True:
            level += depth(lines[at])
            at += 1
            if level == 0:
                break
        # (a declaration of a trait ends with its last clause)
        if starts and starts[1] != "ghost" and lines[at - 1].endswith(";"):
            head = max(i for i in range(first) if lines[i])
            lines[head] += ";"
        lines[first:at] = [""] * (at - first)
    text = "\n".join(lines)
    for old, new in CHANGES:
        text = re.sub(old, new, text)
    return text + "\nuse kit::{CollectIn, ToVecIn, Vec};\n"


def crates_below(folder, crate):
    """Returns a crate and all below it, lowest first."""
    needs = {}
    for line in (folder.parent / "crates.txt").read_text().splitlines():
        name, colon, below = line.partition(":")
        if colon and not line.startswith("#"):
            needs[name.split()[0]] = [other for other in below.split() if other in needs]
    found = {crate}
    for name in reversed(needs):
        if name in found:
            found.update(needs[name])
    return [name for name in needs if name in found]


def build(name, library, out, below):
    found = [it for other in below for it in ("--extern", f"{other}={out}/lib{other}.rlib")]
    where = ["--out-dir", out, "-L", f"dependency={out}"]
    subprocess.run([RUSTC, *FLAGS, "--crate-name", name, *where, *found, library], check=True)


def main(folder, crate, out):
    out.mkdir(parents=True, exist_ok=True)
    built = ["kit"]
    build("kit", HERE / "kit.rs", out, [])
    for name in crates_below(folder, crate):
        sources = folder / name / "src"
        for source in sources.rglob("*.rt"):
            to = out / name / source.relative_to(sources).with_suffix(".rs")
            to.parent.mkdir(parents=True, exist_ok=True)
            to.write_text(plain(source.read_text()))
        build(name, out / name / "lib.rs", out, built)
        built.append(name)


if __name__ == "__main__":
    if len(sys.argv) != 4:
        sys.exit(__doc__)
    try:
        main(Path(sys.argv[1]).resolve(), sys.argv[2], Path(sys.argv[3]))
    except subprocess.CalledProcessError as error:
        sys.exit(error.returncode)
