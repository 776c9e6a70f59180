#!/usr/bin/env python3
"""Plants a bug in a copy of the repository: plant.py EDIT FOLDER.

An edit has the lines `file:`, `old:` and `new:`: one line of a source is replaced by another. Lines that
begin with # say what the bug does. FOLDER is a copy of the repository, which itself stays as it is.
"""

import sys
from pathlib import Path


def main(edit, folder):
    parts = dict(line.split(":", 1) for line in Path(edit).read_text().splitlines() if not line.startswith("#"))
    old, new = parts["old"].removeprefix(" "), parts["new"].removeprefix(" ")
    source = Path(folder) / parts["file"].strip()
    lines = source.read_text().split("\n")
    if lines.count(old) != 1:
        sys.exit("plant.py: %s has the old line %d times" % (source, lines.count(old)))
    lines[lines.index(old)] = new
    source.write_text("\n".join(lines))


if __name__ == "__main__":
    if len(sys.argv) != 3:
        sys.exit(__doc__)
    main(*sys.argv[1:])
