#!/usr/bin/env python3
"""Writes src/images/distribution.rt: the job files and overrides of examples/distribution.

Run in the crate's folder, whenever a file of the example changes:

    python3 oracle/distribution.py > src/images/distribution.rt

A test is run in an empty folder and can't read the files themselves.
"""

import pathlib

DISTRIBUTION = pathlib.Path(__file__).resolve().parents[3] / "examples" / "distribution"

HEAD = """//! The job files and overrides of the folder `examples/distribution`, each below a line `%file PATH`.
//!
//! Written by oracle/distribution.py.

"""


def in_literal(line):
    """A line of a text as it stands in a literal, whose lines lose their blanks in front."""
    escaped = line.replace("\\", "\\\\").replace('"', '\\"').replace("\t", "\\t").replace("\n", "\\n\\\n")
    return "\\x20" + escaped[1:] if escaped.startswith(" ") else escaped


def main():
    paths = sorted(it for it in DISTRIBUTION.rglob("*") if it.suffix in (".conf", ".override"))
    files = [f"%file {path.relative_to(DISTRIBUTION)}\n{path.read_text(encoding='utf-8')}" for path in paths]
    text = "".join(files)
    assert text.count("%file ") == len(files)
    lines = "".join(in_literal(line) for line in text.splitlines(keepends=True))
    print(f"{HEAD}pub(crate) const DISTRIBUTION: &'static str = \"\\\n{lines}\";")


main()
