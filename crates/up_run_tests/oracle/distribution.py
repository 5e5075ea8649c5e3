#!/usr/bin/env python3
"""Writes src/replay/distribution.rt: the files of examples/distribution as one bundle, and the report that was worked out for them.

Run in the crate's folder, whenever a file of the example changes:

    python3 oracle/distribution.py > src/replay/distribution.rt

A test is run in an empty folder and can't read the files themselves.
"""

import pathlib

EXAMPLES = pathlib.Path(__file__).resolve().parents[3] / "examples"
DISTRIBUTION = EXAMPLES / "distribution"

HEAD = """//! The files of the folder `examples/distribution`, and what is reported of them.
//!
//! Written by oracle/distribution.py.

"""


def in_literal(line):
    """A line of a text as it stands in a literal, whose lines lose their blanks in front."""
    escaped = line.replace("\\", "\\\\").replace('"', '\\"').replace("\t", "\\t").replace("\n", "\\n\\\n")
    return "\\x20" + escaped[1:] if escaped.startswith(" ") else escaped


def constant(name, text):
    lines = "".join(in_literal(line) for line in text.splitlines(keepends=True))
    return f'pub(crate) const {name}: &str = "\\\n{lines}";\n'


def files():
    """The paths and texts of the files; in a bundle, one without a line end at its end can only stand last."""
    paths = sorted(it for it in DISTRIBUTION.rglob("*") if it.is_file())
    found = [(path.relative_to(DISTRIBUTION), path.read_text(encoding="utf-8")) for path in paths]
    return sorted(found, key=lambda it: not it[1].endswith("\n"))


def main():
    found = files()
    assert all(text.endswith("\n") for _, text in found[:-1]), "more than one file has no line end at its end"
    bundle = "".join(f"%file {path}\n{text}" for path, text in found)
    report = (EXAMPLES / "distribution.report").read_text(encoding="utf-8")
    print(HEAD + constant("BUNDLE", bundle) + "\n" + constant("REPORT", report), end="")


main()
