#!/usr/bin/env python3
"""Writes src/text/fnmatch_table.rt: what fnmatch(3) of this machine's C library says of generated patterns.

Run in the crate's folder:

    python3 oracle/fnmatch.py > src/text/fnmatch_table.rt

Patterns and texts are drawn with a fixed seed from the bytes below, some of a pattern's between `[` and `]`. For a pattern
that matches a text there is a row with it and one with a text that doesn't match and differs in one byte, where there is such
a text. Left out are the patterns that glibc 2.36 reads by other rules than `up_text`:

- with `[^`, which it reads as `[!`;
- with a `[` and a `-` at the end: there it lets a `[` whose set isn't closed match nothing.

None of the bytes is `:`, `.` or `=`, so that there are no classes.
"""

import ctypes
import itertools
import random

PATTERN_BYTES = b"ab-!]*?[\\^"
TEXT_BYTES = b"ab-![]\\^"
LC_ALL = 6
ROWS = 600

library = ctypes.CDLL(None)
library.setlocale(LC_ALL, b"C")


def matches(pattern, text):
    return library.fnmatch(pattern, text, 0) == 0


def agrees(pattern):
    return b"[^" not in pattern and not (b"[" in pattern and pattern.endswith(b"-"))


def drawn(draw):
    pieces = []
    for _ in range(draw.randint(1, 4)):
        count = draw.randint(1, 4)
        piece = bytes(draw.choice(PATTERN_BYTES) for _ in range(count))
        pieces.append(draw.choice((piece[:1], piece[:2], b"[" + piece + b"]")))
    return b"".join(pieces)


def texts():
    for length in range(5):
        for text in itertools.product(TEXT_BYTES, repeat=length):
            yield bytes(text)


def neighbours(text):
    for place in range(len(text) + 1):
        for byte in TEXT_BYTES:
            yield text[:place] + bytes([byte]) + text[place:]
    for place in range(len(text)):
        yield text[:place] + text[place + 1 :]
        for byte in TEXT_BYTES:
            yield text[:place] + bytes([byte]) + text[place + 1 :]


def rows():
    draw = random.Random(20260)
    every = list(texts())
    seen = set()
    while True:
        pattern = drawn(draw)
        if pattern in seen or not agrees(pattern):
            continue
        seen.add(pattern)
        fitting = [text for text in every if matches(pattern, text)]
        if not fitting:
            continue
        text = draw.choice(fitting)
        yield pattern, text, True
        others = sorted({other for other in neighbours(text) if not matches(pattern, other)})
        if others:
            yield pattern, draw.choice(others), False


def escaped(text):
    return text.decode("ascii").replace("\\", "\\\\")


print("//! What fnmatch(3) says: in each row a pattern, and a text, after `+` if they match with flags 0 in the C locale, and after `-` if they don't.")
print("//!")
print("//! Written by oracle/fnmatch.py from the C library of Debian 12 (glibc 2.36); it says which patterns are left out.")
print()
print('pub(crate) const ROWS: &str = "\\')
for pattern, text, fits in itertools.islice(rows(), ROWS):
    print(escaped(pattern), ("+" if fits else "-") + escaped(text))
print('";')
