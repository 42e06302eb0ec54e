#!/usr/bin/env python3
"""make-tables.py: write the listings that the test programs cut into parts.

Run it at the top of the repository. It writes to crates/reader_replay/data: listing.txt, 01's listing; table.txt, 200 lines of every
kind under the same header; unreadable.txt, such lines with some among them that are no UTF-8. The seed is fixed.
"""
import random

from listings import COLUMN_LINE, LAYOUTS, LISTING, PREAMBLE, body_line, route

SEED = 20240301
HEADER = PREAMBLE + COLUMN_LINE + b"\n"


def readable_line(rng):
    """A line of any kind; some have as many as 16 AS numbers."""
    if rng.random() < 0.04:
        return route(LAYOUTS[0], prefix="", path=" ".join(str(rng.randrange(1, 70000)) for _ in range(rng.choice((8, 15, 16)))) + " i")
    line = body_line(rng, LAYOUTS[0])
    try:
        line.decode()
    except UnicodeDecodeError:
        return readable_line(rng)
    return line


def table(rng, unreadable=()):
    """The last line has no line feed."""
    lines = [readable_line(rng) for _ in range(200)]
    for i in unreadable:
        lines[i] = lines[i][:5] + rng.choice((b"\xff", b"\xc3", b"\xed\xa0\x80")) + lines[i][5:]
    return HEADER + b"\n".join(lines)


if __name__ == "__main__":
    rng = random.Random(SEED)
    for name, text in (("listing", HEADER + LISTING), ("table", table(rng)), ("unreadable", table(rng, range(9, 200, 23)))):
        with open(f"crates/reader_replay/data/{name}.txt", "wb") as out:
            out.write(text)
