#!/usr/bin/env python3
"""Writes examples/, from readable text by document01.py.

    python3 tools/examples.py                  # writes the files
    git diff --exit-code examples              # nothing changed

Nobody needs this to scan: the files are in the repository."""

import pathlib

from document01 import OPEN, PRINT, PRINT_LETTER, ROWS, anywhere, written

HERE = pathlib.Path(__file__).resolve().parent.parent / "examples"

# (number, rights code, pieces)
OFFICE = [
    (10, 1, [anywhere(b"not"), (1, 20, b"print")]),
    (20, 1, [anywhere(b"not"), (1, 40, b"publish")]),
    (30, 2, [anywhere(b"burn"), (1, 12, b"letter")]),
    (40, 3, [anywhere(b"for your eyes"), (0, 12, b"only")]),
    (50, 4, [anywhere(b"after my death"), (0, OPEN, b"free to")]),
    (60, 12, [(0, 0, b"Private")]),
]

OPENING = "Private. My dear friend, the roads are dry again and the post goes twice a week. "
DAYS = [
    "On Monday we mended the wall by the orchard. ",
    "On Tuesday the surveyor came and measured the mill. ",
    "On Wednesday it rained and we read aloud. ",
    "On Thursday the children drew the harbour from memory. ",
    "On Friday the old press was carried up from the cellar. ",
    "On Saturday there was a market and no fish. ",
    "On Sunday nobody worked. ",
]
WEEKS = 34
REQUESTS = {
    3: "What I say of the mayor you must not, I beg you, print. ",
    14: "Burn it, no: burn this letter when you have read it. ",
    20: "The drawings are for your eyes and hers only. ",
    27: "Do not let my brother publish the verses. ",
    33: "But after my death anyone is free to copy all of it. ",
}


def long_letter():
    weeks = [REQUESTS.get(week, "") + "".join(DAYS) for week in range(WEEKS)]
    return (OPENING + "".join(weeks) + "Yours, as ever.\n").encode()


def put(name, content):
    path = HERE / name
    path.parent.mkdir(parents=True, exist_ok=True)
    path.write_bytes(content)


def main():
    put("print.book", written(PRINT))
    put("print.letter", PRINT_LETTER)
    put("refused.book", written([(7, 1, [anywhere(b"not"), (9, 1, b"print")])]))
    put("office.book", written(OFFICE))
    put("long.letter", long_letter())
    for row, book, letter in ROWS:
        put(f"rows/{row}.book", written(book))
        put(f"rows/{row}.letter", letter)


main()
