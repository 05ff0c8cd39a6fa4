#!/usr/bin/env python3
"""Writes the data/ of program listings and the stdout that it must write, from document01.py.

    python3 tools/listings_expected.py            # writes both
    git diff --exit-code crates/listings          # nothing changed

Nothing needs this to pass the tests: the files are in the repository."""

import pathlib
import shutil

from document01 import A_GAP_A, OPEN, PART, PRINT, PRINT_LETTER, THREE, listing, listing_of_input, one, two, written

HERE = pathlib.Path(__file__).resolve().parent.parent / "crates" / "listings"

LISTED = "the letter is listed to its end\n"
REFUSED = "the book is refused, and the letter was not read\n"


def given(book, letter):
    return two(len(book)) + book + letter


def filled(length, marks):
    """A letter of dots, with words that begin at offsets."""
    letter = bytearray(b"." * length)
    for at, word in marks:
        letter[at:at + len(word)] = word
    return bytes(letter[:length])


BOOK = written(PRINT)
CROSSED = written([(7, 1, [(0, OPEN, b"not"), (9, 1, b"print")])])
A = written(one((0, OPEN, b"a")))
# keywords on both sides of a gap of up to 60,000 bytes
FAR = written([(3, 2, [(0, OPEN, b"not"), (200, 60000, b"print")]), (9, 12, [(0, OPEN, b"pri"), (0, 0, b"nt")])])

# In the order in which the program lists them.
FILES = [
    ("example", given(BOOK, PRINT_LETTER)),
    ("least_9_most_1", given(CROSSED, PRINT_LETTER)),
    ("no_hit", given(BOOK, b"do print, not ever")),
    ("empty_letter", given(written(THREE), b"")),
    ("cut_before_the_length", b""),
    ("cut_in_the_length", b"\x00"),
    ("cut_after_the_length", two(len(BOOK))),
    ("cut_in_the_book", given(BOOK, b"")[:20]),
    ("cut_after_a_sound_book", two(len(BOOK) + 3) + BOOK),
    ("longest_length", given(BOOK + bytes(65535 - len(BOOK)), PRINT_LETTER)),
    ("keyword_across_4096", given(BOOK, filled(5000, [(PART - 11, b"not"), (PART - 3, b"print")]))),
    ("gap_across_4096", given(FAR, filled(9000, [(10, b"not"), (PART - 2, b"not"), (2 * PART + 2, b"print"), (8900, b"print")]))),
    ("hits_around_4096", given(written(A_GAP_A), filled(4200, [(PART - 6, b"aaaaaaaaaaaa")]))),
    ("letter_4095", given(BOOK, filled(PART - 1, [(PART - 11, b"not, print")]))),
    ("letter_4096", given(BOOK, filled(PART, [(PART - 10, b"not, print")]))),
    ("letter_4097", given(BOOK, filled(PART + 1, [(PART - 9, b"not, print")]))),
    ("letter_8192", given(BOOK, filled(2 * PART, [(PART - 5, b"not, print"), (2 * PART - 10, b"not, print")]))),
    ("many_hits", given(A, b"a" * 1100 + b"b" * 3500 + b"a" * 70)),
]


def ended(text):
    return LISTED if "\nend " in text else REFUSED


def main():
    data = HERE / "data"
    shutil.rmtree(data, ignore_errors=True)
    (data / "folder").mkdir(parents=True)
    lines = []
    for name, content in FILES:
        (data / name).write_bytes(content)
        text = listing_of_input(content)
        lines += [f"-- {name}\n", text, ended(text)]
    (data / "book").write_bytes(BOOK)
    (data / "letter").write_bytes(PRINT_LETTER)
    (data / "book_too_long").write_bytes(BOOK + bytes(65536 - len(BOOK)))
    (data / "folder" / "file").write_bytes(b"kept, so that the folder is there\n")
    lines += ["-- book in a file, letter in a file\n", listing(BOOK, PRINT_LETTER), LISTED]
    lines += ["-- a book of 65536 bytes\n", "the book has more than 65,535 bytes; nothing is listed\n"]
    lines += ["-- a folder as book\n", "the book could not be read; nothing is listed\n"]
    lines += ["-- a folder as letter\n", f"book 0 at {len(BOOK)} phrases 1\n"]
    lines += ["the letter could not be read further; the listing is not complete\n"]
    lines += ["-- no file of this name\n", "the book could not be read; nothing is listed\n"]
    lines += ["-- lines that cannot be written\n", "the listing could not be written further; it is not complete\n"]
    (HERE / "stdout").write_text("".join(lines))


main()
