#!/usr/bin/env python3
"""What program rows must write, straight from document 01's definitions and sharing nothing with the scanner.

    python3 tools/rows_expected.py | diff - crates/rows/stdout

A match by trying all places, states as strings, failure steps by counting, a book judged record by record. Nothing needs this to pass
the tests."""


def ends(letter, previous, pieces, place):
    """There are places, one for each piece, of which the last is the place."""
    if not pieces:
        return previous == place
    (least, most, keyword), rest = pieces[0], pieces[1:]
    for end in range(previous + len(keyword), len(letter) + 1):
        width = end - len(keyword) - previous
        fits = least <= width and (most is None or width <= most)
        if fits and letter[end - len(keyword):end] == keyword and ends(letter, end, rest, place):
            return True
    return False


def reports(book, letter):
    """By place, then by phrase number."""
    return [(number, place) for place in range(1, len(letter) + 1) for number, pieces in book if ends(letter, 0, pieces, place)]


def steps(book, letter):
    """The failure steps of the letter: for each byte, the states passed over."""
    states = {keyword[:n] for _, pieces in book for _, _, keyword in pieces for n in range(len(keyword) + 1)}
    total = 0
    for at, byte in enumerate(letter):
        read = letter[:at]
        state = max((read[n:] for n in range(at + 1) if read[n:] in states), key=len)
        suffixes = [state[n:] for n in range(len(state) + 1) if state[n:] in states]
        onward = [w for w in suffixes if w + byte in states]
        longest = len(max(onward, key=len)) if onward else 0
        total += sum(1 for s in suffixes if len(s) > longest)
    return total


HEADER, PHRASE, BOUNDED, OPEN, END = 0x01, 0x02, 0x03, 0x04, 0x7F
KEYWORD = range(0x81, 0xA1)
LONG = {HEADER: 1, PHRASE: 3, BOUNDED: 4, OPEN: 2, END: 2, **{kind: kind - 0x80 for kind in KEYWORD}}
FOLLOWS = {None: [HEADER], HEADER: [PHRASE], PHRASE: [BOUNDED, OPEN], BOUNDED: KEYWORD, OPEN: KEYWORD, END: []}
FOLLOWS.update({kind: [PHRASE, BOUNDED, OPEN, END] for kind in KEYWORD})


def fault(kind, body, before):
    """Why a record whose kind may stand here is refused, in document 01's order: 2, 4, 5, 6, 7, 8, 9."""
    if len(body) < LONG[kind]:
        return 2
    first, second = int.from_bytes(body[:2], "big"), int.from_bytes(body[2:4], "big")
    numbers = [int.from_bytes(record[:2], "big") for k, record in before if k == PHRASE]
    since = [k for k, _ in before][::-1]
    gaps = [k in (BOUNDED, OPEN) for k, _ in before]
    in_phrase = sum(gaps[len(gaps) - since.index(PHRASE):]) if PHRASE in since else 0
    keywords = [record for k, record in before if k in KEYWORD] + [body] * (kind in KEYWORD)
    tests = {
        4: kind == HEADER and body[0] != 1
        or kind == PHRASE and not (first >= 1 and 1 <= body[2] <= 12)
        or kind in (BOUNDED, OPEN) and first > 224
        or kind == BOUNDED and second > 60000,
        5: kind == BOUNDED and first > second,
        6: kind == PHRASE and numbers and first <= numbers[-1],
        7: kind == PHRASE and len(numbers) == 128 or kind in (BOUNDED, OPEN) and (in_phrase == 8 or sum(gaps) == 256),
        8: kind == END and first != len(numbers),
        9: len({keyword[:n] for keyword in keywords for n in range(1, len(keyword) + 1)}) > 2047,
    }
    return next((number for number, holds in tests.items() if holds), 0)


def build(book):
    """Build's number and offset, in table memory of its size."""
    before, at = [], 0
    while at < len(book):
        kind = book[at]
        if kind not in FOLLOWS[before[-1][0] if before else None]:
            return 3, at
        body = book[at + 1:at + 1 + LONG[kind]]
        number = fault(kind, body, before)
        if number:
            return number, at
        before.append((kind, body))
        at += 1 + len(body)
    return (0 if before and before[-1][0] == END else 2), at


# document 01's example of 27 bytes, with least 9 and most 1
CROSSED = bytes.fromhex("01 01 02 00 07 01 04 00 00 83 6E 6F 74 03 00 09 00 01 85 70 72 69 6E 74 7F 00 01")


def one(*pieces):
    return [(1, list(pieces))]


def anywhere(keyword):
    return (0, None, keyword)


A_GAP_A = one(anywhere("a"), (1, 2, "a"))
AA_THEN_AA = one(anywhere("aa"), (0, 0, "aa"))
THREE = [(1, [anywhere("aa")]), (2, [anywhere("abaaa")]), (3, [anywhere("abab")])]
ROWS = [
    ("A", one((0, 0, "ab")), "abab"),
    ("B", one(anywhere("ab")), "abab"),
    ("C", A_GAP_A, "aa"),
    ("D", A_GAP_A, "aba"),
    ("E", A_GAP_A, "abba"),
    ("F", A_GAP_A, "abbba"),
    ("G", A_GAP_A, "aaaaa"),
    ("H", one(anywhere("a"), (2, 2, "b")), "aaxb"),
    ("I", AA_THEN_AA, "aaa"),
    ("J", AA_THEN_AA, "aaaa"),
    ("K", one(anywhere("a"), anywhere("b")), "aab"),
    ("L", THREE, "abaaabab"),
    ("M", THREE, ""),
]


def main():
    for row, book, letter in ROWS:
        hits = "".join(f" ({number},{place})" for number, place in reports(book, letter))
        ways = ["whole", "with the least room", "byte by byte"] + [f"cut at {n}" for n in range(len(letter))]
        for way in ways:
            print(f"{row} {way}:{hits} steps {steps(book, letter)}")
    # document 01, below the rows: row L with room for 3 and for 2 reports
    print("L with room for 3: (1,4) took 4 steps 0")
    print("L with room for 3: (1,5) (2,5) took 1 steps 0")
    print("L with room for 3: (3,8) took 3 steps 2")
    print("L with room for 2: refused with 10 took 0 steps 0")
    # refused otherwise than with 1: zero up to the size, which begin and feed answer with 12, changing nothing
    number, offset = build(CROSSED)
    if number > 1:
        print(f"refused build: build {number} at {offset} not zero 0, begin 12 changed 0, feed 12 taken 0 reports 0 steps 0 changed 0")


main()
