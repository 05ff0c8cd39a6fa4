"""Document 01 in Python, straight from its sentences and sharing nothing with the scanner: books as bytes, what is refused, what is
reported, the failure steps, and the listing. The scripts beside it write examples and expected outputs with it."""

PART = 4096
LARGEST_PLACE = 4294967295
OPEN = None  # no upper bound


# How a book is written

def two(number):
    return number.to_bytes(2, "big")


def keyword(text):
    return bytes([0x80 + len(text)]) + text


def gap(least, most):
    return b"\x04" + two(least) if most is OPEN else b"\x03" + two(least) + two(most)


def written(phrases):
    """A book of phrases (number, rights code, pieces), a piece being (least, most, keyword)."""
    records = b"\x01\x01"
    for number, rights, pieces in phrases:
        records += b"\x02" + two(number) + bytes([rights])
        for least, most, text in pieces:
            records += gap(least, most) + keyword(text)
    return records + b"\x7f" + two(len(phrases))


# What is refused

def body(kind):
    fixed = {0x01: 1, 0x02: 3, 0x03: 4, 0x04: 2, 0x7F: 2}
    return kind - 0x80 if 0x81 <= kind <= 0xA0 else fixed.get(kind)


def judged(book):
    """Build's number and offset, and the phrases of a book that is accepted."""
    allowed, at = "header", 0
    phrases, pieces, prefixes = [], 0, set()
    while at < len(book):
        kind, length = book[at], body(book[at])
        name = {0x01: "header", 0x02: "phrase", 0x03: "gap", 0x04: "gap", 0x7F: "end"}.get(kind, "keyword")
        if length is None or name not in allowed:
            return 3, at, None
        fields = book[at + 1:at + 1 + length]
        if len(fields) < length:
            return 2, at, None
        first, second = int.from_bytes(fields[0:2], "big"), int.from_bytes(fields[2:4], "big")
        if name == "header":
            if fields[0] != 1:
                return 4, at, None
            allowed = "phrase"
        elif name == "phrase":
            if first == 0 or not 1 <= fields[2] <= 12:
                return 4, at, None
            if phrases and first <= phrases[-1][0]:
                return 6, at, None
            if len(phrases) == 128:
                return 7, at, None
            phrases.append((first, fields[2], []))
            allowed = "gap"
        elif name == "gap":
            bounded = kind == 0x03
            if first > 224 or (bounded and second > 60000):
                return 4, at, None
            if bounded and first > second:
                return 5, at, None
            if len(phrases[-1][2]) == 8 or pieces == 256:
                return 7, at, None
            bounds, allowed = (first, second if bounded else OPEN), "keyword"
        elif name == "keyword":
            prefixes |= {fields[:n] for n in range(1, length + 1)}
            if len(prefixes) > 2047:
                return 9, at, None
            phrases[-1][2].append((*bounds, fields))
            pieces, allowed = pieces + 1, "gap phrase end"
        else:
            if first != len(phrases):
                return 8, at, None
            allowed = "nothing"
        at += 1 + length
    return (0, at, phrases) if allowed == "nothing" else (2, at, None)


# What is reported

def ends(letter, pieces):
    """The places at which a phrase with these pieces matches."""
    previous = [0]
    for least, most, text in pieces:
        filled = [e for e in range(len(text), len(letter) + 1) if letter[e - len(text):e] == text]
        widths = [(e, e - len(text)) for e in filled]
        previous = [e for e, start in widths if any(least <= start - p and (most is OPEN or start - p <= most) for p in previous)]
    return previous


def reports(phrases, letter):
    """By place, then by phrase number."""
    return sorted((place, number, rights) for number, rights, pieces in phrases for place in ends(letter, pieces))


def steps(phrases, letter):
    """The failure steps of the letter: for each byte, the states passed over."""
    states = {text[:n] for _, _, pieces in phrases for _, _, text in pieces for n in range(len(text) + 1)}
    longest = max(map(len, states))
    total, state = 0, b""
    for at in range(len(letter)):
        byte = letter[at:at + 1]
        suffixes = [state[n:] for n in range(len(state) + 1) if state[n:] in states]
        onward = [len(w) for w in suffixes if w + byte in states]
        total += sum(1 for s in suffixes if len(s) > max(onward, default=0))
        read = letter[max(0, at + 1 - longest):at + 1]
        state = next(read[n:] for n in range(len(read) + 1) if read[n:] in states)
    return total


# The listing

def listing(book, letter):
    number, offset, phrases = judged(book)
    if number:
        return f"book {number} at {offset}\n"
    hits = reports(phrases, letter)
    lines = [f"book 0 at {offset} phrases {len(phrases)}"]
    lines += [f"hit {place} phrase {phrase} right {rights}" for place, phrase, rights in hits]
    lines += [f"end {len(letter)} hits {len(hits)} steps {steps(phrases, letter)}"]
    lines += [] if hits else ["no statement"]
    return "".join(line + "\n" for line in lines)


def listing_of_input(given):
    """Two bytes of book length, the book, the letter; input that ends early."""
    if len(given) < 2:
        return listing(b"", b"")
    length = int.from_bytes(given[:2], "big")
    return listing(given[2:2 + length], given[2 + length:])


# Books of document 01

PRINT = [(7, 1, [(0, OPEN, b"not"), (1, 9, b"print")])]
PRINT_LETTER = b"do not ever print"


def anywhere(text):
    return (0, OPEN, text)


def one(*pieces):
    return [(1, 1, list(pieces))]


A_GAP_A = one(anywhere(b"a"), (1, 2, b"a"))
AA_THEN_AA = one(anywhere(b"aa"), (0, 0, b"aa"))
THREE = [(1, 1, [anywhere(b"aa")]), (2, 1, [anywhere(b"abaaa")]), (3, 1, [anywhere(b"abab")])]
ROWS = [
    ("A", one((0, 0, b"ab")), b"abab"),
    ("B", one(anywhere(b"ab")), b"abab"),
    ("C", A_GAP_A, b"aa"),
    ("D", A_GAP_A, b"aba"),
    ("E", A_GAP_A, b"abba"),
    ("F", A_GAP_A, b"abbba"),
    ("G", A_GAP_A, b"aaaaa"),
    ("H", one(anywhere(b"a"), (2, 2, b"b")), b"aaxb"),
    ("I", AA_THEN_AA, b"aaa"),
    ("J", AA_THEN_AA, b"aaaa"),
    ("K", one(anywhere(b"a"), anywhere(b"b")), b"aab"),
    ("L", THREE, b"abaaabab"),
    ("M", THREE, b""),
]
