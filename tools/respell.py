#!/usr/bin/env python3
"""Brings the names of our definitions and lemmas to the spelling of today's Rattle: words in snake case.

Run once, at the top, after the toolchain's own port.py. It reads every name that specs/ and proofs/ declare, but for the files that
prove a function (Proof, Answers, Invariants), whose names the check gives. A name that begins with a small letter is respelled where
it has a capital or a dash: `quickNext` is `quick_next`, `add-run-four` is `add_run_four`. Where two would fall together, the
definition of specs/ has the plain name, and the lemma gets `_lem` behind it. Names of the library, of src/, and of what the check
makes stay, and so do strings. It writes what it did to docs/names-respelled.txt: the old name,
the new one, and the crates that declare it.
"""

import collections
import glob
import re
import sys

NAME = r"[A-Za-z_\u2080-\u2089][\w'\-\u2080-\u2089]*"
TOKEN = re.compile(NAME)
MODIFIERS = {"abbrev", "pub", "unfoldable"}
DECLARED = re.compile(r"^(\s*)((?:(?:abbrev|unfoldable|pub)\s+)*)(" + NAME + r"(?:\s+" + NAME + r")*)\s*:(?:\s|$)")
PROVES_A_FUNCTION = re.compile(r"/proofs/.+/(Proof|Answers|Invariants)\.antt$")
# Names in snake case already that a definition's new name falls on, and that are fields elsewhere: the files where they are lemmas.
LEMMAS_HERE = {
    "goes_on": {"crates/book/proofs/Reading.antt"},
    "is_state": {"crates/numbering/proofs/Limits.antt", "crates/numbering/proofs/Steps.antt"},
}
WORDS = {"record", "data", "module", "where", "use", "mod", "let", "in", "elim", "as"}


def antt():
    return sorted(glob.glob("crates/*/specs/**/*.antt", recursive=True) + glob.glob("crates/*/proofs/**/*.antt", recursive=True))


def read(path):
    with open(path, encoding="utf-8") as f:
        return f.read()


def snake(name):
    parted = re.sub(r"(?<=[a-z0-9_'\u2080-\u2089])([A-Z])", lambda m: "_" + m.group(1).lower(), name)
    return parted.replace("-", "_")


def declared(files):
    """The names that begin with a small letter, each with the places (specs, proofs, field) and the crates in which it is declared."""
    places = collections.defaultdict(set)
    crates = collections.defaultdict(set)
    for path in files:
        if PROVES_A_FUNCTION.search(path):
            continue
        folder = path.split("/")[2]
        record = None
        # a name may stand on a line of its own, with its type below
        for line in re.sub(r"(?m)^(\s*(?:(?:abbrev|unfoldable|pub)\s+)*[a-z][\w'-]*)\n(?=\s+:)", r"\1 :\n", read(path)).splitlines():
            if not line.strip() or line.lstrip().startswith("--"):
                continue
            indent = len(line) - len(line.lstrip())
            if record is not None and indent <= record:
                record = None
            if re.match(r"\s*(?:pub\s+)?(?:record|data)\s", line):
                record = indent
            m = DECLARED.match(line)
            if not m:
                continue
            for name in m.group(3).split():
                if name not in WORDS and name not in MODIFIERS and re.match("[a-z_]", name):
                    places[name].add(folder if record is None else "field")
                    crates[name].add(path.split("/")[1])
    return places, crates


def of_the_library(files):
    """The names that our files take from the library."""
    taken = set()
    for path in files:
        if PROVES_A_FUNCTION.search(path):
            continue
        for module, names in re.findall(r"^\s*use\s+([^\s{]+)\.\{([^}]*)\}", read(path), re.M):
            if not re.match(r"Rattle\.(?!std\b|core\b|io\b|libc\b|os\b)", module):
                taken |= {n.strip().split(" as ")[-1] for n in names.split(",")}
    return taken


def plan(places, library):
    """The new name of each that is respelled. A field stands behind a dot, so it may share its name with another."""
    falls = collections.defaultdict(set)
    for name in places:
        falls[snake(name)].add(name)
    to = {}
    for new, olds in sorted(falls.items()):
        named = [n for n in olds if places[n] != {"field"}]
        named.sort(key=lambda n: ("specs" not in places[n], "-" in n, n == new, n))
        for old in sorted(olds):
            mine = new + "_lem" if old in named[1:] or (new in library and old != new and places[old] != {"field"}) else new
            if mine != old:
                to[old] = mine
    return to, {new: sorted(olds) for new, olds in falls.items() if len(olds) > 1}


def respell(text, to, fields, after_dot_all, path=""):
    def turn(m):
        word = m.group(0)
        if word not in to:
            return word
        if word == snake(word):
            # such a name may be one of src/ too
            if not path.endswith(".antt") or m.start() and text[m.start() - 1] == ".":
                return word
            return to[word] if path in LEMMAS_HERE.get(word, {path}) else word
        before = text[m.start() - 1] if m.start() else ""
        # behind a dot stands a field or a name of a module; in a function's proof also a step, whose name is the check's
        if before == "." and not after_dot_all and word not in fields:
            return word
        return to[word]

    return TOKEN.sub(turn, text)


def outside_strings(text, turn):
    parts = re.split(r'("(?:\\.|[^"\\\n])*")', text)
    return "".join(p if i % 2 else turn(p) for i, p in enumerate(parts))


def main():
    files = antt()
    places, crates = declared(files)
    fields = {n for n in places if "field" in places[n]}
    to, together = plan(places, of_the_library(files))
    with open("docs/names-respelled.txt", "w", encoding="utf-8") as f:
        for old, new in sorted(to.items()):
            f.write(f"{old} {new} ({', '.join(sorted(crates[old]))})\n")
    for new, olds in sorted(together.items()):
        print("together:", new, *[f"{o}->{to.get(o, o)}({'+'.join(sorted(places[o]))})" for o in olds])
    taken = set(to.values())
    for path in files:
        text = read(path)
        words = set(TOKEN.findall(text))
        for old in words & set(to):
            if to[old] in words and to[old] not in together:
                print(f"look: {path}: {old} becomes {to[old]}, which stands there too")
        mine = respell(text, to, fields, not PROVES_A_FUNCTION.search(path), path)
        if mine != text:
            open(path, "w", encoding="utf-8").write(mine)
    for path in sorted(glob.glob("crates/*/src/**/*.rt", recursive=True)):
        text = read(path)
        mine = outside_strings(text, lambda p: respell(p, to, fields, True))
        if mine != text:
            open(path, "w", encoding="utf-8").write(mine)
    for path in sorted(glob.glob("crates/*/must-fail/*.edit")):
        text = read(path)
        mine = respell(text, to, fields, True)
        if mine != text:
            open(path, "w", encoding="utf-8").write(mine)
    for path in sorted(glob.glob("docs/*.md") + ["README.md"]):
        text = read(path)
        mine = re.sub(r"`[^`\n]*`", lambda m: respell(m.group(0), to, fields, True), text)
        if mine != text:
            open(path, "w", encoding="utf-8").write(mine)
    print(len(to), "names respelled")


if __name__ == "__main__":
    sys.exit(main())
