#!/usr/bin/env python3
"""places.py [POINT..]: where src/ has the older forms that docs/DESIGN-PASS.md speaks of, a line for each place and the sum for each point.

It finds candidates by their text; which of them are places, and why some stay, the page says. A place that stays has a line
`// Kept, REASON: ..` above it; those lines are counted at the end.
"""
import collections, glob, os, re, sys

top = os.path.dirname(os.path.dirname(os.path.abspath(__file__)))
files = sorted(glob.glob(os.path.join(top, 'crates', '*', 'src', '**', '*.rt'), recursive=True))
INT = r'(?:u8|u16|u32|u64|usize|i32)'


def code(path):
    """The lines of a file, comments blanked."""
    return [re.sub(r'//.*', '', line.rstrip('\n')) for line in open(path, encoding='utf-8')]


texts = {os.path.relpath(path, top): code(path) for path in files}


def lines(pattern, skip=None):
    for path, text in texts.items():
        for n, line in enumerate(text, 1):
            if re.search(pattern, line) and not (skip and re.search(skip, line)):
                yield f'{path}:{n}', line.strip()


def functions():
    """Each function: place, name, parameters, clauses, body."""
    for path, text in texts.items():
        whole = '\n'.join(text)
        for m in re.finditer(r'^( *)(?:pub(?:\(crate\))? )?(?:extern "C" )?(?:const )?fn (\w+)', whole, re.M):
            end = re.compile(r'^' + m.group(1) + r'\}', re.M).search(whole, m.end())
            body = whole[m.end():end.end() if end else len(whole)]
            head, _, rest = body.partition('{\n' + m.group(1) + '    ')
            yield f'{path}:{whole.count(chr(10), 0, m.start()) + 1}', m.group(2), head, rest


def point_1():
    yield from lines(r'^\s*(pub(\(crate\))? )?enum ')
    yield from lines(r'^\s+(pub(\(crate\))? )?\w+: bool,')
    yield from lines(r'^(pub(\(crate\))? )?const \w*(KIND|REFUSED|NONE|WHOLE|TOO_LONG|NO_ROOM|NOT_PASSED|HEADER|PHRASE|BOUNDED|OPEN|END)\b\w*: ' + INT)
    for place, name, head, rest in functions():
        if re.search(r'fn .*-> ' + INT, 'fn ' + head) and re.search(r'return 0;|\b0$', rest.strip('} \n')):
            yield place, f'fn {name}: answers 0 for none'


def plain(text):
    text = re.sub(r'\b' + INT + r'\b', 'N', text)
    text = re.sub(r'\b(0x)?[0-9A-F_]+\b', '0', text)
    return re.sub(r'\b([a-zA-Z_]+)\d+\b', r'\1', re.sub(r'\s+', ' ', text))


def point_2():
    seen = collections.defaultdict(list)
    for place, name, head, rest in functions():
        if len(rest) > 3:
            seen[plain(rest)].append((place, name))
    for group in seen.values():
        if len(group) > 1 and len({name for _, name in group} - {'fmt', 'fill', 'flush'}) > 0:
            for place, name in group:
                yield place, f'fn {name}: like ' + ', '.join(other for p, other in group if p != place)


def point_3():
    yield from lines(r'^\s*(while|loop)\b')
    for path, text in texts.items():
        for n, line in enumerate(text, 1):
            m = re.match(r'^(\s*)for (\w+) in .*\.\.', line)
            if m:
                block = []
                for later in text[n:]:
                    if re.match('^' + m.group(1) + r'\}', later):
                        break
                    block.append(later)
                if re.search(r'\[[^\]]*\b' + m.group(2) + r'\b[^\]]*\]', '\n'.join(block)):
                    yield f'{path}:{n}', line.strip() + ' (indexes with it)'


def point_4():
    yield from lines(r'lent::(wide|pair|four|size)\w*\(|\bas ' + INT + r'\b')
    for place, name, head, rest in functions():
        if re.match(r'(is_before|is_above|larger|larger_of|between|same_bytes|common|wide\w*|pair\d\w*|four\d\w*|four_size|size64|text|number|told|said?|counted|number_at)$', name):
            yield place, f'fn {name}'


def facts(head):
    for clause in re.findall(r'requires[^{]*\{(.*?)\}\s*(?=requires|ensures|$)', head, re.S):
        for fact in clause.split('×'):
            fact = re.sub(r'\s+', ' ', fact).strip(' ()')
            yield re.sub(r'\.(now|old)\b', '', fact)


def point_5():
    seen = collections.defaultdict(set)
    for place, name, head, rest in functions():
        for fact in facts(head):
            seen[re.sub(r'\b[tms]\b', '_', fact)].add(place)
    for fact, where in sorted(seen.items(), key=lambda kv: -len(kv[1])):
        if len(where) >= 3:
            for place in sorted(where):
                yield place, f'requires {fact}'


def point_6():
    for place, name, head, rest in functions():
        head = re.sub(r'\s+', ' ', head.split('requires')[0].split('ensures')[0])
        if re.search(r'&mut \[u8\], (at|end): usize', head):
            yield place, f'fn {name}: a buffer with a length beside it'
        if len(re.findall(r'\[(?:u8|u16|u32|u64|bool); \w', head)) > 1:
            yield place, f'fn {name}: arrays side by side'


def point_7():
    yield from lines(r'\bfn\(|\bdyn\b|\b(kind|way) (==|%)')


if __name__ == '__main__':
    asked = sys.argv[1:] or list('1234567')
    for point in asked:
        found = list(globals()['point_' + point]())
        for place, what in found:
            print(f'{point} {place}: {what[:110]}')
        print(f'point {point}: {len(found)} in {len({place.split("/")[1] for place, _ in found})} crates')
    kept = collections.Counter()
    for path in files:
        for line in open(path, encoding='utf-8'):
            m = re.search(r'// Kept, ([a-z ]+):', line)
            if m:
                kept[m.group(1)] += 1
    print('kept: ' + (', '.join(f'{n} {why}' for why, n in sorted(kept.items())) or 'none'))
