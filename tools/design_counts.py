#!/usr/bin/env python3
"""Lists the places in src/ that docs/DESIGN-PASS.md counts, point by point.

    python3 tools/design_counts.py [FOLDER] [--list]

FOLDER is a checkout (this one where none is given). Without --list only the counts are printed. What a command cannot see (twins, switches)
is read by eye, and the page says what was found.
"""
import collections
import glob
import itertools
import os
import re
import sys

args = [a for a in sys.argv[1:] if not a.startswith('-')]
top = args[0] if args else os.path.join(os.path.dirname(os.path.abspath(__file__)), '..')
os.chdir(top)
sources = {f: open(f).read() for f in sorted(glob.glob('crates/*/src/*.rt'))}


def lines(pattern):
    """The lines that match, as file:line: text."""
    return [f'{f}:{i}: {line.strip()}' for f, text in sources.items() for i, line in enumerate(text.splitlines(), 1) if re.search(pattern, line)]


def enums():
    """Enums in which a refusal, an end or a lack stands beside an answer."""
    found = []
    for f, text in sources.items():
        for m in re.finditer(r'^(?:pub )?enum (\w+)(?:<[^>]*>)? \{\n(.*?)^\}', text, re.M | re.S):
            variants = re.findall(r'^    (\w+)', m.group(2), re.M)
            if m.group(1) == 'Refusal':
                continue
            if {'Refused', 'NoSuch', 'AtEnd', 'CutShort', 'AtLeaf', 'Up', 'Stopped', 'Neither'} & set(variants):
                found.append(f'{f}: {m.group(1)} {{ {", ".join(variants)} }}')
    return found


def shared_in_a_crate(least, of):
    """What `of` finds in the source of at least so many functions of one crate."""
    found = []
    for crate in sorted({f.split('/')[1] for f in sources}):
        times = collections.Counter(it for f, text in sources.items() if f.split('/')[1] == crate for it in of(text))
        found += [f'{crate}: {n} times {it}' for it, n in times.items() if n >= least]
    return found


def facts(text):
    """Each fact that a contract requires."""
    for m in re.finditer(r'requires(?: \w+)? \{ (.*) \}', text):
        yield from (part.strip('() ') for part in m.group(1).split(' × '))


def threes(text):
    """Each set of three parameters that a function takes."""
    for m in re.finditer(r'fn \w+(?:<[^>]*>)?\(([^)]*)\)', text):
        named = sorted({p.strip() for p in m.group(1).replace('\n', ' ').split(',') if ':' in p})
        yield from ('; '.join(three) for three in itertools.combinations(named, 3))


def states():
    """Functions that take a state by value: a session, a weighted state, a ring, a tally."""
    found = []
    for f, text in sources.items():
        for m in re.finditer(r'fn (\w+)(?:<[^>]*>)?\(([^)]*)\)', text):
            impl = re.findall(r'^impl(?:<[^>]*>)? (\w+)', text[:m.start()], re.M)
            of_state = bool(impl) and impl[-1] in ('Session', 'WeightedState', 'Ring', 'Tally')
            by_value = re.search(r'\b\w+: (Session|WeightedState|Ring|Tally)\b', m.group(2)) or (of_state and re.search(r'(^|\s)(mut )?self\b', m.group(2)) and '&' not in m.group(2).split('self')[0])
            if by_value:
                found.append(f'{f}: {m.group(1)}')
    return found


points = [
    ('1 enums of the shape of Option or Result', enums()),
    ('1 matches that only hand a refusal on', lines(r'Refused\(\w+\) => .*Refused\(')),
    ('3 loops that count or test by hand', lines(r"^ *(while (?!let)|loop|'\w+: loop)")),
    ('4 conversions, minimum, maximum by functions of its own', lines(r'\b(widen|integer::min|integer::max)\(')),
    ('4 types with no more than Clone and Copy derived', lines(r'derive\(Clone, Copy\)\]')),
    ('4 tests by steps that return a literal', lines(r'return (true|false);')),
    ('5 facts required by three or more functions of a crate', shared_in_a_crate(3, facts)),
    ('5 three parameters that five or more functions take', shared_in_a_crate(5, threes)),
    ('5 functions that take a state by value', states()),
]
for name, found in points:
    print(f'{len(found):4} {name}')
    if '--list' in sys.argv:
        for place in found:
            print('       ' + place)
