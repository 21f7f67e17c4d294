#!/usr/bin/env python3
"""places.py [CRATES]: counts in src/ of the crates below a folder (default: crates) what docs/DESIGN-PASS.md speaks of,
a line for each place. It reads text: what it lists is a place to look, and what only reading finds stands in the page."""
import collections
import glob
import itertools
import re
import sys

root = sys.argv[1] if len(sys.argv) > 1 else 'crates'
files = {f: open(f).read() for f in sorted(glob.glob(root + '/*/src/**/*.rt', recursive=True))}
bare = {f: re.sub(r'//[^\n]*', '', s) for f, s in files.items()}


def name_of(f):
    return f[len(root) + 1:]


def blocks(kind):
    """Items of a kind with braces: (file, name, body)."""
    for f, s in bare.items():
        for m in re.finditer(r'\b' + kind + r' (\w+)[^{;(]*\{(.*?)\n\}', s, re.S):
            yield f, m.group(1), m.group(2)


def functions():
    """(file, name, parameters as (name, type), contract, body)"""
    for f, s in bare.items():
        for m in re.finditer(r'^( *)(?:pub(?:\(crate\))? )?(?:extern "C" )?fn (\w+)(?:<[^(]*>)?\((.*?)\)([^{]*?(?:\n\1 +(?:requires|ensures)[^\n]*)*)\n?\1? ?\{(.*?)\n\1\}|^( *)fn (\w+)\(\) *\{\}',
                             s, re.S | re.M):
            if m.group(2):
                params = [tuple(x.strip() for x in p.split(':', 1)) for p in re.split(r',\s*(?![^\[<(]*[\])>])', m.group(3)) if ':' in p]
                yield f, m.group(2), params, m.group(4), m.group(5)


def shape(body):
    body = re.sub(r'"(\\.|[^"])*"', 'S', body)
    return ' '.join('w' if t[0].isalpha() and t not in KEEP else t for t in re.findall(r'\w+|[^\w\s]', body))


KEEP = {'if', 'else', 'while', 'for', 'match', 'return', 'let', 'mut', 'in', 'true', 'false', 'as', 'u8', 'u16', 'u32', 'u64', 'usize'}
out = collections.defaultdict(list)

# 1. enums of which some cases carry a value and some do not; structs with a flag beside other fields; numbers for kinds
for f, n, b in blocks('enum'):
    cases = [c for c in re.split(r',(?![^{(]*[})])', b) if c.strip()]
    full = [c for c in cases if '(' in c or '{' in c]
    if full and (len(full) < len(cases) or 'Refused' in b):
        out['1 enums of the shape of Option or Result'].append(f'{name_of(f)} {n}')
flags = {'bool'} | {x.split()[-1] for x in out['1 enums of the shape of Option or Result']}
for f, n, b in blocks('struct'):
    types = re.findall(r'^\s+(?:pub(?:\(crate\))? )?\w+: ([^,\n]+),', b, re.M)
    if any(t in flags for t in types) and not all(t == types[0] for t in types):
        out['1 structs with a flag beside values'].append(f'{name_of(f)} {n}')
for f, n, p, c, b in functions():
    for a, t in p:
        if t == 'bool' or a == 'letter':
            out['1 flags and numbers that choose'].append(f'{name_of(f)} {n} {a}')

# 2. functions, and types, whose texts have one shape
for what, items in (('functions', [(f, n, shape(b)) for f, n, p, c, b in functions()]),
                    ('types', [(f, n, re.sub(r'\w+', 'w', re.sub(r'(\w+):', 'w:', b))) for k in ('struct',) for f, n, b in blocks(k)])):
    groups = collections.defaultdict(list)
    for f, n, s in items:
        if len(s.split()) >= (9 if what == 'functions' else 3):
            groups[s].append(f'{name_of(f)} {n}')
    for g in groups.values():
        if len(g) > 1:
            out[f'2 {what} of one shape'].append(' | '.join(g))
for f, s in files.items():
    for l in s.split('\n'):
        if re.search(r'// .*[Tt]he same (of|by|for|in)\b', l):
            out['2 comments that say "the same"'].append(f'{name_of(f)} {l.strip()[3:70]}')

# 3. loops by hand
for f, s in bare.items():
    for m in re.finditer(r'^\s*while (.*) \{', s, re.M):
        out['3 while loops'].append(f'{name_of(f)} {m.group(1)}')

# 4. comparing and converting by hand
for f, s in bare.items():
    for m in re.finditer(r'check::same\(', s):
        out['4 comparing by hand'].append(f'{name_of(f)} check::same')
for f, n, p, c, b in functions():
    arms = re.findall(r'=> (\w+),', b)
    if 'match' in b and arms and all(a in ('true', 'false') for a in arms):
        out['4 matches that only say true or false'].append(f'{name_of(f)} {n}')
    if re.search(r'256 \* \(|>> 8|/ 256 / 256', b):
        out['4 bytes of numbers by hand'].append(f'{name_of(f)} {n}')

# 5. facts and parameters that repeat
facts = collections.defaultdict(set)
pairs, single = collections.Counter(), collections.Counter()
for f, n, p, c, b in functions():
    for r in re.findall(r'requires[^{]*\{(.*)\}', c):
        for fact in re.split(r' × ', r):
            facts[fact.strip(' ()')].add(f'{name_of(f)} {n}')
    for q in set(p):
        single[q] += 1
    for q in itertools.combinations(sorted(set(p)), 2):
        pairs[q] += 1
for fact, w in sorted(facts.items()):
    if len(w) >= 3:
        out['5 facts required by three functions or more'].append(f'{len(w)} {fact}')
for (a, b), k in pairs.most_common():
    if k >= 5 and k >= 0.8 * min(single[a], single[b]):
        out['5 parameters that travel together'].append(f'{k} {a[0]}: {a[1]}, {b[0]}: {b[1]}')

# 6. a buffer and a place or a length beside it
for f, n, p, c, b in functions():
    d = dict(p)
    if ('out' in d and ('at' in d or 'len' in d)) or ('list' in d and 'count' in d):
        out['6 buffers with a place beside them'].append(f'{name_of(f)} {n}')
for f, n, b in blocks('struct'):
    if re.search(r'\blen: usize', b):
        out['6 buffers with a place beside them'].append(f'{name_of(f)} {n}')

# 7. a match of which every arm is a call of another function
for f, n, p, c, b in functions():
    for m in re.finditer(r'match (\w+) \{(.*)\n\s*\}', b, re.S):
        arms = re.findall(r'\w+::\w+(?:\([^)]*\)| \{[^}]*\})? => (\w+)(\()', m.group(2))
        if len(arms) >= 3:
            out['7 switches'].append(f'{name_of(f)} {n}')

for k in sorted(out):
    print(f'{k}: {len(out[k])}')
    for x in out[k]:
        print('   ', x)
