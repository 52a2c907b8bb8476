#!/usr/bin/env python3
"""Lists places of code that today's Rattle may write more plainly, one line to a place, and counts them.

    python3 tools/design_places.py [FOLDER] [--list]

FOLDER is a checkout (by default this one). The points are those of docs/DESIGN-PASS.md. A place is found by its text, so the
list has places that are right as they are; the page says why those stay.
"""
import re
import sys
from collections import defaultdict
from pathlib import Path

WORDS = [a for a in sys.argv[1:] if not a.startswith('--')]
ROOT = Path(WORDS[0] if WORDS else Path(__file__).resolve().parent.parent)
LIST = '--list' in sys.argv

# point, what is looked for, expression (over a whole file, multi-line)
TEXTS = [
    ('1', 'an error handed on by a match', r'Err\((\w+)\) => (?:return )?Err\(\1\b'),
    ('1', 'an error turned into another by a match', r'Err\((?:_|\w+)\) => (?:return )?Err\((?!\w+\))'),
    ('1', 'a none handed on by a match', r'None => (?:Ok\(None\)|None|return None)\b'),
    ('1', 'an option turned into a refusal by a match', r'(?:Some\((\w+)\) => Err\(\1\)|Some\(\w+\) => Err\(\(|None => Err\()'),
    ('1', 'an arm that only tests for a variant', r'=> (?:true|false),'),
    ('1', 'an arm that does nothing', r'=> \{\}'),
    ('1', 'a number for a variant', r'::\w+(?: \{ [^}]*\})? => \d+,'),
    ('1', 'a field that is a flag', r'^    (?:pub(?:\(crate\))? )?\w+: bool,'),
    ('3', 'a while loop', r'\bwhile\b'),
    ('3', 'a counter', r'\w+ \+= 1;'),
    ('3', 'a loop over a range of places', r'for \w+ in \(?0\.\.'),
    ('3', 'a loop that counts beside its items', r'\.enumerate\(\)'),
    ('4', 'a type with Copy and no comparison', r'#\[derive\(Clone, Copy\)\]'),
    ('4', 'a conversion by `as`', r'\bas (?:u8|u16|u32|usize)\b'),
    ('4', 'a function that converts', r'fn (?:number|narrowed|numbered|queue_numbered|fronted|height|layer)\('),
    ('4', 'text made by hand', r'(?:push_str|format!)\('),
    ('6', 'an array in a struct', r'^    (?:pub(?:\(crate\))? )?\w+: \[\w+; \d+\],'),
    ('6', 'a place compared with a length', r'\w+ (?:<|>=) \w+\.len\(\)'),
    ('7', 'a function pointer or a table of functions', r': fn\(|\[fn\('),
]
TESTS = re.compile(r'_tests$')


def sources():
    for f in sorted(ROOT.glob('crates/*/src/**/*.rt')):
        if 'out' not in f.relative_to(ROOT).parts:
            yield f


def code(text):
    """The text with comments and ghost imports blanked, so that lines keep their numbers."""
    return re.sub(r'(?m)^\s*//.*$|^ghost use .*$', '', text)


found = defaultdict(list)
names = defaultdict(list)
facts = defaultdict(list)
travels = defaultdict(list)
for f in sources():
    crate = f.relative_to(ROOT).parts[1]
    text = code(f.read_text())
    for point, what, expr in TEXTS:
        for m in re.finditer(expr, text, re.M):
            line = text.count('\n', 0, m.start()) + 1
            found[point, what].append(f'{f.relative_to(ROOT)}:{line}')
    for m in re.finditer(r'\bfn (\w+)(?:<[^(]*>)?\(([^)]*)\)', text):
        line = text.count('\n', 0, m.start()) + 1
        where = f'{f.relative_to(ROOT)}:{line}'
        if not re.search(r'impl[^\n]* for [^\n]*\{(?:(?!\n\}).)*$', text[:m.start()], re.S):
            names[m.group(1)].append((crate, where))
        params = [p.split(':')[0].replace('mut ', '').strip() for p in m.group(2).split(',') if ':' in p]
        for i in range(len(params)):
            for j in range(i + 1, len(params)):
                travels[params[i], params[j]].append(where)
    for m in re.finditer(r'(requires|ensures)(?: \w+)? \{ (.*) \}', text):
        line = text.count('\n', 0, m.start()) + 1
        facts[m.group(1), m.group(2)].append(f'{f.relative_to(ROOT)}:{line}')

for name, places in names.items():
    if len({c for c, _ in places}) > 1 and name not in ('main', 'new'):
        found['2', 'a name that two crates give to a function'] += [w for _, w in places]
for (kind, fact), places in facts.items():
    if kind == 'requires' and len(places) >= 3:
        found['5', 'a condition in three or more functions'] += places
for pair, places in travels.items():
    if len(places) >= 3:
        found['5', 'two parameters together in three or more functions'] += places
for f in sorted(ROOT.glob('crates/*/proofs/**/*.antt')):
    for i, line in enumerate(f.read_text().splitlines(), 1):
        if f.name == 'Answers.antt' and re.match(r'pub [\w«»-]+ : goal\.', line):
            found['8', 'an answer'].append(f'{f.relative_to(ROOT)}:{i}')

total = defaultdict(int)
for (point, what), places in sorted(found.items()):
    tests = sum(1 for p in places if TESTS.search(p.split('/')[1]))
    print(f'{point}  {what}: {len(places)} ({tests} of them in tests)')
    total[point] += len(places)
    if LIST:
        for p in places:
            print(f'     {p}')
print('in all: ' + ', '.join(f'{p}: {n}' for p, n in sorted(total.items())))
