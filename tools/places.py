#!/usr/bin/env python3
"""places.py [FOLDER]: the places of crates/*/src that a pass over the design looks at, counted point by point (docs/DESIGN-PASS.md).

   tools/places.py            of this checkout
   tools/places.py FOLDER     of another one
   tools/places.py --list [FOLDER]   each place by its file and line too
"""
import collections
import os
import re
import sys

arguments = sys.argv[1:]
listed = '--list' in arguments
arguments = [a for a in arguments if a != '--list']
root = arguments[0] if arguments else os.path.dirname(os.path.dirname(os.path.abspath(__file__)))

NUMBERS = ('DONE|ACCEPTED|BAD_SIZE|BAD_MODE|BAD_STATE|BAD_EVENT|NOT_HERE|NO_REGISTER|NO_RIGHT|SHORT|BAD_RECORD|BAD_COUNT|'
           'WRONG_STEP|TRAILING|FULL|CLOSED|NO_ROOM|DISABLED|OWN_REGISTER|NOT_BANKED')


def sources():
    for folder, _, files in sorted(os.walk(f'{root}/crates')):
        if '/src' not in folder or '/out/' in folder:
            continue
        for name in sorted(files):
            if name.endswith('.rt'):
                path = os.path.join(folder, name)
                with open(path, encoding='utf-8') as source:
                    yield os.path.relpath(path, root), source.read()


def balanced(text, at, opening, closing):
    """Where the bracket at this place is closed, one behind it."""
    depth = 0
    while True:
        depth += (text[at] == opening) - (text[at] == closing)
        at += 1
        if depth == 0:
            return at


class Function:
    def __init__(self, path, text, match):
        self.path, self.name = path, match.group('name')
        self.line = text.count('\n', 0, match.start()) + 1
        self.exported = 'extern "C"' in match.group(0)
        end = balanced(text, text.index('(', match.end()), '(', ')')
        self.parameters = text[match.end():end]
        clauses = re.compile(r'[^{};]*?\n\s*(?P<kind>requires|ensures)\*?\s*(\w+\s*)?(?=\{)')
        self.answer, self.clauses = None, []
        while clause := clauses.match(text, end):
            if self.answer is None:
                self.answer = text[end:clause.start('kind')].strip()
            end = balanced(text, clause.end(), '{', '}')
            self.clauses.append((clause.group('kind'), text[clause.end() + 1:end - 1].strip()))
        opened = re.compile(r'[^{;]*[{;]').match(text, end)
        if self.answer is None:
            self.answer = text[end:opened.end() - 1].strip()
        self.body = ''
        if text[opened.end() - 1] == '{':
            self.body = text[opened.end():balanced(text, opened.end() - 1, '{', '}') - 1]

    def place(self):
        return f'{self.path}:{self.line}: {self.name}'


FUNCTION = re.compile(r'(?m)^[ \t]*(pub(\(\w+\))? )?(const )?(extern "C" )?fn (?P<name>\w+)')
texts = list(sources())
functions = [Function(p, t, m) for p, t in texts for m in FUNCTION.finditer(t)]
found = collections.OrderedDict()


def lines(pattern):
    return [f'{p}:{i}: {l.strip()}' for p, t in texts for i, l in enumerate(t.split('\n'), 1)
            if re.search(pattern, l) and not l.lstrip().startswith(('//', 'ghost'))]


def shape(body):
    """A body with its names and numbers left out: what twins have in common."""
    body = re.sub(r'//[^\n]*|"[^"]*"', '', body)
    words = re.findall(r'\w+|[^\w\s]', body)
    kept = {'if', 'else', 'match', 'return', 'for', 'while', 'let', 'mut', 'true', 'false', 'Ok', 'Err', 'Some', 'None', 'self'}
    return ' '.join(w if w in kept or not re.match(r'\w', w) else 'x' for w in words)


# 1: an enum of Option's or Result's shape, a number that tells a refusal or a kind, a mark where there is nothing, a flag for a kind
found['1 own enums of the shape of Option'] = [
    f'{p}: {m.group(1)}' for p, t in texts for m in re.finditer(r'enum (\w+) \{\s*\w+,\s*\w+\([^()]*\),\s*\}', t)]
found['1 functions that answer the number of a refusal (not exported to C)'] = [
    f.place() for f in functions if not f.exported and f.answer == '-> u32' and re.search(rf'\b({NUMBERS})\b', f.body)]
found['1 functions that are given the number of a refusal'] = [
    f.place() for f in functions if re.search(r'\b(fault|n|number|refusal|before|after): u32', f.parameters)
    and re.search(rf'\b({NUMBERS}|refuse|fault)\b', f.body)]
found['1 functions that answer a mark where there is nothing'] = [
    f.place() for f in functions if re.search(r'\b(NO_PLACE|NOWHERE|none\(\))', f.body) and re.match(r'-> (u32|usize|Parts)', f.answer)]
found['1 functions over a flag that tells which layout'] = [
    f.place() for f in functions if re.search(r'\bold: bool', f.parameters) or f.name == 'is_old']
found['1 structs with a number of a refusal, or a mark, beside a value'] = [
    f'{p}: {m.group(1)}' for p, t in texts
    for m in re.finditer(r'struct (\w+) \{[^}]*\b(number|fault|part): u32', t)]
found['1 kinds as numbers: tables of constants'] = [
    f'{p}: {n}' for p, n in ((p, len(re.findall(r'(?m)^\s*pub const [A-Z_0-9]+: (u32|Mode) =', t))) for p, t in texts)
    if n > 8 and not p.endswith(('layout.rt', 'place.rt', 'field.rt'))]

# 2: functions whose bodies are alike but for names and numbers
alike = collections.defaultdict(list)
for f in functions:
    if len(re.findall(r'\w+', f.body)) > 3:
        alike[shape(f.body)].append(f)
found['2 functions that have a twin'] = [f.place() for twins in alike.values() if len(twins) > 1 for f in twins]

# 3: loops by hand
found['3 loops that count an index by hand'] = lines(r'^\s*while .*(<|<=|!=) ')

# 4: what derives and the library do
found['4 equality, choice, conversion and sums by hand'] = lines(
    r'\b(fn (is|join|wide|both|either|least|same_\w+|which_of|beyond)\b|(both|either|least|wide|join|wrapping_(add|sub)_u32)\()'
    r'|\.is\(')
found['4 printing by hand'] = lines(r'rt\.(print|write_all)\(|\bsay\(|\b(glyph|digit|digit_of)\(')
found['4 types without Debug and comparison'] = lines(r'#\[derive\(Clone, Copy\)\]')

# 5: facts in three contracts or more, and parameters that travel together
facts = collections.defaultdict(list)
for f in functions:
    for kind, clause in f.clauses:
        if kind == 'requires':
            for fact in re.split(r'\s×\s', clause):
                fact = re.sub(r'\s+', ' ', fact.strip().strip('()'))
                facts[re.sub(r'\b\w+\.(old|now)\b', r'x.\1', fact)].append(f)
found['5 facts asked by three contracts or more'] = [
    f'{len(fs)} times: {fact}' for fact, fs in sorted(facts.items(), key=lambda x: -len(x[1])) if len(fs) > 2]
found['5 functions given CPSR and SCR apart'] = [
    f.place() for f in functions if 'cpsr: u32' in f.parameters and 'scr: u32' in f.parameters]
found['5 functions given an answer buffer beside a block'] = [
    f.place() for f in functions if re.search(r'block: &mut', f.parameters) and re.search(r'buffer: &mut', f.parameters)]

# 6: a buffer with a length beside it
found['6 a buffer with a length beside it'] = [
    f.place() for f in functions
    if re.search(r'\b(text|part|unfinished|room): &mut', f.parameters) and re.search(r'\b(at|held|first|size): u?\w+', f.parameters)]

# 7: which step to run
found['7 switches on which step to run'] = lines(r'match (code|direct_code|x|p) ?[({]|match direct_code')

for what, places in found.items():
    print(f'{len(places):4}  {what}')
    if listed:
        for place in places:
            print(f'        {place}')
