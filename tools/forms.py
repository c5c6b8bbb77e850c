#!/usr/bin/env python3
"""Where src/ has forms of older Rattle, point by point as docs/DESIGN-PASS.md counts them.

usage: forms.py [-l] [DIR]      (default: crates; -l lists each place)
A place is something to look at: the page says of each that stays why it stays.
"""
import collections, pathlib, re, sys

LIST = '-l' in sys.argv
DIR = pathlib.Path(next((a for a in sys.argv[1:] if a != '-l'), 'crates'))
KINDS = r'(component|tag|direction|transpose|chroma_format|main|other): (u8|u16|u32|usize)\b'
LAYOUT = ['virtual_columns', 'virtual_rows', 'tile_columns', 'tile_rows', 'slice_map', 'subpic_map', 'subpic_across']
TABLES = ['slice_params', 'bank', 'ctb_params', 'ctb_list', 'fixed_filters', 'fixed_map']


def sources():
    for path in sorted(DIR.glob('*/src/**/*.rt')):
        text = re.sub(r'//[^\n]*', '', path.read_text())
        yield path.relative_to(DIR), text


def line_of(text, at):
    return text.count('\n', 0, at) + 1


def braces(text, at):
    depth = 0
    for i in range(at, len(text)):
        depth += (text[i] == '{') - (text[i] == '}')
        if depth == 0:
            return i + 1
    return len(text)


def functions(text):
    """Name, place, parameters, clauses and body of each function."""
    for m in re.finditer(r'\bfn (\w+)(?:<[^>(]*>)?\(', text):
        depth, i = 1, m.end()
        while depth:
            depth += (text[i] == '(') - (text[i] == ')')
            i += 1
        params, rest = text[m.end():i - 1], i
        while True:
            clause = re.compile(r'(?:[^{};]|\n)*?\b(requires|ensures|ghost)\b[^{]*\{').match(text, rest)
            head = re.compile(r'[^{};]*').match(text, rest)
            if clause and clause.start(1) < head.end():
                rest = braces(text, clause.end() - 1)
                continue
            break
        start = text.find('{', rest)
        if start < 0 or ';' in text[rest:start]:
            continue
        yield m.group(1), m.start(), params, text[i:start], text[start:braces(text, start)]


def enums(text):
    for m in re.finditer(r'\benum (\w+)(?:<[^>]*>)? \{', text):
        body = text[m.end():braces(text, m.end() - 1) - 1]
        flat = re.sub(r'\{[^}]*\}', '()', body)
        variants = [v.strip() for v in re.split(r',(?![^(]*\))', flat) if v.strip()]
        yield m.group(1), m.start(), variants, body


def shape(body):
    """A body with its names, types and numbers taken out."""
    seen = {}
    def name(m):
        w = m.group(0)
        if w in ('let', 'mut', 'if', 'else', 'while', 'for', 'in', 'return', 'match', 'true', 'false', 'as', 'loop', 'len'):
            return w
        return seen.setdefault(w, f'v{len(seen)}')
    flat = re.sub(r'\b\d\w*\b', '0', body)
    flat = re.sub(r'\b(u8|u16|u32|u64|usize|i8|i16|i32)\b', 'T', flat)
    return ' '.join(re.sub(r'[A-Za-z_]\w*', name, flat).split())


found = collections.OrderedDict()


def put(point, path, text, at, what):
    found.setdefault(point, []).append(f'{path}:{line_of(text, at)} {what}')


shapes, facts = collections.defaultdict(list), collections.defaultdict(list)
for path, text in sources():
    for name, at, variants, body in enums(text):
        refusal = any(re.search(r'\(Fault\)', v) for v in variants)
        option = len(variants) == 2 and sum('(' in v for v in variants) == 1
        if refusal or option:
            put('1a own enums of the shape of Option or Result', path, text, at, name)
    for m in re.finditer(r'^\s*(?:pub )?(there|has_\w+|found|present): bool,$', text, re.M):
        put('1b a flag beside a value', path, text, m.start(1), m.group(1))
    for m in re.finditer(KINDS, text):
        put('1c numbers for kinds', path, text, m.start(), m.group(0))
    for name, at, params, clauses, body in functions(text):
        if re.match(r'(test|there): bool', params) and params.count(',') >= 1:
            put('1b a flag beside a value', path, text, at, f'fn {name}')
        if re.search(r'-> u(8|16)\b', clauses) and re.search(r'number|cause|answer|room', name):
            put('1d numbers for refusals and causes', path, text, at, f'fn {name}')
        lines = [s for s in body.splitlines() if s.strip(' {}')]
        if len(lines) >= 2:
            shapes[shape(body)].append(f'{path}:{line_of(text, at)} {name}')
        if len(lines) == 1 and re.fullmatch(r'\(?[\w.*() >&%/+-]+\)? as \w+', lines[0].strip()):
            put('4b a conversion that is one cast', path, text, at, f'fn {name}')
        if re.search(r'^\s*match \w+ \{(\s*[\w:|() ]+ => (\d+|true|false),)+\s*\}', body, re.M):
            put('4c an enum turned to numbers or truth values by hand', path, text, at, f'fn {name}')
        if re.search(r'if (\w[\w.]*) <=? (\w[\w.]*) \{\s*(\1|\2)\s*\} else \{\s*(\1|\2)\s*\}', body) or re.search(r'< 0 \{', body):
            put('4a order and sign by hand', path, text, at, f'fn {name}')
        if re.match(r'print_(number|integer|cause|isolation|answer)$', name):
            put('4d printing by hand', path, text, at, f'fn {name}')
        names = re.findall(r'(\w+): ', params)
        if sum(n in names for n in LAYOUT) >= 3:
            put('5a the lists of a layout one by one', path, text, at, f'fn {name}')
        if sum(n in names for n in TABLES) >= 2:
            put('5b the tables of the filters one by one', path, text, at, f'fn {name}')
        if 'picture' in names and 'grid' in names:
            put('5c picture and grid', path, text, at, f'fn {name}')
        if re.search(r'(axis|columns|rows): &?CtbAxis\b', params) and re.search(r'(boundaries|virtual_\w+): &\[u16\]', params):
            put('5d an axis and its virtual boundaries', path, text, at, f'fn {name}')
        if len(re.findall(r': &mut \[', params)) >= 3:
            put('5e rooms to work in', path, text, at, f'fn {name}')
        if len(re.findall(r'\b(v|h|d0|d1): &\[', params)) >= 3:
            put('6a parallel lists', path, text, at, f'fn {name}')
        if len(re.findall(r'\bf\d: i16', params)) >= 3:
            put('6b a list as numbered parameters', path, text, at, f'fn {name}')
        if re.search(r"^    (?:'\w+: )?(while|for)\b[^\n]*\{(?:(?!^    \})[\s\S])*?\breturn\b", body, re.M):
            put('6c a search by hand', path, text, at, f'fn {name}')
        for m in re.finditer(r'\bmatch (filter|rule|step_in\([^)]*\)|self\.rule)\b', body):
            put('7 a switch on what to run', path, text, at, f'fn {name}')
        for m in re.finditer(r"^\s*(?:'\w+: )?(while(?! let)|loop)\b", body, re.M):
            put('3 loops that count by hand', path, text, at, f'fn {name}: {m.group(1)}')
for twins in shapes.values():
    if len(twins) > 1:
        for t in twins:
            found.setdefault('2 functions of one shape', []).append(t)

for point in sorted(found):
    print(f'{len(found[point]):4}  {point}')
    if LIST:
        for place in found[point]:
            print('        ', place)
walks = len(list(DIR.glob('*/proofs/**/Proof.antt')))
answers = len(list(DIR.glob('*/proofs/**/Answers.antt')))
lines = sum(len(p.read_text().splitlines()) for p in DIR.glob('*/proofs/**/*.antt'))
print(f'{walks:4}  8 proofs that walk the code by hand ({answers} files of answers, {lines} lines of proofs)')
