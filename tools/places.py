#!/usr/bin/env python3
"""Counts the places of docs/DESIGN-PASS.md in src/: tools/places.py [TOP]. Text alone is read, so each place is then judged by eye."""
import collections
import glob
import re
import sys

TOP = sys.argv[1] if len(sys.argv) > 1 else '.'
FILES = {p.split('crates/', 1)[1]: re.sub(r'//[^\n]*', '', open(p).read())
         for p in sorted(glob.glob(TOP + '/crates/*/src/**/*.rt', recursive=True))}


def close(text, at):
    """The place behind the bracket that closes the one at a place."""
    depth = 0
    while True:
        depth += {'(': 1, '{': 1, '[': 1, ')': -1, '}': -1, ']': -1}.get(text[at], 0)
        at += 1
        if depth == 0:
            return at


def functions():
    """File, name, parameters, clauses and body of each function that has a body."""
    for path, text in FILES.items():
        for m in re.finditer(r'\bfn (\w+)', text):
            at = text.index('(', m.end())
            end = close(text, at)
            parameters = [re.sub(r"'\w+ ?", '', x.strip()) for x in re.sub(r'\s+', ' ', text[at + 1:end - 1]).split(',') if x.strip()]
            clauses, at = [], end
            while at < len(text) and text[at] != ';':
                if text[at] == '{':
                    word = re.search(r'(requires|ensures)(?: \w+)?\s*$', text[end:at])
                    after = close(text, at)
                    if not word:
                        yield path, m.group(1), parameters, clauses, text[at:after]
                        break
                    clauses.append((word.group(1), text[at + 1:after - 1].strip()))
                    end = at = after
                else:
                    at += 1


def facts(clause):
    """The facts of a clause that joins them by a product."""
    parts, depth, part = [], 0, ''
    for c in clause:
        depth += {'(': 1, ')': -1}.get(c, 0)
        if c == '×' and depth == 0:
            parts.append(part)
            part = ''
        else:
            part += c
    for part in parts + [part]:
        part = part.strip()
        if part.startswith('(') and close(part, 0) == len(part):
            part = part[1:-1].strip()
        yield re.sub(r'\.(old|now)', '', part)


def show(title, places):
    print(f'{title}: {len(places)}')
    for place in places:
        print('   ', place)


def lines(pattern, skip=None):
    return [f'{path}: {line.strip()}' for path, text in FILES.items() for line in text.split('\n')
            if re.search(pattern, line) and not (skip and re.search(skip, path + ' ' + line))]


ALL = list(functions())

variants = []
for path, text in FILES.items():
    for m in re.finditer(r'\benum (\w+) \{([^}]*)\}', text):
        cases = [c.strip() for c in re.split(r',(?![^(]*\))', m.group(2)) if c.strip()]
        if len(cases) == 2:
            variants.append(f'{path}: {m.group(1)} {{ {", ".join(cases)} }}')
show('1. enums of two cases', variants)
show('1. numbers for refusals', lines(r'Refused\(u64\)|\brefuses: bool|\bown: u64|fn refusal\(.*-> u64'))
show('1. numbers for kinds', lines(r'^(pub )?const [A-Z_0-9]+: (u8|u64) = [0-9]+;'))

shapes = collections.defaultdict(list)
KEPT = {'if', 'else', 'match', 'let', 'mut', 'return', 'while', 'loop', 'for', 'in', 'true', 'false', 'self', 'as'}
for path, name, _, _, body in ALL:
    words = [w if w in KEPT or not re.match(r'\w|"', w) else 'x' for w in re.findall(r'"[^"]*"|\w+|[^\w\s]', body)]
    if len(words) >= 8:
        shapes[' '.join(words)].append(f'{path} {name}')
groups = sorted((g for g in shapes.values() if len(g) > 1), key=len, reverse=True)
show('2. groups of functions with one text but for names and numbers', [f'{len(g)}: ' + '; '.join(g) for g in groups])

show('3. loops with a counter', lines(r'\b(while|loop)\b.*\{'))

show('4. casts', lines(r'\bas (u8|u16|u32|u64|usize)\b', r'places::\w+ as u8'))
show('4. fields copied out by hand', lines(r'let (\w+) = \w+\.\1;'))
show('4. printing by hand', lines(r'\b(text|number)\(rt'))

where, runs = collections.defaultdict(set), collections.defaultdict(set)
for path, name, parameters, clauses, _ in ALL:
    for kind, clause in clauses:
        if kind == 'requires':
            for fact in facts(clause):
                where[fact].add(f'{path} {name}')
    for a in range(len(parameters)):
        for b in range(a + 2, len(parameters) + 1):
            runs[', '.join(parameters[a:b])].add(f'{path} {name}')
show('5. facts asked by three functions or more', [f'{len(s)}: {f}' for f, s in sorted(where.items(), key=lambda x: -len(x[1])) if len(s) > 2])
show('5. parameters that stand together in five functions or more', [f'{len(s)}: {r}' for r, s in sorted(runs.items(), key=lambda x: -len(x[1])) if len(s) > 4])

show('6. a count, an index or a table beside an array', lines(r'\b(pub )?(count|next|looked): usize,|: \[u8; ROWS\] =|: \[u64; places::KEPT\] =|\bnext: usize'))

show('7. matches on which step to run', lines(r'match (stop|event|what)\b'))
