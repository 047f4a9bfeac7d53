#!/usr/bin/env python3
"""Counts, in the src/ of every crate, the places that docs/DESIGN-PASS.md speaks of. `tools/places.py -v` lists them, a line each.

It goes by text, so a count is of candidates: what is kept, and why, stands on that page.
"""
import collections
import glob
import os
import re
import sys

os.chdir(os.path.dirname(os.path.dirname(os.path.abspath(__file__))))
FILES = sorted(glob.glob('crates/*/src/**/*.rt', recursive=True))
found = collections.OrderedDict()


def note(point, path, text, at):
    found.setdefault(point, []).append(f'{path[len("crates/"):]}:{text.count(chr(10), 0, at) + 1}')


def functions(text):
    """Name, parameters and body of each function, and where it stands."""
    for m in re.finditer(r'(?m)^([ ]*)(?:pub )?fn (\w+)(?:<[^>]*>)?\(((?:[^()]|\([^()]*\))*)\)', text):
        body = re.compile(r'(?ms)(?:^' + m.group(1) + r'\{|[^\n]\{)\n(.*?)^' + m.group(1) + r'\}').search(text, m.end())
        yield m.group(2), re.sub(r'\s+', ' ', m.group(3)).strip(), body.group(1) if body else '', m.start(2)


KINDS = r'\b(?:of|way|kind|whom|letter|word|option|digit|form|name|which|shape|sign|column): (?:usize|u64|u32|u8)\b'
TOGETHER = [
    ('h, z, t, b, c, f', r'\bz: &(?:mut )?\[i64\], t: &'),
    ('rows, borders, p', r'\brows: usize, borders: usize, p: &'),
    ('all, marks', r'\ball: bool, marks: &'),
    ('hours, ways, atcs', r'\bways: &(?:mut )?\[u64\], atcs: &'),
    ('rising, live', r'\brising: &(?:mut )?\[usize\], live: usize'),
    ('near, count', r'\bnear: &(?:mut )?\[usize\], count: usize'),
]
BY_HAND = r'^(?:larger|smaller|less|lower|under|before|after|next|same|one_if|hex|is_digit|is_letter|between|within|cut|fewer|less_one|positive|magnitude|short|tenfold|larger_of|find|front|tail)$'
shapes = collections.defaultdict(list)
for path in FILES:
    text = re.sub(r'(?m)^[ ]*(?:requires|ensures|ghost)[^\n]*$', '', open(path).read())
    code = re.sub(r'//[^\n]*', '', text)
    for m in re.finditer(r'(?m)^(?:pub )?enum (\w+) \{\n((?:.*\n)*?)\}', code):
        variants = re.findall(r'(?m)^    (\w+)(\([^)]*\)| \{[^}]*\})?,', m.group(2))
        payload = [v for v, p in variants if p]
        answers = {'Refused', 'Bad', 'Wrong', 'Form', 'Range', 'Failed'}
        if len(variants) == 2 and payload or len(variants) == 3 and len(answers & {v for v, _ in variants}) >= 2:
            note('1 enums in the shape of Option or Result', path, code, m.start())
    for m in re.finditer(r'\b(?:good|told|given|is_some|found): bool\b', code):
        note('1 flags with a value beside them', path, code, m.start())
    for name, params, body, at in functions(code):
        if re.search(r'\ball: bool, marks: &', params):
            note('1 flags with a value beside them', path, code, at)
        for _ in re.finditer(KINDS, params):
            note('1 numbers for kinds, in parameters', path, code, at)
        for label, pattern in TOGETHER:
            if re.search(pattern, params):
                note('5 parameters that travel together: ' + label, path, code, at)
        if len(re.findall(r'\w+: ', params)) >= 8:
            note('5 functions of eight or more parameters', path, code, at)
        if re.match(BY_HAND, name):
            note('4 written by hand that the library has (by name)', path, code, at)
        if len(re.findall(r': bool\b', params)) >= 2:
            note('7 functions of two or more flags', path, code, at)
        lines = [line.strip() for line in body.split('\n') if line.strip()]
        if len(lines) >= 3:
            shape = re.sub(r'\b[A-Za-z_]\w*\b', 'x', re.sub(r'"[^"]*"|\b\d\w*', '0', ' '.join(lines)))
            shapes[shape].append((path, code, at))
    for m in re.finditer(r'(?m)^[ ]*while |^[ ]*loop \{', code):
        note('3 loops by while or loop', path, code, m.start())
    for m in re.finditer(r'\bfor (\w+) in [^{\n]*\.\.', code):
        rest = code[m.end():m.end() + 600]
        if re.search(r'\[' + m.group(1) + r'\]', rest):
            note('3 for loops that index by their counter', path, code, m.start())
    for m in re.finditer(r'\b(\w+): (\w+),\n?', code):
        if m.group(1) == m.group(2):
            note('4 fields written twice (no shorthand)', path, code, m.start())
for group in shapes.values():
    if len(group) > 1:
        for place in group:
            note('2 functions of one shape', *place)
for point in sorted(found):
    print(f'{len(found[point]):5}  {point}')
    if '-v' in sys.argv[1:]:
        for place in found[point]:
            print('       ' + place)
