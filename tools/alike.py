#!/usr/bin/env python3
"""Pairs of functions of src/ that are the same but for names and numbers (at least six lines of body).

Use, from the top: python3 tools/alike.py
"""
import glob
import itertools
import re

WORDS = {'fn', 'pub', 'let', 'mut', 'match', 'if', 'else', 'return', 'for', 'while', 'in', 'as', 'Ok', 'Err', 'Some', 'None', 'true', 'false', 'self', 'Self'}


def functions(path):
    lines = open(path, encoding='utf-8').read().split('\n')
    at = 0
    while at < len(lines):
        head = re.match(r'( *)(?:pub )?fn (\w+)', lines[at])
        if not head:
            at += 1
            continue
        end = at
        while end < len(lines) and lines[end] != head.group(1) + '}':
            end += 1
        body = lines[at:end + 1]
        start = next((i for i, l in enumerate(body) if l == head.group(1) + '{' or l.endswith(' {')), None)
        if start is not None:
            yield head.group(2), [l.strip() for l in body[start + 1:-1] if l.strip() and not l.strip().startswith('//')]
        at = end + 1


def shape(line):
    line = re.sub(r'b?"[^"]*"', 'S', line)
    line = re.sub(r'\b\d[\w.]*', 'N', line)
    return re.sub(r'[A-Za-z_]\w*', lambda m: m.group(0) if m.group(0) in WORDS else 'x', line)


found = [(path, name, tuple(shape(l) for l in body)) for path in sorted(glob.glob('crates/*/src/*.rt')) for name, body in functions(path) if len(body) >= 6]
pairs = [(a, b) for a, b in itertools.combinations(found, 2) if a[2] == b[2]]
for a, b in pairs:
    print(f'{a[0]} {a[1]} ~ {b[0]} {b[1]} ({len(a[2])} lines)')
print(len(pairs), 'pairs')
