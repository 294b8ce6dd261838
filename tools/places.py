#!/usr/bin/env python3
"""Counts, in crates/*/src and crates/*/proofs, the places that docs/DESIGN-PASS.md speaks of.

    python3 tools/places.py [FOLDER]            the counts of each crate
    python3 tools/places.py [FOLDER] --list P   the places of point P (1 to 8), a line each
"""
import os
import re
import sys
from collections import defaultdict

FUNCTION = re.compile(r'^\s*(?:pub(?:\([a-z]+\))? )?(?:extern "C" )?fn (\w+)', re.M)


def texts(root, part, ending):
    for crate in sorted(os.listdir(os.path.join(root, 'crates'))):
        for folder, _, names in sorted(os.walk(os.path.join(root, 'crates', crate, part))):
            for name in sorted(names):
                if name.endswith(ending):
                    path = os.path.join(folder, name)
                    yield crate, os.path.relpath(path, root), open(path, encoding='utf-8').read()


def parameters(text, at):
    """The parameters of the function whose name ends at a place, as texts."""
    at = text.index('(', at)
    depth, start, found = 0, at + 1, []
    for i in range(at, len(text)):
        c = text[i]
        if c in '([<{':
            depth += 1
        elif c in ')]}' or (c == '>' and text[i - 1] != '-'):
            depth -= 1
            if depth == 0:
                found.append(text[start:i])
                break
        elif c == ',' and depth == 1:
            found.append(text[start:i])
            start = i + 1
    return [p.strip() for p in found if p.strip()]


def body(text, at):
    """The lines of the body of the function whose name stands at a place."""
    lines = text[text.rfind('\n', 0, at) + 1:].split('\n')
    indent = re.match(r'\s*', lines[0]).group(0)
    inside, found = False, []
    for line in lines:
        if inside:
            if line.rstrip() == indent + '}':
                return '\n'.join(found)
            found.append(line)
        elif line.rstrip().endswith('{') and not line.strip().startswith(('requires', 'ensures')):
            inside = True
    return ''


KEPT_WORDS = {'let', 'mut', 'if', 'else', 'while', 'for', 'in', 'loop', 'match', 'return', 'break', 'as', 'true', 'false'}


def shape(code):
    code = re.sub(r'//[^\n]*', '', code)
    words = re.findall(r'[A-Za-z_]\w*|\d\w*|"[^"]*"|\S', code)
    return tuple(w if not re.match(r'[A-Za-z_\d"]', w) or w in KEPT_WORDS else 'x' for w in words)


def places(root):
    found = defaultdict(list)
    shapes = defaultdict(list)
    for crate, path, text in texts(root, 'src', '.rt'):
        code = re.sub(r'//[^\n]*', lambda m: ' ' * len(m.group(0)), text)

        def line(at):
            return code.count('\n', 0, at) + 1

        for m in re.finditer(r'^\s*(?:pub )?enum (\w+)', code, re.M):
            found['1 enums'].append((crate, path, line(m.start(1)), m.group(1)))
        for m in re.finditer(r'\b(?:No|Refused|Left|Full)\(\s*\d+', code):
            found['1 numbers'].append((crate, path, line(m.start()), m.group(0)))
        for m in re.finditer(r'^\s*(?:\'\w+: )?(while|loop)\b[^\n]*', code, re.M):
            found['3 loops'].append((crate, path, line(m.start(1)), m.group(0).strip()))
        for m in re.finditer(r'\bas (?:usize|u64|u32|u8|i32)\b', code):
            found['4 casts'].append((crate, path, line(m.start()), m.group(0)))
        for m in FUNCTION.finditer(code):
            ps = parameters(code, m.end())
            if len(ps) > 7:
                found['5 over 7 parameters'].append((crate, path, line(m.start(1)), f'{m.group(1)} {len(ps)}'))
            slices = [p for p in ps if re.search(r': &(?:mut )?\[', p)]
            if len(slices) > 2:
                found['6 three slices or more'].append((crate, path, line(m.start(1)), f'{m.group(1)} {len(slices)}'))
            if any(re.search(r': bool$', p) for p in ps):
                found['7 flags handed in'].append((crate, path, line(m.start(1)), m.group(1)))
            s = shape(body(code, m.end()))
            if len(s) > 24:
                shapes[s].append((crate, path, line(m.start(1)), m.group(1)))
    for s, where in shapes.items():
        if len(where) > 1:
            names = ' = '.join(f'{p}:{n} {f}' for _, p, n, f in where)
            for crate, path, n, f in where[1:]:
                found['2 functions of one shape'].append((crate, path, n, names))
    for crate, path, text in texts(root, 'proofs', '.antt'):
        if path.endswith('Answers.antt'):
            for m in re.finditer(r'^pub ([\w-]+) : goal\.', text, re.M):
                found['8 answers'].append((crate, path, text.count('\n', 0, m.start()) + 1, m.group(1)))
        elif not path.endswith('Invariants.antt'):
            for m in re.finditer(r'^\s*(?:pub )?([\w₀-₉\'-]+) :', text, re.M):
                found['8 lemmas'].append((crate, path, text.count('\n', 0, m.start()) + 1, m.group(1)))
    return found


def main():
    root = '.'
    arguments = sys.argv[1:]
    if arguments and not arguments[0].startswith('-'):
        root = arguments.pop(0)
    found = places(root)
    if arguments and arguments[0] == '--list':
        for kind in sorted(found):
            if kind.startswith(arguments[1]):
                for _, path, n, what in found[kind]:
                    print(f'{kind} | {path}:{n} | {what}')
        return
    kinds = sorted(found)
    crates = sorted({p[0] for k in kinds for p in found[k]})
    print('| crate | ' + ' | '.join(kinds) + ' |')
    print('|---' * (len(kinds) + 1) + '|')
    for crate in crates:
        print(f'| {crate} | ' + ' | '.join(str(sum(p[0] == crate for p in found[k])) for k in kinds) + ' |')
    print('| all | ' + ' | '.join(str(len(found[k])) for k in kinds) + ' |')


main()
