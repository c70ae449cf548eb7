#!/usr/bin/env python3
"""Respells this repository's own definitions and lemmas for today's Rattle: run once, right after its port.py.

usage: python3 tools/respell.py        at the top of the repository

Words are in snake case (hub-list becomes hub_list), types and facts in camel case (Tables-stand becomes TablesStand).
A dash stays where it joins a lemma to the list function that it is about (length-altered). Names that Rattle makes
(goals, steps of a proof) and names from std are left. Functions of src/ have no dash and are left.
"""
import os
import re
import sys

NAME = r"[A-Za-z][\w'-]*"
# An error of the index has the camel case name NoRoom already; the port script made Goes_on of Goes-on.
OTHER = {'No-room': 'LacksRoom', 'Goes_on': 'GoesOn'}
LIST = ('length', 'take', 'drop', 'map', 'set', 'total')
TOKEN = re.compile(r"(?<![\w'-])" + NAME)


def files():
    for folder, dirs, names in os.walk('crates'):
        dirs[:] = sorted(d for d in dirs if d != 'out')
        for name in sorted(names):
            if name.endswith(('.antt', '.rt')):
                yield os.path.join(folder, name)


def code(line):
    """The line without its comment."""
    return re.split(r'(?:^|\s)--(?=\s|$)', line)[0]


def respelled(name):
    if name in OTHER:
        return OTHER[name]
    parts = name.split('-')
    if name[0].isupper():
        return ''.join(part[0].upper() + part[1:] for part in parts)
    if parts[0] in LIST and len(parts) > 1:
        return parts[0] + '-' + '_'.join(parts[1:])
    if parts[0] == 'getD':
        return 'get_or-' + '_'.join(parts[1:])
    return '_'.join(parts)


def defined(text):
    """Names with a dash that the text defines for every file that imports it."""
    found = set()
    for line in map(code, text.split('\n')):
        if re.match(r'\s*use ', line) or ': goal.' in line:
            continue
        m = re.match(r'\s*(?:unfoldable )?(?:pub )?(?:record|data) (' + NAME + ')', line)
        if not m:
            m = re.match(r'\s*(?:unfoldable |abbrev )?(?:pub )?(' + NAME + r')(?: \{[^}]*\}| \([^)]*\)| ' + NAME + r')* :(?: |$)', line)
        if m and '-' in m.group(1):
            found.add(m.group(1))
    return found


def bound(text):
    """Names with a dash that a let, a λ, a binder or the left side of a clause binds."""
    found = set()
    for line in map(code, text.split('\n')):
        for m in re.finditer(r'\blet (' + NAME + r')', line):
            found.add(m.group(1))
        for m in re.finditer(r'λ ([^.]*)\.', line):
            found.update(re.findall(NAME, m.group(1).split(':')[0]))
        for m in re.finditer(r'[({]((?:' + NAME + r' )+): ', line):
            found.update(m.group(1).split())
        m = re.match(r'\s*(' + NAME + r')((?: [^=:]*)?) =(?: |$)', line)
        if m:
            found.update(re.findall(NAME, m.group(2)))
    return {name for name in found if '-' in name}


def imported(text):
    found = set()
    for m in re.finditer(r'use (Rattle\.std|mathlib|lib|Prim|denote|borrow)[\w.]*\.\{([^}]*)\}', text):
        found.update(part.strip().split(' as ')[-1] for part in m.group(2).split(','))
    return found


def main():
    texts = {path: open(path, encoding='utf-8').read() for path in files()}
    antt = {path: text for path, text in texts.items() if path.endswith('.antt')}
    own = set().union(*map(defined, antt.values()))
    everywhere = set().union(*(TOKEN.findall('\n'.join(map(code, text.split('\n')))) for text in antt.values()))
    turned = {name: respelled(name) for name in own if respelled(name) != name}
    turned.update(OTHER)
    for name, new in sorted(turned.items()):
        if new in everywhere:
            print(f'look: {name}: {new} stands already')
    for path, text in texts.items():
        std = imported(text)
        names = dict(turned)
        if path.endswith('.antt'):
            for name in bound(text):
                names.setdefault(name, name.replace('-', '_'))
        for name in list(names):
            if name in std:
                del names[name]

        def turn(m):
            return names.get(m.group(0), m.group(0))

        def has_names(line):
            if path.endswith('.rt'):
                return re.match(r'\s*(ghost|requires|ensures)\b', line)
            return ': goal.' not in line

        new = '\n'.join(
            TOKEN.sub(turn, line) if has_names(line) else line
            for line in text.split('\n')
        )
        if new != text:
            open(path, 'w', encoding='utf-8').write(new)
    print(f'{len(turned)} names respelled')


if __name__ == '__main__':
    sys.exit(main())
