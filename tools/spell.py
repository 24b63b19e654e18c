#!/usr/bin/env python3
"""Brings the words and lemmas of specs/ and proofs/ to one spelling: snake case, as Rattle's own words have it.

usage: python3 tools/spell.py        at the top of the repository, once, after the kit's own script

Turned are the names that files of specs/ and proofs/ declare at their top or as fields, in these files, in the clauses and
`ghost use` lines of src/, in must-fail edits, and in the backquotes of README.md and docs/. Names of the kit, what it generates,
functions of src/, strings and types keep theirs. A lemma whose name would fall together with a definition's gets `_law` after it.
"""

import collections
import os
import re
import subprocess
import sys

OWN = set('digits text record motor drive pulses line form reader table orders status replies commands obeying urqolina laws cases '
          'jobs running script bench doubles steps lists scanlist'.split())

# Lemmas that would fall together with a definition, a field that they are the proof of, or a word of the kit.
LAWS = set('''at_rest changed-by digit_at drive-bytes limit-bytes rest-bytes setting-bytes speed-bytes driving-judged standing-judged
fields_made got-made got-if first-fault fresh-made fresh-refused fresh-motor goes_on head-left head-set in-range last-tick never-six
no-drive on-card one_way ones-in place-bytes place-written rate-fault tick-count way-allowed whole-double word-bytes'''.split())

# Records whose fields have such a name; there it is the field's.
FIELDS = {'crates/pulses/proofs/LastTick.antt', 'crates/table/proofs/HeadLaws.antt'}

TOKEN = re.compile(r"(?<![A-Za-z0-9_'-])[A-Za-z_][A-Za-z0-9_]*(?:-[A-Za-z0-9_]+)*'*")
DECLARED = re.compile(r"^[ \t]*(?:(?:pub|abbrev|unfoldable|opaque)[ \t]+)*([A-Za-z_][A-Za-z0-9_'-]*)[ \t]*(?:\{[^}]*\}[ \t]*)?:(?!=)([^\n]*)", re.M)
USE = re.compile(r'use\s+([A-Za-z0-9_.+]+)\.\{([^}]*)\}')


def odd(name):
    return name[0].islower() and ('-' in name or re.search(r'[a-z0-9][A-Z]', name)) or name in LAWS


def snake(name):
    return re.sub(r'([a-z0-9])([A-Z]+)', lambda m: m.group(1) + '_' + m.group(2).lower(), name.replace('-', '_'))


def bare(text):
    return re.sub(r'--[^\n]*', '', text)


def read(path):
    with open(path, encoding='utf-8') as f:
        return f.read()


def write(path, text):
    with open(path, 'w', encoding='utf-8') as f:
        f.write(text)


def from_kit(text):
    names = set()
    for m in USE.finditer(text):
        parts = m.group(1).split('.')
        if not (parts[0] == 'Rattle' and len(parts) > 1 and parts[1] in OWN):
            names |= {n.strip().split(' ')[0] for n in m.group(2).split(',')}
    return names


def turner(declared, kept, fields):
    def turn(m):
        name, before = m.group(0), m.string[m.start() - 1:m.start()]
        if name in kept or name not in declared:
            return name
        if name in LAWS and before != '.' and not fields:
            return snake(name) + '_law'
        return snake(name)
    return turn


def outside_strings(text, turn):
    """Turns what stands outside strings."""
    return ''.join(part if i % 2 else TOKEN.sub(turn, part) for i, part in enumerate(re.split(r'("(?:[^"\\\n]|\\.)*")', text)))


def source(text, turn):
    """Turns the clauses and the `ghost use` lines of a source file, and the backquotes of its comments."""
    lines, deep = [], 0
    for line in text.split('\n'):
        if deep or re.match(r'\s*(ghost|requires|ensures)\b', line):
            line = outside_strings(line, turn)
            deep = max(0, deep + line.count('{') - line.count('}'))
        elif re.match(r'\s*//', line):
            line = quoted(line, turn)
        lines.append(line)
    return '\n'.join(lines)


def quoted(text, turn):
    return re.sub(r'`[^`\n]+`', lambda m: TOKEN.sub(turn, m.group(0)), text)


def main():
    listed = subprocess.run(['git', 'ls-files', '-co', '--exclude-standard'], capture_output=True, text=True, check=True).stdout.split('\n')
    listed = [f for f in listed if f and os.path.isfile(f)]
    antt = [f for f in listed if f.startswith('crates/') and f.endswith('.antt')]
    declared = set()
    for f in antt:
        for m in DECLARED.finditer(bare(read(f))):
            if odd(m.group(1)) and 'tie.' not in m.group(2):
                declared.add(m.group(1))
    made = collections.defaultdict(set)
    for name in declared:
        made[snake(name) + ('_law' if name in LAWS else '')].add(name)
    for name, olds in sorted(made.items()):
        if len(olds) > 1:
            print('together:', name, *sorted(olds))
    for f in listed:
        if f.startswith('crates/') and f.endswith('.antt'):
            text = read(f)
            new = outside_strings(text, turner(declared, from_kit(bare(text)), f in FIELDS))
        elif f.startswith('crates/') and f.endswith('.rt'):
            text = read(f)
            new = source(text, turner(declared, from_kit(text), False))
        elif f.startswith('crates/') and f.endswith('.edit'):
            text = read(f)
            new = outside_strings(text, turner(declared, set(), False))
        elif f.endswith('.md'):
            text = read(f)
            new = quoted(text, turner(declared, set(), False))
        else:
            continue
        if new != text:
            write(f, new)
    print(len(declared), 'names turned')


if __name__ == '__main__':
    sys.exit(main())
