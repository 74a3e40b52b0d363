#!/usr/bin/env python3
"""Brings the definitions and lemmas of specs/ and proofs/ to one spelling.

A word stands in snake case, a fact (what answers a `Type`) in camel case, and a dash joins two definitions alone, as in
`plus-minus`. Functions of src/, strings, inputs and outputs keep their names. Run once, at the top of the repository; a second
run changes nothing.
"""
import collections
import glob
import os
import re
import sys

# facts that were spelled as words, and words that would fall together with a function of src/
GIVEN = {
    'by_number': 'ByNumber', 'ranked': 'ByRank', 'kilograms-first': 'KilogramsFirst', 'no-dearer': 'NoDearer',
    'two-shut': 'two_shut', 'two-legs': 'two_legs', 'three-legs': 'three_legs',
    'cost-of': 'cost_of_timing', 'centsWords': 'words_of_cents', 'kilogramsWords': 'words_of_kilograms',
    'faultWords': 'words_of_fault', 'refusalWords': 'words_of_refusal', 'lastMinute': 'last_minute_of',
}
# words of std that a lemma's name may begin with
STD = {'length', 'take', 'drop', 'replicate', 'set'}
TOKEN = re.compile(r"[^\s(){}\[\];,.⌜⌝⟦⟧|`]+")
HEAD = re.compile(r'^\s*((?:(?:abbrev|unfoldable|pub|data|record)\s+)*)([^\s:(){}=,;.|↦λ]+)((?:\s+(?:\([^()]*\)|\{[^{}]*\}))*)\s*:\s(.*)$')


def snake(name):
    return re.sub(r'(?<=[a-z0-9])([A-Z])', lambda m: '_' + m.group(1).lower(), name)


def antt_files():
    return sorted(glob.glob('crates/*/specs/*.antt') + glob.glob('crates/*/proofs/**/*.antt', recursive=True))


def defined():
    """The names that specs/ and proofs/ define: all of them, and those that are no lemmas."""
    names, words = set(), set()
    for path in antt_files():
        for line in open(path, encoding='utf8'):
            if line.lstrip().startswith('--'):
                continue
            found = HEAD.match(line)
            if not found or 'goal.' in found.group(4):
                continue
            names.add(found.group(2))
            if re.search(r'abbrev|unfoldable', found.group(1)):
                words.add(found.group(2))
    return names, words


def imported():
    """Names that some file takes from a library: those stay as they are."""
    names = set()
    for path in antt_files() + glob.glob('crates/*/src/**/*.rt', recursive=True):
        text = open(path, encoding='utf8').read()
        for module, listed in re.findall(r'use ((?:Rattle\.std|borrow|denote|Prim|logic)[^{;\n]*)\.\{([^}]*)\}', text):
            names |= {part.split(' as ')[0].strip() for part in listed.split(',')}
    return names


def spelled(name, words):
    if name in GIVEN:
        return GIVEN[name]
    if name[0].isupper():
        return name.replace('-', '_') if '-' in name else name
    parts = name.split('-')
    joint = '-' if len(parts) == 2 and all(p in words or p in STD for p in parts) else '_'
    return joint.join(snake(p) for p in parts)


def main():
    names, words = defined()
    table = {n: spelled(n, words) for n in names - imported()}
    table = {old: new for old, new in table.items() if old != new}
    together = collections.Counter(list(table.values()) + [n for n in names if n not in table])
    for new, times in together.items():
        if times > 1:
            print('falls together:', new, [o for o in table if table[o] == new], file=sys.stderr)
    paths = antt_files() + glob.glob('crates/*/src/**/*.rt', recursive=True) + glob.glob('crates/*/must-fail/*.edit')
    for path in paths + glob.glob('docs/*.md') + ['README.md']:
        text = open(path, encoding='utf8').read()
        lines = text.split('\n')
        for at, line in enumerate(lines):
            if path.endswith('.antt') and line.lstrip().startswith('--'):
                continue
            if path.endswith('.rt') and re.match(r'\s*//', line):
                continue

            def turn(m):
                word = m.group(0)
                if word not in table:
                    return word
                if word == 'ranked':
                    before, after = line[m.start() - 1:m.start()], line[m.end():m.end() + 1]
                    if before == '.' or after == '.' or path.endswith('.md') or not (path.endswith('.antt') or 'ghost' in line):
                        return word
                return table[word]

            if path.endswith('.md'):
                lines[at] = re.sub(r'`[^`]*`', lambda code: TOKEN.sub(lambda m: table.get(m.group(0), m.group(0)) if m.group(0) != 'ranked' else 'ranked', code.group(0)), line)
            else:
                lines[at] = TOKEN.sub(turn, line)
        if '\n'.join(lines) != text:
            open(path, 'w', encoding='utf8').write('\n'.join(lines))
    for old in sorted(table):
        print(old, table[old])


if __name__ == '__main__':
    main()
