#!/usr/bin/env python3
"""Counts, in the code of the crates, the places that docs/DESIGN-PASS.md speaks of.

  docs/places.py            in the files as they stand
  docs/places.py COMMIT     in the files of a commit
  docs/places.py -l [..]    with the places themselves
"""
import collections
import re
import subprocess
import sys


def sources(commit):
    """The code of each crate, by path, without comments."""
    found = {}
    listed = ['git', 'ls-tree', '-r', '--name-only', commit] if commit else ['git', 'ls-files', '-c', '-o', '--exclude-standard']
    for path in subprocess.run(listed, capture_output=True, text=True, check=True).stdout.split():
        if re.fullmatch(r'crates/\w+/src/.*\.rt', path):
            if commit:
                text = subprocess.run(['git', 'show', f'{commit}:{path}'], capture_output=True, text=True, check=True).stdout
            else:
                with open(path, encoding='utf-8') as file:
                    text = file.read()
            found[path] = re.sub(r'//.*', '', text)
    return found


class Function:
    """A function: its crate, its name, its parameters, what it asks and its body."""

    def __init__(self, path, name, parameters, result, rest):
        self.crate = path.split('/')[1]
        self.name = name
        self.parameters = [p for p in re.split(r',\s*(?![^<\[(]*[>\])])', ' '.join(parameters.split())) if p]
        self.result = result
        begin = rest.find('\n{\n') if '\n{\n' in rest else rest.find(' {\n')
        self.clauses, self.body = rest[:begin], rest[begin:]

    def __str__(self):
        return f'{self.crate}::{self.name}'

    def shape(self):
        """The body with every name of its own and every number made alike."""
        words = {'let', 'mut', 'if', 'else', 'while', 'for', 'in', 'return', 'match', 'usize', 'u8', 'u16', 'bool', 'true', 'false', 'loop', 'continue', 'break'}
        return tuple(w if w in words or not re.match(r"[\w']", w) else 'x' for w in re.findall(r"'?\w+|[^\s\w]", self.body))

    def names(self):
        return [p.split(':')[0].replace('mut ', '').strip() for p in self.parameters]


def functions(files):
    head = re.compile(r'^( *)(?:pub )?(?:extern "C" )?fn (\w+)(?:<(?:[^<>]|<[^<>]*>)*>)?\(((?:[^()]|\([^()]*\))*)\)(?: -> ([^\n{]+?))?(?= \{\n|\n)', re.M)
    for path, text in files.items():
        for m in head.finditer(text):
            end = text.find('\n' + m[1] + '}', m.start())
            yield Function(path, m[2], m[3], (m[4] or '').strip(), text[m.end():end])


def lines(files, pattern):
    return [f'{path}: {line.strip()}' for path, text in files.items() for line in text.split('\n') if re.search(pattern, line)]


def twins(all_functions, least):
    """Functions whose bodies differ in names and numbers alone, those of fewer than so many words aside: each but the first of its like."""
    by = collections.defaultdict(list)
    for f in all_functions:
        if least < len(f.shape()):
            by[f.shape()].append(str(f))
    return [' '.join(like) for like in by.values() if 1 < len(like) for _ in like[1:]]


def asked(all_functions):
    """Facts that three functions or more ask for, each with the functions that do."""
    by = collections.defaultdict(list)
    for f in all_functions:
        for clause in re.findall(r'requires \{(.*?)\}\n', f.clauses + '\n', re.S):
            for fact in re.split(r' × ', clause):
                by[fact.strip(' ()')].append(str(f))
    return [f'{len(users)}: {fact}' for fact, users in sorted(by.items(), key=lambda x: -len(x[1])) if 3 <= len(users)]


def together(all_functions, groups):
    """How many functions have all of some parameters."""
    return [f'{n}: {", ".join(group)}' for group in groups if 3 <= (n := sum(set(group) <= set(f.names()) for f in all_functions))]


def counted(all_functions):
    """Functions that take a buffer and, beside it, how much of it counts."""
    pairs = [('rows', 'n'), ('fired', 'count'), ('counts', 'width'), ('woken', 'left'), ('held', 'n'), ('opens', 'opened'), ('order', 'tail'), ('queue', 'top'), ('ran', 'n')]
    return [f'{f}: {a}, {b}' for f in all_functions for a, b in pairs if {a, b} <= set(f.names())]


def main():
    arguments = [a for a in sys.argv[1:] if a != '-l']
    files = sources(arguments[0] if arguments else None)
    every = list(functions(files))
    counts = [
        ('1 enums with a numbered refusal among their cases', lines(files, r'^    (Refused|Fault)\((u8|usize)(, usize)?\),$')),
        ('1 numbers for kinds: constants', lines(files, r'^(pub )?const [A-Z]+: u8 = \d+;')),
        ('1 numbers for kinds: functions that give one', [str(f) for f in every if f.result == 'u8' and f.name not in ('byte', 'digit', 'bit_at', 'byte_at', 'number')]),
        ('1 refusals by number in the code', lines(files, r'(?<![-\d.])\b(Refused|refused\w*|refuse|Fault|NamedFault)\((\w+, )?(1[0-8]|2[0-8]|3[0-4]|4[0-4])\b|return (1[0-8]|2[5-8]|4[124]);$')),
        ('1 a flag with a value beside it', lines(files, r'code: &mut u8|^    pub (passed|clash): bool|^    passed: bool')),
        ('2 functions that differ in names and numbers alone', twins(every, 45)),
        ('2 arrays of one of three sizes, set aside three times over', lines(files, r'^\s+let mut .*; SOME\w*\];$')),
        ('3 loops that count an index by hand', lines(files, r"^\s*('\w+: )?while ")),
        ('3 loops by `for`', lines(files, r"^\s*('\w+: )?for ")),
        ('4 conversion by hand: functions', [str(f) for f in every if re.fullmatch(r'wide|number|byte|double|pair|refusal_of|second_of|\w+_numbers|numbered|word_or|same_bytes|reserved_number', f.name)]),
        ('4 derives', lines(files, r'#\[derive\(')),
        ('5 facts that three functions or more ask for', asked(every)),
        ('5 parameters that travel together through three functions or more', together(every, [('rest', 'classes'), ('text', 'rest', 'classes', 'slotspans', 'valuespans'), ('text', 'slotspans', 'valuespans'), ('out', 'at'), ('renewed', 'changes', 'fired'), ('heads', 'nexts', 'woken', 'left'), ('positive', 'negative', 'truth'), ('width', 'counts'), ('rows', 'n'), ('opens', 'mark', 'opened')])),
        ('6 a buffer with its length beside it', counted(every)),
        ('7 a switch on which step to run', lines(files, r'match (way|limits)\b|let Way::')),
    ]
    for what, places in counts:
        print(f'{len(places):5}  {what}')
        if '-l' in sys.argv[1:]:
            for place in places:
                print(f'         {place}')


if __name__ == '__main__':
    main()
