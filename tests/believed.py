#!/usr/bin/env python3
"""What a reader must believe stands in specs/, apart from specs/inner/: all that the definitions of promises/specs, those outside specs/inner/ that docs/PROMISES.md names, and the contracts of the entry points are made of, nothing else, and no name twice; exit status 1 where it is not so."""
import os
import re
import sys

from entry_points import ENTRY_POINTS, contract_of
from promises import quoted, rows

TOP = os.path.dirname(os.path.dirname(os.path.abspath(__file__)))
CRATES = os.path.join(TOP, 'crates')

# A word of antt; what stands before a dot is a module or a value.
WORD = re.compile(r'(?:([^\s(){}.;,@"«»]+)\.)?([^\s(){}.;,@"«»]+)')
IMPORT = re.compile(r'^ *(?:(?:pub|ghost) )*use [^{;\n]*(?:\{[^}]*\})?;?\n', re.M)
USE = re.compile(r'^ *(?:(?:pub|ghost) )*use Rattle\.(\w+)\.specs\.([\w.]+?)(?:\.\{([^}]*)\}| as (\S+?))?;?$', re.M)
OPENS = re.compile(r'^( *)(?:(?:unfoldable|abbrev|pub) )*(record |data )?([^\s:(){}=]+)(?: [({].*?)? :\s')


def read(path):
    with open(path, encoding='utf-8') as file:
        return re.sub(r'^\s*(--|//).*\n', '', file.read(), flags=re.M)


def words_of(name):
    """A name and, of an operator, its parts."""
    return [name] + [part for part in name.split('◌') if part and '◌' in name]


def scope(text):
    """What the words of a file mean by its `use` lines: by name, and by alias."""
    names, aliases = {}, {}
    for crate, module, items, alias in USE.findall(text):
        for item in filter(None, re.split(r'[\s,]*,\s*', items.strip())):
            name, _, other = item.partition(' as ')
            for word in words_of(other or name):
                names[word] = (crate, module, name)
        if alias:
            aliases[alias] = (crate, module)
    return names, aliases


def definitions(text):
    """The definitions of a module, each with its text; a constructor is a name of its type's. And those of its names that are constructors."""
    found, owner, made = {}, {}, set()
    current, kind, edge, around = None, None, 0, ''
    for line in IMPORT.sub('', text).split('\n'):
        indent = len(line) - len(line.lstrip())
        if re.match(r'infix', line.lstrip()):
            continue
        if line.startswith('module _'):
            around = line
        opened = OPENS.match(line)
        if kind and line.strip() and indent <= edge:
            kind = None
        if opened and kind is None and indent in (0, 2):
            current, edge = opened[3], indent
            kind = opened[2]
            found[current] = around
            owner[current] = current
        elif kind == 'data ' and indent == edge + 2 and ' : ' in line:
            for name in line.split(' : ')[0].split():
                owner[name] = current
                made.add(name)
        if current:
            found[current] += '\n' + line
    return found, owner, made


def specs():
    """Every module of specs/ by crate and name, with its text; Lib.antt and its like only list the others."""
    modules = {}
    for crate in sorted(os.listdir(CRATES)):
        top = os.path.join(CRATES, crate, 'specs')
        for folder, _, files in os.walk(top):
            for file in sorted(files):
                path = os.path.join(folder, file)
                text = read(path)
                if file.endswith('.antt') and not re.fullmatch(r'(?:\s*pub mod \S+)*\s*', text):
                    modules[crate, os.path.relpath(path, top)[:-len('.antt')].replace('/', '.')] = text
    return modules


class Sources:
    """The definitions of all crates, and what each is made of."""

    def __init__(self):
        self.texts = specs()
        self.parts = {where: definitions(text) for where, text in self.texts.items()}
        self.scopes = {where: scope(text) for where, text in self.texts.items()}

    def meant(self, text, names, aliases, own=None):
        """The definitions that a text names."""
        for before, word in WORD.findall(re.sub(r'"[^"]*"', '', text)):
            if before in aliases:
                where, name = aliases[before], word
            elif before:
                continue
            elif own and word in self.parts[own][1]:
                where, name = own, word
            elif own and f'◌{word}◌' in self.parts[own][1]:
                where, name = own, f'◌{word}◌'
            elif word in names:
                crate, module, name = names[word]
                where = crate, module
            else:
                continue
            if where in self.parts and name in self.parts[where][1]:
                yield where, self.parts[where][1][name]

    def roots(self):
        """The definitions of promises/specs, those that the rows of docs/PROMISES.md go by, and those that the contracts of the entry points name."""
        with open(os.path.join(TOP, 'docs/PROMISES.md'), encoding='utf-8') as file:
            told = {name for titles, cells, _ in rows(file.read()) for title, cell in zip(titles, cells) if title == 'definition' for name in quoted(cell)[1]}
        for where, (found, owner, _) in self.parts.items():
            if not inner(where):
                yield from ((where, name) for name in found if where[0] == 'promises' or name in told)
        for crate, functions in ENTRY_POINTS.items():
            text = read(os.path.join(CRATES, crate, 'src/lib.rt'))
            names, aliases = scope(text)
            for function in functions:
                yield from self.meant(contract_of(text, function), names, aliases)

    def believed(self):
        """All that the roots are made of."""
        found, left = set(), list(self.roots())
        while left:
            at = left.pop()
            if at not in found:
                found.add(at)
                where, name = at
                left += self.meant(self.parts[where][0][name], *self.scopes[where], own=where)
        return found


def inner(where):
    return where[1].startswith('inner.')


def place(where):
    return f'{where[0]}/specs/{where[1].replace(".", "/")}.antt'


def main():
    sources = Sources()
    believed = sources.believed()
    wrong = []
    for where, (found, owner, made) in sources.parts.items():
        if inner(where):
            wrong += [f'{place(where)}: {name} is believed' for name in found if (where, name) in believed]
        else:
            wrong += [f'{place(where)}: {name} is no part of a promise' for name in found if (where, name) not in believed]
            names, aliases = sources.scopes[where]
            used = {value[:2] for value in names.values()} | set(aliases.values())
            wrong += [f'{place(where)} uses {place(other)}' for other in sorted(used) if inner(other)]
    first = {}
    for where, (found, owner, made) in sources.parts.items():
        for name in owner:
            other = first.setdefault(name, where)
            if other != where and not (name in made and name in sources.parts[other][2]):
                wrong.append(f'{place(where)}: {name} is also a name of {place(other)}')
    for line in wrong:
        print(line)
    return 1 if wrong else 0


if __name__ == '__main__':
    sys.exit(main())
