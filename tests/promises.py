#!/usr/bin/env python3
"""Every name and file that docs/PROMISES.md gives in backquotes is there, and each row's names are defined where the row says; exit status 1 where one is not."""
import glob
import os
import re
import sys

TOP = os.path.dirname(os.path.dirname(os.path.abspath(__file__)))
CRATES = os.path.join(TOP, 'crates')

# A name as Rattle and antt write it, with at least three letters; other words in backquotes are RL or terms.
NAME = re.compile(r"[A-Za-z][A-Za-z0-9_'-]{2,}")

# RL's words, the language's, and what else stands in backquotes without being a name of the sources.
WORDS = {'SLOT', 'TRUE', 'AND', 'NOT', 'SLOTx', 'unread', 'refused', 'must-fail', 'Debian', 'requires'}

# What opens a definition of antt: a signature, a record, a data type, a field or a constructor; and an item of Rattle.
SIGNATURE = re.compile(r'^ *(?:(?:unfoldable|abbrev|pub|record|data) +)*([^\s:(){}=]+(?: +[^\s:(){}=]+)*?)(?: +[({][^=\n]*?)? :\s', re.M)
ITEM = re.compile(r'\b(?:fn|struct|enum|const|type)\s+([A-Za-z_][A-Za-z0-9_]*)')


def read(path):
    with open(path, encoding='utf-8') as file:
        return file.read()


def source(path):
    """The text of a source without its comments."""
    return re.sub(r'^\s*(--|//).*$', '', read(path), flags=re.M)


def defined(path):
    """The names that a source defines; a function also in the folder of its proof, and a must-fail edit by its file's name."""
    if path.endswith('.edit'):
        return {os.path.basename(path)[:-len('.edit')]}
    if path.endswith('.rt'):
        return set(ITEM.findall(source(path)))
    if path.endswith('.antt'):
        names = {name for group in SIGNATURE.findall(source(path)) for name in group.split()}
        return names | set(os.path.relpath(path, CRATES).split(os.sep)[2:-1])
    return set()


def files_at(word):
    """The files of a path, below a crate or the repository: a file, all of a folder, those that `*` stands for; an edit's ending may be left out."""
    for top in (CRATES, TOP):
        for path in glob.glob(os.path.join(top, word)) + glob.glob(os.path.join(top, word + '.edit')):
            if os.path.isdir(path):
                yield from (os.path.join(folder, name) for folder, _, names in os.walk(path) for name in names)
            else:
                yield path


def modules_of(crates, word):
    """The files of a module, by its name alone, in some crates."""
    return [path for crate in crates for part in ('specs', 'specs/inner', 'proofs') for path in files_at(f'{crate}/{part}/{word}.antt')]


def quoted(text):
    """The words in backquotes, the paths among them apart, and the names that stand alone, not in a term."""
    paths, words, names = [], [], []
    for span in re.findall(r'`([^`]+)`', text):
        alone = not re.search(r'[≡×=(.&"]', span)
        for word in span.split():
            if '/' in word:
                paths.append(word)
            else:
                found = [name for name in NAME.findall(word.replace('::', ' ')) if name not in WORDS]
                words += found
                names += found[-1:] if alone else []
    return paths, words, names


def crates_in(text):
    """The crates that a text names: by a path, in backquotes or in brackets."""
    paths, words, _ = quoted(text)
    bare = re.findall(r'\b[a-z_]+\b', ' '.join(re.findall(r'\(([^)]*)\)', re.sub(r'`[^`]*`', '', text))))
    return {word for word in [path.split('/')[0] for path in paths] + words + bare if os.path.isdir(os.path.join(CRATES, word))}


def folder_of(word):
    """A crate by its name, or nothing."""
    return word if os.path.isdir(os.path.join(CRATES, word)) else None


def files_in(text, crates):
    """The files that a text names: by path, by module of some crates, by crate, whose definitions and code are meant."""
    found = [path for word in quoted(text)[0] for path in files_at(word)]
    bare = re.sub(r'`[^`]*`', '', text)
    for word in re.findall(r'\b[A-Z][A-Za-z0-9]+\b', bare):
        found += next(filter(None, (modules_of(owners, word) for owners in crates)), [])
    for word in filter(folder_of, re.findall(r'\b[a-z_]+\b', bare)):
        found += [*files_at(f'{word}/specs'), *files_at(f'{word}/src')]
    return found


def held_by(files):
    """The names that some files define, and their modules."""
    return set().union(*(defined(path) for path in files)) | {os.path.basename(path).split('.')[0] for path in files}


def misplaced(titles, cells, section):
    """The names of a row that stand in none of its files. A theorem or contract stands in a file of the last column or of brackets; a definition in that of the brackets after it, or else in a .antt file of those or in the specs of a crate that the row or its section names."""
    crates, named = section
    row = ' | '.join(cells)
    owners = crates_in(row) | set(filter(folder_of, re.findall(r'\b[a-z_]+\b', re.sub(r'`[^`]*`', '', cells[-1]))))
    brackets = re.findall(r'\(([^()]*)\)', ' '.join(cells[1:]))
    files = named + files_in(cells[-1], (crates, owners)) + [path for text in brackets for path in files_in(text, (crates, owners))]
    files += [path for word in quoted(row)[0] for path in files_at(word)]
    crates_named = set(os.listdir(CRATES))
    anywhere = held_by(files) | crates_named
    # A function and the definition that it meets may have one name.
    told = held_by([path for path in files if path.endswith('.antt')]) | crates_named
    specs = held_by([path for crate in owners | crates for path in files_at(f'{crate}/specs')])
    for title, cell in list(zip(titles, cells))[1:-1]:
        rest = cell
        if title == 'definition':
            for before, bracket in re.findall(r'([^()]*)\(([^()]*)\)', cell):
                of_bracket = files_in(bracket, (crates, owners))
                if of_bracket:
                    yield from (name for name in quoted(before)[2] if name not in held_by(of_bracket))
                    rest = rest.replace(f'{before}({bracket})', '')
        allowed = told | specs if title == 'definition' else anywhere
        yield from (name for name in quoted(rest)[2] if name not in allowed)


def rows(text):
    """The rows of the tables whose last column is the file, by the titles of their columns; each with the crates and the files that its section names before its first table."""
    for part in re.split(r'^## ', text, flags=re.M)[1:]:
        head = part.split('\n|')[0]
        section = crates_in(head), [path for word in quoted(head)[0] if word.endswith('.antt') for path in files_at(word)]
        for table in re.findall(r'(?:^\|.*\|\n)+', part, re.M):
            lines = [[cell.replace('\0', '|').strip() for cell in line[1:-1].replace('\\|', '\0').split('|')] for line in table.splitlines()]
            if lines[0][-1] == 'file':
                for cells in lines[2:]:
                    yield lines[0], cells, section


def main():
    text = read(os.path.join(TOP, 'docs/PROMISES.md'))
    wrong = []
    sources = [os.path.join(folder, name) for folder, _, names in os.walk(CRATES) if 'out' not in os.path.relpath(folder, CRATES).split(os.sep) for name in names if name.endswith(('.rt', '.antt', '.edit'))]
    known = set(os.listdir(CRATES)).union(*(NAME.findall(source(path)) for path in sources)).union(*(defined(path) for path in sources if path.endswith('.edit')))
    paths, words, _ = quoted(text)
    wrong += [f'names {path}, which is not there' for path in paths if not list(files_at(path))]
    wrong += [f'names {word}, which is not there' for word in words if word not in known]

    for titles, cells, section in rows(text):
        wrong += [f"says of {name}, in the row '{cells[0][:60]}', no file that defines it" for name in misplaced(titles, cells, section)]

    # Every table has its titles: no blank line stands between its rows.
    wrong += [f"has rows without titles from '{table[:40]}' on" for table in re.findall(r'(?<=\n\n)\|.*\n(?!\|---)', text)]
    for line in dict.fromkeys(wrong):
        print(f'docs/PROMISES.md {line}')
    return 1 if wrong else 0


if __name__ == '__main__':
    sys.exit(main())
