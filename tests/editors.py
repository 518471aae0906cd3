#!/usr/bin/env python3
"""The examples of the editors' guide, run by the program, or by the desk in C where they are for the response by marks: each must get the refusal in whose row it stands; every refusal must have its row, the commands of the desk print what they are said to, the rules that withdraw a dating, those that wake each other and those that 18 refuses do as the guide says, the guide's listings be those of examples/dialect, examples/withdrawn and examples/marks, its card and slip that withdraw a dating those of examples/withdrawn, and its file in the house style the print of the file before it.

  tests/editors.py   needs target/bin/rl, target/lib/librl.so.1, which ./build makes, and target/examples/desk-c, which examples/run makes; exit status 1 where an example comes to something else
"""
import json
import os
import re
import subprocess
import sys
import tempfile

import print_cases

TOP = os.path.dirname(os.path.dirname(os.path.abspath(__file__)))
SLOTS = b'SLOT dating {before-1900, from-1900};\nSLOT status {current, obsolete};\n'
CARD, SLIP, EDITOR = bytes.fromhex('08 04'), bytes.fromhex('04 02'), bytes.fromhex('07')
PROGRAM = [os.path.join(TOP, 'target/bin/rl')]
BY_MARKS = [os.path.join(TOP, 'target/examples/desk-c'), '.', 'marks']


def examples(guide):
    """The number of each row with an example in code, and the four files that it makes."""
    for row in re.findall(r'^\| (\d\d) \|(.*)\|$', guide, re.M):
        cells = [cell.strip().replace('\\|', '|') for cell in re.split(r'(?<!\\)\|', row[1])]
        found = re.fullmatch(r'(card |slip |editor |)`(.*)`', cells[1])
        if found and found[1] == 'card ':
            yield row[0], (SLOTS, bytes.fromhex(found[2]), SLIP, EDITOR)
        elif found and found[1] == 'slip ':
            yield row[0], (SLOTS, CARD, bytes.fromhex(found[2]), EDITOR)
        elif found and found[1] == 'editor ':
            yield row[0], (SLOTS, CARD, SLIP, bytes.fromhex(found[2]))
        elif found:
            yield row[0], (SLOTS + found[2].encode(), CARD, SLIP, EDITOR)


def printed(files, program=PROGRAM):
    """What a program prints for four files; the desk ends with status 1 where something is refused."""
    with tempfile.TemporaryDirectory() as folder:
        for name, content in zip(('rules.txt', 'card.bin', 'slip.bin', 'editor.bin'), files):
            with open(os.path.join(folder, name), 'wb') as file:
                file.write(content)
        return subprocess.run(program, cwd=folder, capture_output=True, check=program == PROGRAM).stdout.decode()


def section(guide, name):
    """The blocks of indented lines in a section."""
    return blocks(guide.split(f'## {name}\n')[1].split('\n## ')[0])


def waking(guide):
    """Of the two files on rules that wake each other: the files that each slip or the circle makes, and how the listing begins."""
    plain, under_not = ['\n'.join(block).encode() for block in section(guide, 'Rules that wake each other')]
    slots = plain[:plain.index(b'WHEN')]
    card = bytes.fromhex('0C 00 00')
    for slip, state in (('04 02', 'fired'), ('04 22', 'fired'), ('04 44', 'idle')):
        yield (plain, card, bytes.fromhex(slip), EDITOR), f'rule 1 stratum 1 {state}\nrule 2 stratum 1 {state}\n'
    yield (slots + under_not, card, bytes.fromhex('04 02'), EDITOR), 'refused 18 1\n'


def withdrawing(guide):
    """Of the file on withdrawals: the files that other cards and slips make than those of its example, and the whole listing."""
    rules = '\n'.join(section(guide, 'How to withdraw a dating')[0]).encode()
    idle = ''.join(f'rule {rule} stratum {stratum} idle\n' for rule, stratum in ((1, 1), (2, 1), (3, 1), (4, 2)))
    undated = idle + f'change first-attested NONE\ncard 10044C\ntally {EDITOR[0]} 1 0\n'
    yield (rules, bytes.fromhex('10 04 4C'), bytes.fromhex('04 00'), EDITOR), undated
    yield (rules, bytes.fromhex('10 44 4C'), bytes.fromhex('08 00 22'), EDITOR), 'refused 40 2\n'


def withdrawn():
    """The card and the slip of examples/withdrawn as the guide gives them."""
    for name, said in (('card', 'The card is'), ('slip', 'The slip of editor 5 is')):
        with open(os.path.join(TOP, 'examples', 'withdrawn', f'{name}.bin'), 'rb') as file:
            yield f'{said} `{file.read().hex(" ").upper()}`, '


def by_marks(guide):
    """By marks: the files that the guide tells of, and how the desk's listing ends."""
    rules = '\n'.join(section(guide, 'Files that 18 refuses')[0]).encode()
    answered = f'rules fired 2\ntally {EDITOR[0]} 1 0\n'
    for card, slip, changes, fired in (
            ('10 4C 4C', '08 06 22', ('status obsolete', 'place appendix', 'page proof'), (2, 4)),
            ('10 4C 4C', '08 06 12', ('status obsolete', 'label dated', 'page proof'), (1, 3)),
            ('10 4C 4C', '08 06 13', ('status obsolete', 'label local', 'place appendix', 'page proof'), (2, 4)),
            ('10 4C 8C', '04 06', ('status obsolete', 'label dated', 'page proof'), (1, 3))):
        lines = ''.join(f'change {change}\n' for change in changes) + ''.join(f'fired {rule}\n' for rule in fired)
        yield (rules, bytes.fromhex(card), bytes.fromhex(slip), EDITOR), lines + answered
    yield (rules, bytes.fromhex('10 4C 4C'), bytes.fromhex('04 06'), EDITOR), '\nrefused 42 0\n'
    for (files, begins), ends in zip(waking(guide), ('\n' + answered, '\n' + answered, '\nrefused 42 0\n')):
        yield files, ends


def fired(rules, words):
    """The rules that fire by the command desk, on the card and the slip of these words."""
    with tempfile.TemporaryDirectory() as folder:
        put(folder, 'rules.txt', rules)
        for kind, word in words.items():
            desk(folder, kind, 'rules.txt', word, '-o', f'{kind}.bin')
        return [one['rule'] for one in json.loads(desk(folder, 'respond', '--json', 'rules.txt', 'card.bin', 'slip.bin'))['fired']]


def put(folder, name, text):
    """Writes a file of a folder."""
    with open(os.path.join(folder, name), 'w', encoding='ascii') as file:
        file.write(text)


def desk(folder, *words):
    """What the command desk prints in a folder, messages too."""
    ran = subprocess.run([sys.executable, '-m', 'desk', *words], cwd=folder, env=dict(os.environ, PYTHONPATH=TOP), stdout=subprocess.PIPE, stderr=subprocess.STDOUT, check=False)
    return ran.stdout.decode()


def run_and_seen(guide):
    """Of the section on what to run: what the guide says that each command prints, and what it prints."""
    rules, *sessions = section(guide, 'What to run, and what you see')
    rules = '\n'.join(rules) + '\n'
    with tempfile.TemporaryDirectory() as folder:
        put(folder, 'rules.txt', rules)
        put(folder, 'faulty.txt', rules.replace('IF status |= current ', ''))
        for part in re.split(r'^\$ desk ', '\n'.join(line for session in sessions for line in session) + '\n', flags=re.M)[1:]:
            command, _, said = part.partition('\n')
            yield command, said, desk(folder, *command.split())


def in_vain(guide):
    """Of the section on what |= asks: the rules that fire by the file as it is and as it was meant, and those that should."""
    wrong, meant = section(guide, '`|=` asks the card before the slip')
    words = {'card': 'status=current', 'slip': 'dating=before-1900'}
    yield fired('\n'.join(wrong), words), [1]
    yield fired('\n'.join(wrong[:-1] + meant), words), [1, 2]


def blocks(part):
    """The blocks of indented lines."""
    return [[line[4:] for line in block.split('\n')] for block in part.split('\n\n') if block.startswith('    ')]


def main():
    guide = print_cases.guide()
    indented = {}
    for name in ('dialect/expected', 'withdrawn/rules.txt', 'withdrawn/expected', 'marks/rules.txt', 'marks/desk.txt'):
        with open(os.path.join(TOP, 'examples', name), encoding='utf-8') as file:
            indented[name] = '\n' + ''.join(f'    {line}' for line in file) + '\n'
    wrong, numbers = 0, []
    for number, files in examples(guide):
        numbers.append(int(number))
        shown = printed(files, BY_MARKS if number in ('41', '42') else PROGRAM)
        if not re.search(rf'^refused {number} \d+\n\Z', shown, re.M):
            print(f'the example of {number} comes to {shown!r}')
            wrong = 1
    if numbers != [*range(11, 19), *range(20, 29), 44, 40, 41, 42]:
        print(f'examples stand for {numbers}')
        wrong = 1
    rows = [int(number) for number in re.findall(r'^\| (\d\d) \|', guide, re.M)]
    if rows != [*range(10, 19), 34, *range(20, 29), 44, 32, *range(40, 43), 30, 31, 33]:
        print(f'rows stand for {rows}')
        wrong = 1
    for files, begins in waking(guide):
        if not printed(files).startswith(begins):
            print(f'rules that wake each other come to {printed(files)!r}')
            wrong = 1
    for command, said, shown in run_and_seen(guide):
        if said != shown:
            print(f'desk {command} prints {shown!r}')
            wrong = 1
    for shown, owed in in_vain(guide):
        if shown != owed:
            print(f'of the rules on what |= asks {shown} fire')
            wrong = 1
    for files, listing in withdrawing(guide):
        if printed(files) != listing:
            print(f'a withdrawal comes to {printed(files)!r}')
            wrong = 1
    for files, ends in by_marks(guide):
        if not printed(files, BY_MARKS).endswith(ends):
            print(f'by marks an example comes to {printed(files, BY_MARKS)!r}')
            wrong = 1
    before, after = print_cases.guided()
    if b''.join(print_cases.printed(before, print_cases.PRINT_BYTES)) != after:
        print('the file in the house style is not the print of the one before it')
        wrong = 1
    if not printed((SLOTS, CARD, SLIP, EDITOR)).startswith('change dating before-1900\n'):
        print('the card and the slip of the guide get no answer')
        wrong = 1
    for said in withdrawn():
        if said not in guide:
            print(f'{said!r} is not in the guide')
            wrong = 1
    for name, lines in indented.items():
        if lines not in guide:
            print(f'examples/{name} is not in the guide')
            wrong = 1
    return wrong


if __name__ == '__main__':
    sys.exit(main())
