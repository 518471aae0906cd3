#!/usr/bin/env python3
"""The stored prints, and what they should be, by a printer of its own made from sections 1, 6 and 7 of document 02 over the reading of read_cases.py.

  tests/print_cases.py          writes tests/stored/prints/input and expected, and print.txt of the examples
  tests/print_cases.py --check  says whether they are what it would write; exit status 1 where they are not

A case is (text, room), the text whole or in parts as in stored.py. An output has 16 bytes
more than are lent; `kept` says how many beyond the print are as they were. Equal neighbours among the lines of a print stand once, after
how many they are.
"""
import os
import random
import re
import sys
from itertools import groupby

from read_cases import RULE, XYZ, File, reading, rule, tokens
from stored import run, stored_text, whole

TOP = os.path.dirname(os.path.dirname(os.path.abspath(__file__)))
PRINT_BYTES = 262144
MARGIN = 16


def listed(parts):
    return b'{ ' + b', '.join(parts) + b' }'


def styled(file):
    """The lines of a file that is read."""
    pair = lambda slot, mark, value: b' '.join([file.slots[slot][0], mark, ([b'NONE'] + file.slots[slot][1])[value]])
    lines = [b'SLOT ' + name + b' ' + listed(values) + b';\n' for name, values in file.slots]
    for slot, value, literals, assignments in file.rules:
        tests = [b'NOT ' * negated + pair(tested, b'*=' if becomes else b'|=', to) for becomes, negated, tested, to in literals]
        assigned = [pair(target, b':=', to) for target, to in assignments]
        condition = b' AND '.join(tests) or b'TRUE'
        lines.append(b'WHEN ' + pair(slot, b'*=', value) + b' IF ' + condition + b' THEN ' + (assigned[0] if len(assigned) == 1 else listed(assigned)) + b';\n')
    return lines


def printed(text, room):
    """A print as its lines, or a refusal as its line."""
    outcome = reading(text)[0]
    if outcome.startswith(b'refused'):
        return outcome
    file = File(text)
    file.read()
    lines = styled(file)
    length = sum(map(len, lines))
    return b'refused 34 0' if length > PRINT_BYTES else b'refused 33 0' if length > room else lines


def written(text, room):
    """The lines owed for a case."""
    outcome = printed(text, room)
    if isinstance(outcome, bytes):
        return outcome + b' kept %d\n' % (room + MARGIN)
    length = sum(map(len, outcome))
    counted = [b'%d ' % len(list(same)) + line for line, same in groupby(outcome)]
    return b'printed %d kept %d\n' % (length, room + MARGIN - length) + b''.join(counted)


def example(name):
    """The rules of an example's folder."""
    with open(os.path.join(TOP, 'examples', name, 'rules.txt'), 'rb') as file:
        return file.read()


def guide():
    """The editors' guide."""
    with open(os.path.join(TOP, 'docs/EDITORS.md'), encoding='utf-8') as file:
        return file.read()


def guided():
    """The file of the guide's section on the house style, and what it is said to print as."""
    section = guide().split('\n## The house style\n')[1].split('\n## ')[0]
    before, after = re.findall(r'(?:^    .*\n|^\n(?=    ))+', section, re.M)
    return [re.sub(r'^    ', '', block, flags=re.M).lstrip('\n').encode() for block in (before, after)]


def lettered():
    """The rules of cases A to L: F and K and L have those of C, G those of A."""
    a, b, c = b'WHEN x *= 1 IF y |= 0 THEN z := 1;', b'WHEN z *= 1 IF y |= 0 THEN y := 1;', b'WHEN z *= 1 IF y |= 0 THEN x := 1;'
    d, e = b'WHEN y *= 1 IF NOT x *= 1 THEN z := 1;', b'WHEN y *= 1 IF x |= 0 THEN x := 1;'
    h = b'WHEN x *= 1 IF TRUE THEN x := 0;'
    i, j = b'WHEN x *= 1 IF TRUE AND y |= 0 THEN z := 1;', b'WHEN x *= 1 IF y |= 0 AND TRUE THEN z := 1;'
    for rules in ([a], [b], [a, b], [a, c], [d, e], [h], [i], [j]):
        yield XYZ + b''.join(rules)


def woken():
    """Rules that wait for each other, by NOTs that cancel and by one that does not."""
    back = b'WHEN x *= 1 IF TRUE THEN z := 1;'
    yield XYZ + back + b'WHEN y *= 1 IF NOT NOT z *= 1 THEN x := 1;'
    yield XYZ + b'WHEN x *= 1 IF TRUE THEN y := 1; WHEN y *= 1 IF NOT z *= 1 THEN x := 1;' + back


# Every form that the print leaves out or spaces anew, in a text with tabs and CR LF.
CANCELLED = b'''SLOT x{0,1};SLOT\ty\r\n{ 0\t,\t1 } ;\r\n\r\n  SLOT z { 0 ,1 , 2};
WHEN x*=1 IF TRUE THEN z:=1;WHEN x*=1 IF TRUE AND y|=0 THEN{z:=1};\r
WHEN x *= 1 IF NOT y|=0 AND NOT NOT y|=1 AND NOT\tNOT\r\nNOT z*=2 THEN { z:=1 , y:=0 } ;
WHEN x *= 0 IF TRUE AND NOT NOT NOT NOT z |= 1 AND z |= 1 AND z |= 1 THEN
{
\ty := 1
}
;
'''

# NONE in each place of a rule, beside names like it.
WITHDRAWN = b'''SLOT x{none,None};SLOT y{NONE-,NONEs};
WHEN x*=NONE IF y|=NONE AND NOT NOT y*=NONE AND NOT x|=none THEN{y:=NONE};
WHEN y*=NONE- IF TRUE THEN y:=NONE; WHEN y *= NONE IF TRUE AND NOT\tNOT NOT y |=NONE THEN { x:=NONE,y\r\n:=NONEs };
'''

# A text of each refusal of the reading, with a second number above 0 where there can be one.
REFUSED = [
    [(4096, b' ' * 64), (1, b' ')], [(1, XYZ), (2000, RULE), (1, b'WHEN')], [(1, XYZ), (2000, RULE), (1, b'(')], rule() + b'(', rule() + b'WHEN x *= 1 THEN', rule() + b'WHEN ' + b'n' * 25, b'SLOT x {a, a};',
    rule() + b'WHEN x *= 1 IF ' + b'y |= 0 AND ' * 8 + b'y', rule() + b'WHEN NONE', b'SLOT x {NONE};', rule() + b'WHEN q', rule() + b'WHEN x *= 1 IF TRUE THEN {y := 1, y',
    XYZ + b'WHEN x *= 1 IF TRUE THEN y := 1; WHEN z *= 1 IF NOT z *= 0 THEN z := 0;',
]


# Fifteen names of 24 bytes.
LONG = [bytes([97 + k]) * 24 for k in range(15)]


def with_rules(count, x, y):
    """The parts of a text whose print has slot lines of 60 and 60, one for x and one for y with these values, and so many rules of 519."""
    s, t, v = b's' * 24, b't' * 24, b'v' * 24
    tests = b' AND '.join([b'NOT ' + s + b'|=' + v] + [s + b'|=' + v] * 6)
    front = b'SLOT ' + s + b'{' + v + b'};SLOT ' + t + b'{' + v + b'};SLOT x{' + b','.join(x) + b'};SLOT y{' + b','.join(y) + b'};'
    return [(1, front), (count, b'WHEN ' + s + b'*=' + v + b' IF ' + tests + b' THEN ' + t + b':=' + v + b';')]


def longest(more):
    """The parts of a text whose print has the greatest length and so many bytes more: slot lines of 60, 60, 401 and 47, and 504 rules of 519."""
    return with_rules(504, LONG, LONG[:1] + [b'z' * (8 + more)])


def two_bytes(more):
    """The parts of a text whose print has 65,535 bytes and so many more: slot lines of 60, 60, 401 and 139, and 125 rules of 519."""
    return with_rules(125, LONG, LONG[:4] + [b'z' * (22 + more)])


def respaced(chance, text):
    """A text with other white space, NOTs in pairs before some literals, and what cancels as it was."""
    spaced, last = b'', b''
    for _, part, _ in tokens(text):
        if last in (b'IF', b'AND') and part != b'TRUE' and not chance.randrange(3):
            spaced += b' NOT' * chance.choice([2, 4]) + b' '
        needed = last[:1].isalnum() and part[:1].isalnum()
        spaced += b''.join(chance.choices([b' ', b'\t', b'\n', b'\r\n'], k=max(needed, chance.choice([0, 0, 1, 3])))) + part
        last = part
    return spaced


def cases():
    yield from [(b'', 0), (b'', 5), (b' \t\r\n', 0)]
    for text in [*lettered(), *woken(), example('case-c'), example('dialect'), example('withdrawn'), *guided(), CANCELLED, WITHDRAWN]:
        outcome = printed(whole(text), PRINT_BYTES)
        length = 40 if isinstance(outcome, bytes) else sum(map(len, outcome))
        yield from [(text, room) for room in (length, length - 1, length + 7, 0)]
    chance = random.Random(34)
    yield from [(respaced(chance, CANCELLED), 256) for _ in range(20)]
    yield from [(respaced(chance, WITHDRAWN), 256) for _ in range(10)]
    for text in REFUSED:
        yield from [(text, 0), (text, 300)]
    yield from [([(1, XYZ), (2000, RULE), (1, b' ')], PRINT_BYTES), ([(1100, b' ' * 64), (1, XYZ)], 51)]
    yield from [(two_bytes(more), room) for more in (0, 1) for room in (65535, 65536)]
    yield from [(longest(0), PRINT_BYTES), (longest(0), PRINT_BYTES + 1), (longest(0), PRINT_BYTES - 1), (longest(0), 0)]
    yield from [(longest(more), room) for more in (1, 2) for room in (0, PRINT_BYTES, PRINT_BYTES + more)]


def stored():
    """Each file with what it should hold."""
    given, lines = b'', b''
    for number, (text, room) in enumerate(cases(), 1):
        given += room.to_bytes(3, 'big') + stored_text(text)
        lines += b'print %d\n' % number + written(whole(text), room)
    yield 'tests/stored/prints/input', given
    yield 'tests/stored/prints/expected', lines
    for name in ('case-c', 'dialect', 'withdrawn'):
        yield f'examples/{name}/print.txt', b''.join(printed(example(name), PRINT_BYTES))


def quoted():
    """Says whether the example and its print are quoted as they are where the print is computed by evaluation."""
    path = 'crates/style/proofs/Cases.antt'
    with open(os.path.join(TOP, path), encoding='utf-8') as file:
        before, after = re.search(r'^dialect =$(.*?)^pub case_dialect(.*?)^(?:unfolding|case_dialect =)', file.read(), re.M | re.S).groups()
    for part, text in ((before, example('dialect')), (after, b''.join(printed(example('dialect'), PRINT_BYTES)))):
        if ''.join(line + '\n' for line in re.findall('"(.*?)"', part)).encode() != text:
            print(f'{path} quotes examples/dialect otherwise')
            return 1
    return 0


if __name__ == '__main__':
    sys.exit(run(stored()) or quoted())
