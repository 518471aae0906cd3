#!/usr/bin/env python3
"""The stored texts, and what their reading should give, by a reader of its own made from document 01, sections 2, 6 and 7 of document 02 and the appendix of the RL paper.

  tests/read_cases.py          writes tests/stored/texts/input and expected
  tests/read_cases.py --check  says whether they are what it would write; exit status 1 where they are not
"""
import random
import re
import sys
from itertools import groupby

from stored import run, stored_text, whole
from strata_cases import circle, dependences, strata

TOKEN = re.compile(rb'[0-9A-Za-z][0-9A-Za-z-]*|[*|:]=|[{},;]')
RESERVED = {b'SLOT', b'WHEN', b'IF', b'THEN', b'AND', b'NOT', b'TRUE', b'NONE'}


class Refused(Exception):
    """A refusal by its number, and the offset and the bytes of its token."""


def tokens(text):
    """Each token as (kind, bytes, offset): a word or mark is its own kind; at last the end."""
    at = 0
    while at < len(text):
        if text[at] in b'\t\n\r ':
            at += 1
            continue
        found = TOKEN.match(text, at)
        if not found:
            yield 'bad', text[at:at + 1], at
            at += 1
            continue
        part = found.group()
        if part in RESERVED or not part[:1].isalnum():
            yield part.decode(), part, at
        else:
            yield ('name' if len(part) <= 24 else 'long'), part, at
        at = found.end()
    yield 'end', b'', at


class File:
    """One reading, token by token: the first token that is refused decides."""

    def __init__(self, text):
        self.all = list(tokens(text))
        self.at = 0
        self.slots, self.rules = [], []

    def kind(self):
        return self.all[self.at][0]

    def take(self, *kinds, also=lambda part: []):
        """The next token, which must be of one of these kinds; `also` gives the refusals 14 to 17 of a name in their order."""
        kind, part, offset = self.all[self.at]
        for number, wrong in [(11, kind == 'bad'), (13, kind == 'long' and 'name' in kinds), (12, kind not in kinds), *also(part)]:
            if wrong:
                raise Refused(number, offset, part)
        self.at += 1
        return kind, part

    def line(self):
        self.take('SLOT', also=lambda part: [(15, len(self.slots) >= 32)])
        name = self.take('name', also=lambda part: [(14, part in [s for s, _ in self.slots])])[1]
        self.take('{')
        values = []
        while True:
            values.append(self.take('name', also=lambda part: [(14, part in values), (15, len(values) >= 15)])[1])
            if self.take(',', '}')[0] == '}':
                break
        self.take(';')
        self.slots.append((name, values))

    def slot(self, before=lambda part: [], after=lambda number: []):
        names = [s for s, _ in self.slots]
        part = self.take('name', also=lambda part: before(part) + [(16, part not in names)] + (after(names.index(part)) if part in names else []))[1]
        return names.index(part)

    def value(self, slot):
        if self.kind() == 'NONE':
            self.take('NONE')
            return 0
        values = self.slots[slot][1]
        return values.index(self.take('name', also=lambda part: [(16, part not in values)])[1]) + 1

    def literal(self, room):
        full = lambda part: [(15, not room)]
        negated = 0
        while self.kind() == 'NOT':
            self.take('NOT', also=full)
            negated = 1 - negated
        slot = self.slot(before=full)
        becomes = int(self.take('*=', '|=')[0] == '*=')
        return becomes, negated, slot, self.value(slot)

    def literals(self):
        found = []
        while True:
            found.append(self.literal(len(found) < 8))
            if self.take('AND', 'THEN')[0] == 'THEN':
                return found

    def condition(self):
        if self.kind() != 'TRUE':
            return self.literals()
        self.take('TRUE')
        return [] if self.take('AND', 'THEN')[0] == 'THEN' else self.literals()

    def assignment(self, found):
        slot = self.slot(before=lambda part: [(15, len(found) >= 4)], after=lambda number: [(17, number in [s for s, _ in found])])
        self.take(':=')
        return slot, self.value(slot)

    def assignments(self):
        if self.kind() != '{':
            return [self.assignment([])]
        self.take('{')
        found = []
        while True:
            found.append(self.assignment(found))
            if self.take(',', '}')[0] == '}':
                return found

    def rule(self):
        self.take('WHEN', also=lambda part: [(15, len(self.rules) >= 2000)])
        slot = self.slot()
        self.take('*=')
        value = self.value(slot)
        self.take('IF')
        literals = self.condition()
        assignments = self.assignments()
        self.take(';')
        self.rules.append((slot, value, literals, assignments))

    def read(self):
        while self.kind() == 'SLOT':
            self.line()
        while self.kind() != 'end':
            self.rule()


def read(text):
    """The file of a text, the steps of dependence of its rules, and its refusal as `place` tells it."""
    if len(text) > 262144:
        return None, [], (10, 0, None, b'')
    file = File(text)
    try:
        file.read()
    except Refused as refusal:
        number, offset, part = refusal.args
        return file, [], (number, len(file.rules), offset, part)
    edges = dependences([((slot, value), literals, assignments) for slot, value, literals, assignments in file.rules])
    low = circle(edges)
    return file, edges, (18, low, None, b'') if low else None


def place(text):
    """Where a text is refused, as (number, second number, offset of the token, its bytes): no offset and no bytes for 10 and 18, no bytes at the end; None where it is accepted."""
    return read(text)[2]


def reading(text):
    """The lines owed for a text; of equal neighbours among its rules one, after how many they are."""
    file, edges, refusal = read(text)
    if refusal:
        return [b'refused %d %d' % refusal[:2]]
    lines = [b'accepted %d %d' % (len(file.slots), len(file.rules))]
    lines += [b' '.join([b'slot', name] + values) for name, values in file.slots]
    rules = [b'rule %d %d %d' % (stratum, slot, value) + b''.join(b' : %d %d %d %d' % l for l in literals) + b''.join(b' = %d %d' % a for a in assignments) for stratum, (slot, value, literals, assignments) in zip(strata(edges), file.rules)]
    return lines + [b'%d ' % len(list(same)) + line for line, same in groupby(rules)]


XYZ = b'SLOT x {0,1}; SLOT y {0,1}; SLOT z {0,1}; '
RULE = b'WHEN x *= 1 IF TRUE THEN y := 1;'


def rule(condition=b'TRUE', assign=b'y := 1', trigger=b'x *= 1'):
    return XYZ + b'WHEN ' + trigger + b' IF ' + condition + b' THEN ' + assign + b';'


def circles():
    """Rules that test what they assign, and circles: plain, through a NOT, kept plain by NOTs that cancel, such as meet a rule more than once; strata above 1."""
    yield from [rule(nots + b'y *= 1') for nots in (b'', b'NOT ', b'NOT NOT ', b'NOT NOT NOT ')] + [rule(b'y *= 1 AND NOT y *= 1'), rule(b'NOT y *= 1', b'z := 1'), rule(b'NOT y *= 0')]
    to_z, to_x = b'WHEN x *= 1 IF TRUE THEN z := 1;', b'WHEN y *= 1 IF %sz *= 1 THEN x := 1;'
    for nots in (b'', b'NOT ', b'NOT NOT ', b'NOT NOT NOT '):
        yield from [XYZ + to_z + to_x % nots, XYZ + to_x % nots + to_z, XYZ + b'WHEN z *= 1 IF TRUE THEN z := 0;' + to_x % nots + to_z]
    one, two, three = b'WHEN x *= 1 IF TRUE THEN y := 1;', to_x % b'NOT ', to_z
    yield from [XYZ + b''.join(rules) for rules in ([one, two, three], [three, two, one], [two, one, three], [one, two], [one, three], [two, three])]
    yield from [XYZ + b'WHEN y *= 0 IF TRUE THEN y := 0;' + two + three, XYZ + b'WHEN z *= 1 IF TRUE THEN z := 0;' + one + two + three]
    low, middle, high = b'WHEN x *= 1 IF TRUE THEN x := 0;', b'WHEN x *= 1 IF NOT x *= 0 THEN y := 1;', b'WHEN x *= 1 IF NOT y *= 1 THEN z := 1;'
    yield from [XYZ + low + middle + high, XYZ + high + middle + low, XYZ + high + low, XYZ + high + b'WHEN z *= 1 IF TRUE THEN x := 1;' + middle + low]


def withdrawn():
    """NONE for a value in each place of a rule, alone and where it is one too many; elsewhere; names like it; strata and circles by NONE."""
    yield from [rule(trigger=b'x *= NONE'), rule(b'y |= NONE'), rule(b'NOT y |= NONE'), rule(b'y *= NONE'), rule(b'NOT y *= NONE'), rule(b'NOT NOT NOT z *= NONE AND y |= NONE'), rule(assign=b'y := NONE'), rule(assign=b'{y := NONE}'), rule(assign=b'{y := NONE, x := 0, z := NONE}'), rule(b'y *= NONE', b'{y := NONE, z := NONE}', b'z *= NONE')]
    yield from [b'SLOT NONE {a};', b'SLOT x {NONE};', b'SLOT x {a, NONE};', b'SLOT x {NONE', b'SLOT x NONE', b'NONE', XYZ + b'NONE', XYZ + RULE + b'NONE', XYZ + RULE + b'SLOT w {NONE};', b'SLOT x {a}; SLOT NONE {a', b'SLOT x {a} NONE']
    yield from [rule(trigger=w) for w in (b'NONE *= 1', b'NONE', b'x NONE', b'x |= NONE', b'NONE *= NONE', b'q *= NONE', b'x *= NONE NONE', b'x *= NOT NONE')]
    yield from [rule(w) for w in (b'NONE', b'NONE |= 0', b'NOT NONE', b'NOT NONE *= 1', b'TRUE AND NONE', b'TRUE NONE', b'y |= 0 AND NONE |= 0', b'y NONE', b'q |= NONE', b'y := NONE', b' AND '.join([b'y |= NONE'] * 8), b' AND '.join([b'y |= NONE'] * 9), b' AND '.join([b'y |= NONE'] * 8 + [b'NONE']))]
    yield from [rule(assign=w) for w in (b'NONE := 1', b'NONE', b'{NONE := 1}', b'{x := 1, NONE := 1}', b'y NONE', b'y *= NONE', b'q := NONE', b'{y := NONE, y := 1}', b'{y := 0, y := NONE}', b'{y := NONE, y := NONE}', b'{y := NONE NONE}', b'y := NONE, z := 1')]
    yield from [rule(assign=b'y := ' + w) for w in (b'none', b'None', b'NONE-', b'NONEs', b'NON', b'NONE' * 7, b'NONE=', b'NONE(')]
    like = b'SLOT none {None, NONE-, NONEs, none}; SLOT None {nONE}; '
    yield from [like, like + b'WHEN none *= None IF none |= NONE AND None |= nONE THEN {none := none, None := NONE};', like + b'WHEN None *= None', like + b'WHEN none *= NONE-NONE', like + b'WHEN NONE- *= NONE']
    fifteen = b'SLOT x {' + b','.join(b'v%d' % i for i in range(15)) + b'}; '
    yield from [fifteen + b'WHEN x *= NONE IF NOT x |= NONE THEN x := v14;', fifteen + b'WHEN x *= v14 IF x *= NONE THEN x := NONE;', fifteen[:-3] + b',NONE};', fifteen[:-3] + b',v0,NONE};']
    bar, empty = b'WHEN x *= 1 IF NOT y *= NONE THEN z := 1;', b'WHEN %s IF TRUE THEN y := %s;'
    yield from [XYZ + bar + empty % pair for pair in ((b'x *= 0', b'NONE'), (b'x *= 0', b'1'), (b'z *= 1', b'NONE'), (b'z *= 1', b'0'), (b'y *= NONE', b'NONE'), (b'z *= NONE', b'NONE'))]
    yield from [rule(b'NOT y *= NONE', b'y := NONE'), rule(b'y *= NONE', b'y := NONE'), rule(b'NOT y |= NONE', b'y := NONE'), rule(b'NOT y *= NONE', b'y := 1'), rule(b'NOT y *= 1', b'y := NONE')]


def large(short):
    """The limits of the library: 255 rules and 256, 2,000 and 2,001, and what may follow; refusals behind more than 255 rules; a rule above 255 that 18 names; strata above 255; texts of 65,536 bytes, of 262,144 and of one more, with names at their ends."""
    yield from [[(1, XYZ), (count, short)] for count in (255, 256, 257, 1999, 2000, 2001)]
    most = [(1, XYZ), (2000, short)]
    yield from [most + [(1, end)] for end in (b' \n', b'WHEN', b'WHEN(', b'SLOT', b'SLOT w {0};', b'q', b';', b'(', b'*', b'a' * 25, b'TRUE')]
    yield from [[(1, XYZ), (count, short), (1, b'WHEN ' + fault)] for count in (256, 1999) for fault in (b'(', b'x', b'a' * 25, b'q', b'x *= 1 IF ' + b' AND '.join([b'y |= 0'] * 9), b'x *= 1 IF TRUE THEN {y := 1, y')]
    own = b'WHEN x *= 1 IF NOT z *= 1 THEN z := 1;'
    yield from [[(1, XYZ), (count, short), (1, own), (rest, short)] for count, rest in ((254, 0), (255, 0), (256, 3), (511, 9), (1999, 0))] + [[(1, XYZ), (1999, short), (1, own + b'WHEN')]]
    pairs = [(s, v) for v in range(15) for s in range(20)]
    link = [b'WHEN s0*=v0 IF NOT s%d*=v%d THEN s%d:=v%d;' % (pairs[i] + pairs[i + 1]) for i in range(1, 290)]
    slots = b''.join(b'SLOT s%d{%s};' % (s, b','.join(b'v%d' % v for v in range(15))) for s in range(20))
    yield from [slots + b''.join(link), slots + b''.join(reversed(link))]
    white, line = (1023, b' ' * 64), b'SLOT x{0};'
    yield from [[white, (64 - len(line), b' '), (1, line)], [(1, line), white, (65 - len(line), b' ')]]
    for over in (0, 1):
        white = [(4095, b'\n' + b' ' * 63), (64 + over - len(line), b'\t')]
        yield from [white + [(len(line), b' ')], white + [(1, line)], [(1, line)] + white, white + [(1, line[:-1] + b'(')]]


def texts():
    """The cases and limits of document 01, circles, NONE, each place's faults and their precedence, and texts damaged at random."""
    a, b = b'WHEN x *= 1 IF y |= 0 THEN z := 1;', b'WHEN z *= 1 IF y |= 0 THEN y := 1;'
    many = lambda n: b','.join(b'v%d' % i for i in range(n))
    yield from [b'', b' \t\r\n', XYZ, XYZ + a + b, rule(b'TRUE AND y |= 0'), rule(b'y |= 0 AND TRUE'), b'(', XYZ + b'(', XYZ + RULE + b'(', XYZ + RULE + b'*', XYZ + RULE + b'WHEN x *']
    yield from [b'SLOT ' + b'a' * 24 + b' {b};', b'SLOT ' + b'a' * 25 + b' {b};', b'SLOT x {' + b'b' * 24 + b'};', b'SLOT x {' + b'b' * 25 + b'};', b'a' * 25, b'SLOT x ' + b'a' * 25, XYZ + RULE + b'a' * 25]
    c, d, e = b'WHEN z *= 1 IF y |= 0 THEN x := 1;', b'WHEN y *= 1 IF NOT x *= 1 THEN z := 1;', b'WHEN y *= 1 IF x |= 0 THEN x := 1;'
    yield from [XYZ + a + c, XYZ + c + a, XYZ + d + e, XYZ + e + d, XYZ + e + a + c, XYZ + a + b + e, rule(assign=b'x := 1'), rule(b'NOT y *= 1'), rule(b'NOT NOT y *= 1'), rule(b'y |= 1'), rule(b'y *= 0'), XYZ + a + c + b'(']
    yield from circles()
    yield from withdrawn()
    short = b'WHEN x*=1 IF TRUE THEN y:=1;'
    yield from [XYZ + RULE * 2, *large(short)]
    yield from [b''.join(b'SLOT s%d {v};' % i for i in range(n)) for n in (32, 33)] + [b''.join(b'SLOT s%d {v};' % i for i in range(32)) + b'SLOT s1 (']
    yield from [b'SLOT x {' + many(n) + b'};' for n in (15, 16)] + [b'SLOT x {' + many(15) + b',v3};', b'SLOT x {' + many(15) + b',' + b'v' * 25 + b'};', b'SLOT x {v,v};', b'SLOT x {x};', b'SLOT x {a}; SLOT x {b};', b'SLOT x {a}; SLOT y {a};']
    yield from [rule(b' AND '.join([b'y |= 0'] * n)) for n in (1, 8, 9)] + [rule(b'TRUE AND ' + b' AND '.join([b'y |= 0'] * n)) for n in (8, 9)]
    yield from [rule(b' AND '.join([b'y |= 0'] * 8 + [last])) for last in (b'NOT y |= 0', b'q', b'TRUE', b'THEN', b'a' * 25, b'(')]
    yield from [rule(assign=b'{' + b','.join(s + b' := 1' for s in parts) + b'}') for parts in ([b'x'], [b'x', b'y', b'z'], [b'x', b'x'], [b'x', b'y', b'x'], [b'x', b'y', b'z', b'q'], [b'x', b'y', b'z', b'x'])]
    five = b'SLOT a {1}; SLOT b {1}; SLOT c {1}; SLOT d {1}; SLOT e {1}; WHEN a *= 1 IF TRUE THEN {a := 1, b := 1, c := 1, d := 1'
    yield from [five + end for end in (b'};', b', e := 1};', b', a := 1};', b', q := 1};', b', };', b', ' + b'q' * 25 + b' := 1};')]
    yield from [rule(assign=w) for w in (b'{}', b'{x := 1,}', b'x := 1, y := 1', b'x *= 1', b'x := 2', b'x := TRUE', b'q := 1', b'')]
    yield from [rule(trigger=w) for w in (b'x |= 1', b'NOT x *= 1', b'x *= 2', b'q *= 1', b'WHEN', b'y *= 1', b'TRUE')]
    yield from [rule(w) for w in (b'NOT y |= 0', b'NOT NOT y *= 0', b'NOT NOT NOT y *= 1', b'NOT TRUE', b'TRUE AND TRUE', b'TRUE AND NOT y |= 0 AND x *= 0', b'', b'NOT', b'y', b'y := 0', b'y |= 2', b'y |= 1 z', b'y |= 1 AND', b'q |= 1', b'NOT q |= 1')]
    yield from [RULE, XYZ + RULE + b'SLOT w {0};', b'SLOT', b'SLOT x', b'SLOT x {', b'SLOT x {a', b'SLOT x {a}', b'SLOT x {};', b'SLOT x {a,};', b'SLOT TRUE {a};', b'SLOT x {IF};', b'SLOT x {-a};', b'slot x {a};', b'SLOT x {a}', b'x', b';', XYZ + b';', XYZ + RULE + RULE + b'WHEN x *= 1 IF TRUE THEN q', XYZ + RULE * 3 + b'WHEN x *= 1 IF']
    for fault in (b'(', b'IF', b'a' * 25 + b' *= 1', b'q *= 1', b'x *= 1 IF TRUE THEN { x := 0, x := 1 };', b'x *= 1 IF ' + b' AND '.join([b'y |= 0'] * 9), b'x *= 1 IF TRUE THEN y := ' + b'a' * 25):
        yield XYZ + RULE * 2 + b'WHEN ' + fault
    chance = random.Random(1902)
    pieces = [b'SLOT', b'WHEN', b'IF', b'THEN', b'AND', b'NOT', b'TRUE', b'NONE', b'NONE', b'none', b'{', b'}', b',', b';', b'*=', b'|=', b':=', b'x', b'y', b'0', b'1', b'q', b'(', b'a' * 25, b'-']
    for _ in range(150):
        words = re.findall(rb'[^ ,;{}]+|[,;{}]', XYZ + a + b + rule(b'NOT y |= 0 AND z *= 1', b'{ x := 0 , y := 1 }')[len(XYZ):])
        for _ in range(chance.randrange(1, 4)):
            spot = chance.randrange(21 if chance.randrange(3) else 0, len(words))
            words[spot:spot + chance.randrange(2)] = [chance.choice(pieces)] if chance.randrange(4) else []
        yield b' '.join(words)[:chance.choice([10000, 10000, chance.randrange(160)])]


def stored():
    """Each file with what it should hold."""
    cases, written = b'', []
    for number, text in enumerate(texts(), 1):
        cases += stored_text(text)
        written += [b'text %d' % number] + reading(whole(text))
    yield 'tests/stored/texts/input', cases
    yield 'tests/stored/texts/expected', b'\n'.join(written) + b'\n'


if __name__ == '__main__':
    sys.exit(run(stored()))
