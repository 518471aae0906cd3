#!/usr/bin/env python3
"""The stored cases of the response by marks, and what the library should say of them, by a reckoning of its own made from sections 3, 5, 6 and 7 of document 02 and section 6 of document 002.

  tests/mark_cases.py          writes tests/stored/marks/input and expected
  tests/mark_cases.py --check  says whether they are what it would write; exit status 1 where they are not

A case is (counts, rules, card, slip): the values of each slot; rules as in strata_cases.py; a value for each slot, 0 for none; pairs, in which 0 is NONE.
The cases are sent by one editor after another, each on forty fresh records, and some of them once more by numbers that are no editor's.
The text is read with test 18 and without. The lines of a case say what the first reading gives, and where it is accepted what the strata response gives;
then what the response by marks gives; of each response also the records that are not fresh after it. A truth is True, False or None for unknown; a pair is positive, negative, or in neither of two sets.
"""
import random
import sys
from itertools import groupby

from card_cases import card_bytes, slip_bytes
from stored import run, stored_text
from strata_cases import circle, dependences, rule, strata

NAMES = 'xyzabcdefghijklmnopq'


def holds(card, positive, literal):
    """The truth of a literal where a change happens exactly if it is positive."""
    becomes, negated, s, v = literal
    return (card[s] == v if not becomes else card[s] != v and (s, v) in positive) != bool(negated)


def truth(card, positive, negative, literal):
    """The truth of a literal by section 6.1."""
    becomes, negated, s, v = literal
    if not becomes:
        plain = card[s] == v
    elif (s, v) in positive and card[s] != v:
        plain = True
    elif (s, v) in negative or card[s] == v:
        plain = False
    else:
        return None
    return plain != bool(negated)


def tests(rule):
    """The trigger as a literal, and the literals."""
    (s, v), literals, assigned, stratum = rule
    return [(1, 0, s, v)] + literals


def answer(card, rules, changes, fired):
    """The outputs of an answer in hexadecimal."""
    new = [dict(changes).get(s, v) for s, v in enumerate(card)]
    bits = ''.join('1' if n in fired else '0' for n in range(len(rules)))
    bits += '0' * (-len(bits) % 8)
    record = bytes(int(bits[i:i + 8], 2) for i in range(0, len(bits), 8))
    outputs = ('fired', record), ('changes', slip_bytes(sorted(changes))), ('card', card_bytes(new))
    return ''.join(' %s %s' % (word, data.hex().upper() or '-') for word, data in outputs)


def by_strata(rules, card, slip, numbers):
    """The strata response."""
    changes, fired = set(slip), set()
    while True:
        open_rules = [n for n, r in enumerate(rules) if n not in fired and all(holds(card, changes, t) for t in tests(r))]
        if not open_rules:
            break
        lowest = min(numbers[n] for n in open_rules)
        for n in [n for n in open_rules if numbers[n] == lowest]:
            fired.add(n)
            changes |= set(rules[n][2])
    double = [s for s, v in changes if len([w for t, w in changes if t == s]) > 1]
    return ' refused 40 %d' % min(double) if double else answer(card, rules, changes, fired)


def by_marks(counts, rules, card, slip):
    """The response by marks: rules are fired and pairs are ruled out as long as one can be."""
    pairs = {(s, v) for s, count in enumerate(counts) for v in range(count + 1)}
    positive, fired = set(slip), set()
    ruled_out = set()

    def negative():
        return ruled_out | {(s, v) for s, v in pairs for t, w in positive if s == t and v != w}

    while not positive & negative():
        out = negative()
        truths = [[truth(card, positive, out, t) for t in tests(r)] for r in rules]
        true = [n for n, found in enumerate(truths) if n not in fired and all(found)]
        live = {pair for r, found in zip(rules, truths) if False not in found for pair in r[2]}
        out = pairs - positive - out - live
        if true:
            fired.update(true)
            positive.update(pair for n in true for pair in rules[n][2])
        elif out:
            ruled_out.add(min(out))
        else:
            break
    if positive & negative():
        return ' refused 41 0'
    if pairs - positive - negative():
        return ' refused 42 0'
    return answer(card, rules, positive, fired)


def parts_of(text):
    """A text as its lines, those alike together."""
    return [(len(list(same)), line) for line, same in groupby(text.splitlines(True))]


def text_of(counts, rules):
    """A rule file."""
    def value(v):
        return str(v - 1) if v else 'NONE'

    def literal(becomes, negated, s, v):
        return '%s%s %s %s' % ('NOT ' * negated, NAMES[s], '*=' if becomes else '|=', value(v))

    text = ''.join('SLOT %s {%s};\n' % (NAMES[s], ','.join(str(v) for v in range(n))) for s, n in enumerate(counts))
    for (s, v), literals, assigned, stratum in rules:
        condition = ' AND '.join(literal(*l) for l in literals) or 'TRUE'
        brought = ', '.join('%s := %s' % (NAMES[t], value(w)) for t, w in assigned)
        text += 'WHEN %s *= %s IF %s THEN {%s};\n' % (NAMES[s], value(v), condition, brought)
    return text.encode()


def counted(editor, response):
    """What a response gives on fresh records, and the record of its editor after it; 44 where the number is no editor's."""
    if not 1 <= editor <= 40:
        return ' refused 44 0'
    return response + ' tally %d %s' % (editor, '0 1' if response.startswith(' refused') else '1 0')


def written(case, editor):
    """The lines of a case."""
    counts, rules, card, slip = case
    edges = dependences(rules)
    low = circle(edges)
    if low is None:
        numbers = strata(edges)
        lines = ['read strata' + ''.join(' %d' % n for n in numbers), 'strata' + counted(editor, by_strata(rules, card, slip, numbers))]
    else:
        lines = ['read refused 18 %d' % low]
    return ''.join(line + '\n' for line in lines + ['marks' + counted(editor, by_marks(counts, rules, card, slip))])


X, Y, Z = (0, 2), (1, 2), (2, 2)
ZEROS, EMPTY = [1, 1, 1], [0, 0, 0]


def files(*entries):
    """Cases over the three slots of document 01."""
    return [([2, 2, 2], list(rules), card, slip) for rules, card, slip in entries]


def documents():
    """The cases of document 01 and the readings of section 3 of document 02."""
    a = rule(X, Z, had=[(1, 1)])
    b = rule(Z, Y, had=[(1, 1)])
    c = rule(Z, X, had=[(1, 1)])
    d = rule(Y, Z, under=[X])
    e = rule(Y, X, had=[(0, 1)])
    h = rule(X, (0, 1))
    yield from files(([a], ZEROS, [X]), ([b], ZEROS, [X]), ([a, b], ZEROS, [X]), ([d, e], ZEROS, [Y]), ([a, b], EMPTY, [X]), ([a], ZEROS, [(0, 1)]), ([], ZEROS, [X]), ([], EMPTY, []))
    # a NOT on another value of the slip's slot is true from the start
    one, two = rule(X, (1, 1), under=[Z]), rule(X, Z, under=[(1, 1)])
    yield from files(([one, two], EMPTY, [X, Y]), ([two, one], EMPTY, [X, Y]), ([one, two], EMPTY, [X]), ([one, two], EMPTY, [Y]), ([one, two], EMPTY, [X, (1, 1)]))
    bar, barred = rule(X, Z, under=[(0, 1)]), rule(X, (0, 1), under=[Z])
    yield from files(([bar, barred], ZEROS, [X]), ([bar, barred], EMPTY, [X]), ([barred, bar], EMPTY, [X]))
    # case D: a plain circle with a cause and without
    yield from files(([a, c], ZEROS, [Y]), ([a, c], ZEROS, [X]), ([c, a], ZEROS, [(2, 2)]), ([a, c], ZEROS, []), ([a, c, rule(Y, Z)], ZEROS, [Y]))
    yield from files(([rule(X, X)], ZEROS, [Y]), ([rule(X, X)], ZEROS, [X]), ([rule(X, X)], [2, 1, 1], [Y]))
    # case H: 41, also where a pair stays unknown
    own = rule(X, Z, under=[Z])
    yield from files(([h], ZEROS, [X]), ([h], ZEROS, [Y]), ([own], ZEROS, [X]), ([own, h], ZEROS, [X]), ([h, own], ZEROS, [X]), ([own, a, rule(Z, (2, 1))], ZEROS, [X]))
    # a circle through NOT: unknown, decided by the slip, by the card, by another rule; three of them
    p, q = rule(X, Z, under=[Y]), rule(X, Y, under=[Z])
    yield from files(([p, q], ZEROS, [X]), ([p, q], ZEROS, [X, Y]), ([p, q], ZEROS, [X, (1, 1)]), ([p, q], [1, 2, 1], [X]), ([p, q], ZEROS, [Z]), ([p, q, rule(X, Y)], ZEROS, [X]), ([p, q, rule(X, (1, 1))], ZEROS, [X]))
    yield from files(([own], ZEROS, [X, Z]), ([own], ZEROS, [X, (2, 1)]), ([own], [1, 1, 2], [X]), ([own, rule(X, Z)], ZEROS, [X]))
    # a pair is ruled out only by all rules that assign it: one is false, the other unknown
    yield from files(([rule(X, Z, had=[(1, 2)]), rule(Z, Z)], ZEROS, [X]), ([rule(X, Z, had=[(1, 2)]), rule(Z, Z, had=[(1, 2)])], ZEROS, [X]))
    # a false trigger is enough, and a false literal beside an unknown one
    yield from files(([rule(Y, Z), rule(Z, Y)], ZEROS, [X]), ([rule(Y, Z), rule(X, Y, under=[X])], ZEROS, [X]), ([rule(X, Z, plain=[Y], under=[X]), rule(Z, Y)], ZEROS, [X]))
    # 42 where the strata response is in conflict
    yield from files(([rule(Y, Y), rule(X, Z, under=[Y]), rule(X, (2, 1), under=[Y])], ZEROS, [X]))


def withdrawn():
    """Section 6 of document 02: withdrawals by slip and by rule, of what is there and what is not, in conflict, awaited, barred, unknown and ruled out."""
    no_x, no_y, no_z = (0, 0), (1, 0), (2, 0)
    wake = rule(no_x, Z, had_not=[no_y])
    # by the slip: it wakes a rule where the card has something, and not where it has nothing
    yield from files(([wake], ZEROS, [no_x]), ([wake], EMPTY, [no_x]), ([wake], [1, 0, 1], [no_x]), ([wake], [0, 1, 1], [no_x]), ([], EMPTY, [no_x, no_y, no_z]), ([], ZEROS, [no_x, no_y, no_z]))
    # what the card has or has not: |= NONE, NOT |= NONE
    for card in (ZEROS, EMPTY):
        yield from files(([rule(X, Z, had=[no_y])], card, [X]), ([rule(X, Z, had_not=[no_y])], card, [X]), ([rule(X, Z, had=[no_x])], card, [X]), ([rule(X, Z, plain=[no_y])], card, [X, no_y]), ([rule(X, Z, under=[no_y])], card, [X, no_y]))
    # by a rule, which wakes another; against a value of the slip, of a rule, of its own trigger; beside the same withdrawal
    back = rule(X, no_y)
    yield from files(([back], ZEROS, [X]), ([back], EMPTY, [X]), ([back, rule(no_y, Z)], ZEROS, [X]), ([rule(no_y, Z), back], EMPTY, [X]), ([back], ZEROS, [X, Y]), ([back], ZEROS, [X, (1, 1)]), ([back], ZEROS, [X, no_y]), ([back, rule(X, Y)], ZEROS, [X]), ([rule(X, no_x)], ZEROS, [X]), ([rule(no_x, X)], ZEROS, [no_x]), ([rule(no_x, no_x)], ZEROS, [no_x]), ([back, rule(X, no_z), rule(X, Z), rule(X, Y)], ZEROS, [X]))
    # circles by NONE: plain with a cause and without, under NOT, decided by slip or card
    loop = [rule(no_x, no_y), rule(no_y, no_x)]
    yield from files((loop, ZEROS, [no_x]), (loop, ZEROS, [Z]), (loop, EMPTY, [Z]), (loop, [1, 0, 1], [no_x]), ([rule(no_x, no_x)], ZEROS, [Z]))
    own = rule(X, no_y, under=[no_y])
    either = [rule(X, no_z, under=[no_y]), rule(X, no_y, under=[no_z])]
    mixed = [rule(X, Z, under=[no_y]), rule(X, no_y, under=[Z])]
    for rules in ([own], either, either[::-1], mixed, mixed[::-1]):
        yield from files(*[(rules, card, slip) for card in (ZEROS, EMPTY, [1, 0, 1]) for slip in ([X], [X, Y], [X, (1, 1)], [X, no_y], [X, no_z], [Y])])
    # a withdrawal makes the slot's values negative, and a value the withdrawal
    yield from files(([rule(X, Z, under=[Y]), rule(X, Y, under=[Z])], ZEROS, [X, no_y]), ([rule(X, Z, under=[no_y]), rule(X, no_y, had=[Y])], ZEROS, [X]), ([rule(X, Z, under=[no_y]), rule(Z, no_y)], ZEROS, [X, Y]), ([rule(X, Y), rule(X, Z, under=[no_y]), rule(Z, no_y)], ZEROS, [X]))


def chains():
    """Chains of rules with one trigger over the two values of eleven slots: plain, so that pairs are ruled out one after another; under NOT, so that they are ruled out and brought in turn; both; in either order, from other starts, and with a gap."""
    counts = [2] * 12
    link = [(k // 2, k % 2 + 1) for k in range(22)]
    start = (11, 1)
    for under in ([], range(21), range(0, 21, 4), range(1, 21, 2)):
        rules = [rule(start, link[k + 1], **{'under' if k in under else 'plain': [link[k]]}) for k in range(21)]
        for order in (rules, rules[::-1]):
            for slip in ([start], [link[0], start], [link[10], start], [link[11], start], [link[0]]):
                yield (counts, order, [0] * 12, slip)
            yield (counts, order[:9] + order[10:], [0] * 12, [start])


def by_chance():
    """Small files by chance, in the second half of them with NONE."""
    chance = random.Random(3)
    for i in range(400):
        lowest = 1 if i < 200 else 0
        counts = [chance.randint(1, 3) for s in range(chance.randint(2, 5))]
        busy = [(s, chance.randint(lowest, n)) for s, n in enumerate(counts)] * 2 + [(s, v) for s, n in enumerate(counts) for v in range(lowest, n + 1)]
        rules = []
        for n in range(chance.randint(1, 6)):
            literals = [(1 - chance.randrange(4) // 3, int(chance.randrange(3) > 0)) + chance.choice(busy) for j in range(chance.choice([0, 1, 1, 2]))]
            assigned = dict(chance.choice(busy) for j in range(chance.choice([1, 1, 1, 2])))
            rules.append((chance.choice(busy), literals, sorted(assigned.items()), 0))
        card = [chance.choice([0, 0 if lowest else n, chance.randint(0, n)]) for n in counts]
        slip = dict(chance.choice([rules[chance.randrange(len(rules))][0], chance.choice(busy)]) for j in range(chance.randint(1, 3)))
        yield (counts, rules, card, sorted(slip.items()))


def listed():
    """Section 5 of document 02: a rule with each two of a true, a false and an unknown literal, in either order; and with each of them whose NOT is added or taken away, alone and before another. The unknown ones ask of what the rule brings itself."""
    true, false, unknown = (0, 0, 1, 1), (0, 0, 1, 2), (1, 1, 2, 2)
    for first in (true, false, unknown):
        for second in (true, false, unknown):
            yield from files(([(X, [first, second], [Z], 0)], ZEROS, [X]))
    for becomes, negated, s, v in (true, false, unknown):
        for other in ([], [true], [false], [unknown]):
            yield from files(([(X, [(becomes, 1 - negated, s, v)] + other, [Z], 0)], ZEROS, [X]))


def large():
    """Files of 2,000 rules: all fire, the first, the last, the first and the last ones, all of them and the last in conflict; of 1,997; a rule above 255 that 18 names, first and with others behind it; strata above 255, the chain begun and not."""
    most, idle = rule(X, Z), rule(Y, Z)
    for rules in ([most] * 2000, [most] + [idle] * 1999, [idle] * 1999 + [most], [most] * 3 + [idle] * 1200 + [most] * 797, [most] * 1999 + [rule(X, (2, 1))], [most] * 1997):
        yield from files((rules, ZEROS, [X]))
    own = rule(X, Y, under=[Y])
    yield from files(([most] * 255 + [own], ZEROS, [X]), ([most] * 300 + [own] + [idle] * 9, ZEROS, [X, Y]))
    link = [(s, v) for v in range(1, 16) for s in range(18)]
    rules = [rule((18, 1), link[k + 1], under=[link[k]]) for k in range(269)]
    for slip in ([(18, 1)], [link[0], (18, 1)]):
        yield ([15] * 18 + [1], rules, [0] * 19, slip)


def cases():
    for part in (documents, chains, by_chance, listed, withdrawn, large):
        yield from part()


def sent():
    """Each case with the number that sends it."""
    every = list(cases())
    for number, case in enumerate(every):
        yield case, number * 7 % 40 + 1
    for number, case in enumerate(every[::12]):
        yield case, (0, 41, 49, 255)[number % 4]


def stored():
    """Each file with what it should hold."""
    given, expected = b'', ''
    for number, (case, editor) in enumerate(sent(), 1):
        counts, rules, card, slip = case
        text = text_of(counts, rules)
        parts = parts_of(text)
        given += stored_text(parts if len(parts) < len(rules) else text) + bytes([editor])
        given += b''.join(bytes([len(data)]) + data for data in (card_bytes(card), slip_bytes(slip)))
        expected += 'case %d\n%s' % (number, written(case, editor))
    yield 'tests/stored/marks/input', given
    yield 'tests/stored/marks/expected', expected.encode()


if __name__ == '__main__':
    sys.exit(run(stored()))
