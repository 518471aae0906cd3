#!/usr/bin/env python3
"""The stored days of editors, and what the library should say of them, by a reckoning of its own made from sections 4 and 6 of document 02.

  tests/day_cases.py          writes tests/stored/days/input and expected
  tests/day_cases.py --check  says whether they are what it would write; exit status 1 where they are not

A day is (records, calls): pairs of slips answered and slips refused, and calls of (editor, question), all on the one rule file of RULES.
The records are handed on from each call to the next. The lines of a day say of each call what its question gives, or 44 or 32, and which records it changed.
"""
import random
import sys

from card_cases import card_bytes, slip_bytes
from mark_cases import by_marks, by_strata, text_of
from stored import run
from strata_cases import dependences, rule, strata

COUNTS = [2, 2, 2]
X, Y, Z = (0, 2), (1, 2), (2, 2)
RULES = [rule(X, Z, had=[(1, 1)]), rule(Y, (1, 1)), rule(Z, X), rule((0, 0), (2, 0))]
ZEROS = [1, 1, 1]
STRATA, MARKS, UNSOUND = range(3)
ROOMS = (3, 37, 1)


def question(way, card, slip, rooms, outcome):
    """What is asked, and what it gives to an editor whose record is not full: by strata, by marks, or by strata of a table whose strata are 0."""
    return bytes([way]) + b''.join(bytes([len(data)]) + data for data in (card, slip)) + bytes(rooms), outcome


def questions():
    """Answers and refusals of both responses."""
    card = card_bytes(ZEROS)
    for slip in ([X], [Y], [(0, 1)], [], [Z], [(0, 0)], [(0, 0), (2, 1)], [(1, 0)]):
        packed = slip_bytes(slip)
        yield question(STRATA, card, packed, ROOMS, by_strata(RULES, ZEROS, slip, strata(dependences(RULES))))
        yield question(MARKS, card, packed, ROOMS, by_marks(COUNTS, RULES, ZEROS, slip))
    packed = slip_bytes([X])
    for way in (STRATA, MARKS):
        yield question(way, b'', packed, ROOMS, ' refused 20 0')
        yield question(way, card, b'', ROOMS, ' refused 24 0')
        yield question(way, card, packed, (3, 36, 1), ' refused 30 2')
    yield question(UNSOUND, card, packed, ROOMS, ' refused 31 0')


ASKED = list(questions())
ANSWERED, REFUSED = ([asked for asked in ASKED if asked[1].startswith(' refused') == refused] for refused in (False, True))


def called(records, editor, outcome):
    """What a call gives on records, and the records after it."""
    if len(records) != 40 or not 1 <= editor <= 40:
        return ' refused 44 0', records
    answered, refused = records[editor - 1]
    if answered >= 9999 or refused >= 9999:
        return ' refused 32 0', records
    own = (answered, refused + 1) if outcome.startswith(' refused') else (answered + 1, refused)
    return outcome, records[:editor - 1] + [own] + records[editor:]


def written(day):
    """The lines of a day."""
    records, calls = day
    lines = []
    for editor, (asked, outcome) in calls:
        said, after = called(records, editor, outcome)
        changed = [(n, new) for n, (old, new) in enumerate(zip(records, after), 1) if new != old]
        lines.append('call %d%s%s\n' % (editor, said, ''.join(' tally %d %d %d' % (n, *new) for n, new in changed)))
        records = after
    return ''.join(lines)


def days():
    """Numbers and lengths good and bad; each editor once; records full, others not and the other way round; days by chance, and each once more in another order."""
    chance = random.Random(4)
    fresh, full = [(0, 0)] * 40, [(9999, 9999)] * 40
    one, other = ANSWERED[0], REFUSED[0]
    yield fresh, [(editor, asked) for editor in range(1, 41) for asked in (one, other)]
    outside = (0, 41, 42, 80, 255, 256, 257, 296, 297, 65535, 65537, 2 ** 32 + 1, 2 ** 63, 2 ** 64 - 1)
    for records in (fresh, full):
        yield records, [(editor, asked) for editor in outside for asked in (one, other)]
    for length in (0, 1, 2, 39, 41, 80, 255):
        for record in ((0, 0), (9998, 9999)):
            yield [record] * length, [(editor, asked) for editor in (0, 1, 2, 39, 40, 41) for asked in (one, other)]
    for own in ((9999, 0), (0, 9999), (9998, 9998), (65535, 3), (9998, 10000), (9997, 9998)):
        for others in ((0, 0), (9999, 0), (9998, 9999)):
            for editor in (1, 2, 39, 40):
                yield [others] * (editor - 1) + [own] + [others] * (40 - editor), [(editor, asked) for asked in (one, other, one, other)]
    for asked in ASKED:
        yield fresh, [(7, asked), (8, asked), (7, asked)]
    for i in range(60):
        team = [chance.randint(1, 40) for j in range(chance.randint(2, 6))] + [chance.choice([0, 41])]
        records = [chance.choice([(0, 0), (9998, 9998), (9997, 12), (9999, 9999)]) for editor in range(40)]
        calls = [(chance.choice(team), chance.choice(ASKED)) for j in range(20)]
        yield records, calls
        turns = [editor for editor, asked in calls]
        chance.shuffle(turns)
        own = {editor: iter([asked for caller, asked in calls if caller == editor]) for editor in team}
        yield records, [(editor, next(own[editor])) for editor in turns]


def stored():
    """Each file with what it should hold."""
    text = text_of(COUNTS, RULES)
    given, expected = len(text).to_bytes(2, 'big') + text, ''
    for number, (records, calls) in enumerate(days(), 1):
        given += bytes([len(records)]) + b''.join(count.to_bytes(2, 'big') for record in records for count in record)
        given += bytes([len(calls)]) + b''.join(editor.to_bytes(8, 'big') + asked for editor, (asked, outcome) in calls)
        expected += 'day %d\n%s' % (number, written((records, calls)))
    yield 'tests/stored/days/input', given
    yield 'tests/stored/days/expected', expected.encode()


if __name__ == '__main__':
    sys.exit(run(stored()))
