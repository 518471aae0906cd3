#!/usr/bin/env python3
"""The stored cases of cards and slips, and what the library should say of them, by a reckoning of its own made from document 01 and section 6 of document 02.

  tests/card_cases.py          writes tests/stored/cards/input and expected
  tests/card_cases.py --check  says whether they are what it would write; exit status 1 where they are not

A case is (kind, counts, rest): 0 unpacks a card and 1 a slip, where rest is the bytes; 2 packs a card and 3 a slip, where rest is
(count, values or changes, room). Packed forms are made here by strings of the characters 0 and 1.
"""
import random
import sys

from stored import run

SLOTS, VALUES = 32, 15
ROOM, BEFORE = 64, 165
GREATEST = 2 ** 64 - 1


def packed(fields):
    """The bytes of (width, number) fields, most significant bit first, zero bits at the end."""
    text = ''.join(format(x, '0%db' % w)[-w:] for w, x in fields)
    text += '0' * (-len(text) % 8)
    return bytes(int(text[i:i + 8], 2) for i in range(0, len(text), 8))


def card_bytes(values, count=None):
    return packed([(6, len(values) if count is None else count)] + [(4, v) for v in values])


def slip_bytes(changes, count=None):
    return packed([(6, len(changes) if count is None else count)] + [f for s, v in changes for f in ((5, s), (4, v))])


def text_of(data):
    return ''.join(format(b, '08b') for b in data)


def sound(counts):
    return len(counts) <= SLOTS and all(1 <= n <= VALUES for n in counts)


def card_fault(counts, count, values):
    if count != len(counts):
        return (21, 0)
    for i, v in enumerate(values[:count]):
        if v > counts[i]:
            return (22, i)
    return None


def slip_fault(counts, changes):
    for j, (s, v) in enumerate(changes):
        if s >= len(counts):
            return (25, j)
        if j and s <= changes[j - 1][0]:
            return (26, j)
        if v > counts[s]:
            return (27, j)
    return None


def read_card(counts, data):
    """A refusal as a pair, or the values as a list."""
    if not data:
        return (20, 0)
    text = text_of(data)
    n = int(text[:6], 2)
    if len(data) != -(-(6 + 4 * n) // 8):
        return (20, 0)
    values = [int(text[6 + 4 * i:10 + 4 * i], 2) for i in range(n)]
    fault = card_fault(counts, n, values)
    if fault:
        return fault
    return (23, 0) if '1' in text[6 + 4 * n:] else values


def read_slip(counts, data):
    if not data:
        return (24, 0)
    text = text_of(data)
    m = int(text[:6], 2)
    if len(data) != -(-(6 + 9 * m) // 8):
        return (24, 0)
    changes = [(int(text[6 + 9 * j:11 + 9 * j], 2), int(text[11 + 9 * j:15 + 9 * j], 2)) for j in range(m)]
    fault = slip_fault(counts, changes)
    if fault:
        return fault
    return (28, 0) if '1' in text[6 + 9 * m:] else changes


def numbers(xs):
    return ''.join(' %d' % x for x in xs)


def unpacking(kind, counts, data):
    got = (31, 0) if not sound(counts) else read_slip(counts, data) if kind else read_card(counts, data)
    size = 2 if kind else 1
    if isinstance(got, tuple):
        return ' refused %d %d' % got + numbers([0] * (1 + SLOTS * size))
    flat = [x for change in got for x in change] if kind else got
    return ' accepted' + numbers([len(got)] + flat + [0] * (SLOTS * size - len(flat)))


def packing(kind, counts, count, form, room):
    places = list(form)[:SLOTS]
    data = b''
    if not sound(counts):
        fault = (31, 0)
    elif kind == 3:
        places += [(0, 0)] * (SLOTS - len(places))
        fault = (24, 0) if count > SLOTS else slip_fault(counts, places[:count])
        data = b'' if fault else slip_bytes(places[:count])
    else:
        places += [0] * (SLOTS - len(places))
        fault = card_fault(counts, count, places)
        data = b'' if fault else card_bytes(places[:count])
    if not fault and min(room, ROOM) < len(data):
        fault = (30, kind - 1)
    if fault:
        return ' refused %d %d' % fault + numbers([BEFORE] * ROOM)
    return ' packed %d' % len(data) + numbers(list(data) + [BEFORE] * (ROOM - len(data)))


def written(case):
    kind, counts, rest = case
    return unpacking(kind, counts, rest) if kind < 2 else packing(kind, counts, *rest)


def stored_case(case):
    kind, counts, rest = case
    out = [kind, len(counts)] + counts[:SLOTS]
    if kind < 2:
        return bytes(out + [len(rest)]) + rest
    count, form, room = rest
    out += [255 if count == GREATEST else count, len(form)]
    out += [x for change in form for x in change] if kind == 3 else list(form)
    return bytes(out + [room])


def flips(data):
    """Every single-bit damage."""
    for i in range(8 * len(data)):
        yield bytes(b ^ (128 >> i % 8 if i // 8 == k else 0) for k, b in enumerate(data))


THREE = [2, 2, 2]
FULL = [VALUES] * SLOTS


def cases():
    chance = random.Random(11)
    # the cases of document 01: K, L, the card cut short, the card of case C, slips 00 and 04 04, the changes of case C
    for data in ('0C44C0', '0C4441', '0C44', '0C4440', '0C8880', '0C0000', ''):
        yield (0, THREE, bytes.fromhex(data))
    for data in ('00', '0404', '0C04121100', '', '01', '02', '03', '0000'):
        yield (1, THREE, bytes.fromhex(data))
    # no slots
    for data in ('00', '01', '02', '03', '0000', '04', '0400'):
        yield (0, [], bytes.fromhex(data))
    for data in ('00', '0404', '01'):
        yield (1, [], bytes.fromhex(data))
    # counts with their own right and wrong lengths, by a table of as many slots where there is one, and by others
    for n in (0, 1, 2, 31, 32, 33, 63):
        counts = [chance.randint(1, VALUES) for s in range(min(n, SLOTS))]
        data = card_bytes([chance.randint(0, counts[s]) if s < SLOTS else 0 for s in range(n)])
        yield (0, counts, data)
        yield (0, counts, data + b'\0')
        yield (0, counts, data[:-1])
        yield (0, THREE, data)
        yield (0, FULL, data)
        yield (0, [VALUES] * 33, data)
    for m in (0, 1, 32, 33, 63):
        counts = [chance.randint(1, VALUES) for s in range(SLOTS)]
        data = slip_bytes([(s % SLOTS, chance.randint(1, counts[s % SLOTS])) for s in range(m)])
        yield (1, counts, data)
        yield (1, counts, data + b'\0')
        yield (1, counts, data[:-1])
        yield (1, THREE, data)
        yield (1, [1, 0], data)
    # 31
    for counts in ([0], [16], [1, 0, 1], [1] * 33):
        for kind, rest in ((0, b'\x04\x40'), (1, b'\0'), (2, (1, [0], 40)), (3, (0, [], 40))):
            yield (kind, counts, rest)
    # every value of a slot, none of them taken for another
    for v in range(16):
        yield (0, [7, 15], card_bytes([v, 15 - v]))
        yield (2, [7, 15], (2, [v, 15 - v], 2))
    # withdrawals: of each slot alone, of all, beside values, with the changes' padding and length damaged
    for changes in ([(s, 0) for s in range(3)], [(0, 0), (2, 2)], [(1, 2), (2, 0)], [(0, 0), (1, 0), (2, 3)], [(0, 0), (0, 0)], [(3, 0)], [(0, 3), (1, 0)]):
        yield (1, THREE, slip_bytes(changes))
        yield (3, THREE, (len(changes), changes, 40))
    for slot in range(SLOTS):
        yield (1, FULL, slip_bytes([(slot, 0)]))
        yield (3, FULL, (1, [(slot, 0)], 2))
    yield (1, FULL, slip_bytes([(s, 0) for s in range(SLOTS)]))
    for room in (36, 37):
        yield (3, FULL, (SLOTS, [(s, 0) for s in range(SLOTS)], room))
    for bad in flips(slip_bytes([(0, 0), (2, 0)])):
        yield (1, THREE, bad)
    # changes: the first faulty one, by 25, 26, 27
    for changes in ([(2, 1), (1, 1)], [(1, 1), (1, 1)], [(0, 1), (0, 3)], [(3, 1)], [(0, 0)], [(0, 3)], [(0, 1), (3, 3), (0, 3)], [(0, 1), (1, 3), (31, 15)], [(0, 2), (1, 2), (2, 2)], [(2, 2)], [(2, 2), (3, 1)]):
        yield (1, THREE, slip_bytes(changes))
        yield (3, THREE, (len(changes), changes, 40))
    # damage
    for data in (card_bytes([1, 0, 2]), card_bytes([2, 2]), card_bytes([])):
        for bad in flips(data):
            yield (0, THREE[:data[0] // 4], bad)
    for data in (slip_bytes([(0, 1), (1, 2), (2, 1)]), slip_bytes([(1, 1), (2, 2)]), slip_bytes([])):
        for bad in flips(data):
            yield (1, THREE, bad)
    for bad in flips(card_bytes([s % 16 for s in range(SLOTS)])):
        yield (0, FULL, bad)
    for bad in flips(slip_bytes([(s, 15 - s % 3) for s in range(0, SLOTS, 5)])):
        yield (1, FULL, bad)
    # outputs of every length
    for room in range(41):
        yield (2, THREE, (3, [1, 0, 2], room))
        yield (3, THREE, (2, [(0, 1), (2, 2)], room))
        yield (3, FULL, (32, [(s, 1 + s % 15) for s in range(SLOTS)], room))
        yield (2, FULL, (32, [s % 16 for s in range(SLOTS)], room))
    # forms out of range
    for count in (0, 2, 4, 31, 32, 33, 254, GREATEST):
        yield (2, THREE, (count, [2, 2, 2], 40))
        yield (2, FULL, (count, [1] * SLOTS, 40))
        yield (3, THREE, (count, [(0, 1), (1, 1), (2, 1)], 40))
        yield (3, FULL, (count, [(s, 1) for s in range(SLOTS)], 40))
        yield (2, [], (count, [], 40))
        yield (3, [], (count, [], 40))
    for v in (3, 16, 17, 128, 200, 255):
        yield (2, THREE, (3, [v, 0, 0], 40))
        yield (2, THREE, (3, [0, 0, v], 0))
        yield (3, THREE, (1, [(0, v)], 40))
        yield (3, THREE, (2, [(0, 1), (v, 1)], 0))
    # by chance
    for i in range(120):
        counts = [chance.randint(1, VALUES) for s in range(chance.randint(0, SLOTS))]
        values = [chance.randint(0, n) for n in counts]
        slots = sorted(chance.sample(range(len(counts)), chance.randint(0, len(counts))))
        changes = [(s, chance.randint(0, counts[s])) for s in slots]
        kind = i % 4
        yield (kind, counts, (card_bytes(values), slip_bytes(changes), (len(values), values, 40), (len(changes), changes, 40))[kind])


def stored():
    """Each file with what it should hold."""
    all_cases = list(cases())
    given = len(all_cases).to_bytes(2, 'big') + b''.join(stored_case(c) for c in all_cases)
    yield 'tests/stored/cards/input', given
    yield 'tests/stored/cards/expected', ''.join('case %d%s\n' % (i + 1, written(c)) for i, c in enumerate(all_cases)).encode()


if __name__ == '__main__':
    sys.exit(run(stored()))
