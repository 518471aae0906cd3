#!/usr/bin/env python3
"""The stored tables of the crate strata_cases, and what it should write of them, by a reckoning of its own made from document 01 and sections 2, 6 and 7 of document 02.

  tests/strata_cases.py          writes crates/strata_cases/stdin and stdout
  tests/strata_cases.py --check  says whether they are what it would write; exit status 1 where they are not

A table here is (fill, counts, rules): what fills unused places, the values of each slot, and the rules; a rule is
(trigger, literals, assignments, stratum), a literal (becomes, negated, slot, value), value 0 being NONE. A longer list than the limit stands for a number that breaks it.
Rules that come to each other by dependence make a knot, found by depth first search, forward and back. A circle through a NOT is a knot with
a NOT among its own steps; where there is none, a stratum is one more than the most NOTs on a walk of dependence, reckoned knot by knot.
"""
import random
import sys

from stored import run

SLOTS, VALUES, RULES, LITERALS, ASSIGNMENTS = 32, 15, 2000, 8, 4
INPUT = 262144


def tests(rule):
    """The pairs that a rule tests by *=, each with 1 under NOT and 0 elsewhere: its trigger, and its literals *=."""
    return [(rule[0], 0)] + [((s, v), negated) for becomes, negated, s, v in rule[1] if becomes]


def dependences(rules):
    """For each rule its steps of dependence: each a rule by number from 0, and 1 under NOT."""
    assigning = {}
    for m, rule in enumerate(rules):
        for pair in rule[2]:
            assigning.setdefault(pair, set()).add(m)
    return [{(m, under) for pair, under in tests(rule) for m in assigning.get(pair, ())} for rule in rules]


def search(nexts, starts):
    """For each start not met before, the numbers first met from it, depth first, each after those beyond it."""
    met, groups = set(), []
    for start in starts:
        if start in met:
            continue
        met.add(start)
        group, path = [], [(start, iter(nexts[start]))]
        while path:
            for m in path[-1][1]:
                if m not in met:
                    met.add(m)
                    path.append((m, iter(nexts[m])))
                    break
            else:
                group.append(path.pop()[0])
        groups.append(group)
    return groups


def knots(edges):
    """The sets of rules that come to each other, each after those that it depends on."""
    nexts = [{m for m, under in steps} for steps in edges]
    backs = [[] for steps in edges]
    for n, steps in enumerate(nexts):
        for m in steps:
            backs[m].append(n)
    order = [n for group in search(nexts, range(len(edges))) for n in group]
    return [set(group) for group in reversed(search(backs, reversed(order)))]


def circle(edges):
    """The lowest rule, from 1, in a knot with a NOT among its own steps; None where there is none."""
    through = [knot for knot in knots(edges) if any(under and m in knot for n in knot for m, under in edges[n])]
    return min((min(knot) + 1 for knot in through), default=None)


def strata(edges):
    """The least strata where no circle passes through a NOT: a knot has one number, that of the highest step out of it, or one more under NOT."""
    numbers = {}
    for knot in knots(edges):
        high = max((numbers[m] + under for n in knot for m, under in edges[n] if m not in knot), default=1)
        numbers.update((n, high) for n in knot)
    return [numbers[n] for n in range(len(edges))]


def well_formed(table):
    """31 without strata."""
    fill, counts, rules = table
    if len(counts) > SLOTS or any(n > VALUES for n in counts) or len(rules) > RULES:
        return False
    if any(n == 0 for n in counts):
        return False
    for trigger, literals, assignments, stratum in rules:
        if len(literals) > LITERALS or len(assignments) > ASSIGNMENTS:
            return False
        for s, v in [trigger] + [(s, v) for b, n, s, v in literals] + assignments:
            if s >= len(counts) or v > counts[s]:
                return False
        if len({s for s, v in assignments}) < len(assignments):
            return False
    return True


def sound(table):
    if not well_formed(table):
        return False
    rules = table[2]
    edges = dependences(rules)
    return circle(edges) is None and strata(edges) == [rule[3] for rule in rules]


def written(table):
    """What the program writes of a table."""
    line = ' form %d sound %d' % (well_formed(table), sound(table))
    if well_formed(table):
        edges = dependences(table[2])
        low = circle(edges)
        if low is not None:
            return line + ' circle %d passes 1' % low
        line += ' layered' + ''.join(' %d' % n for n in strata(edges)) + ' passes %d' % sound(layered(table))
    return line


def packed(table):
    """A table as the program reads it."""
    fill, counts, rules = table
    out = [fill, len(counts)] + counts[:SLOTS] + [len(rules) // 256, len(rules) % 256]
    for (s, v), literals, assignments, stratum in rules[:RULES]:
        out += [s, v, stratum // 256, stratum % 256, len(literals)]
        for becomes, negated, ls, lv in literals[:LITERALS]:
            out += [becomes + 2 * negated, ls, lv]
        out.append(len(assignments))
        for a in assignments[:ASSIGNMENTS]:
            out += list(a)
    return bytes(out)


def rule(trigger, *assignments, plain=(), under=(), had=(), had_not=(), stratum=0):
    literals = [(1, 0, s, v) for s, v in plain] + [(1, 1, s, v) for s, v in under] + [(0, 0, s, v) for s, v in had] + [(0, 1, s, v) for s, v in had_not]
    return (trigger, literals, list(assignments), stratum)


def pair(k):
    """480 pairs that go round the 32 slots."""
    return (k % 32, k // 32 + 1)


FULL = [VALUES] * SLOTS
# All pairs, again and again, for chains that go round.
P = [pair(k) for k in range(480)] * 5
X, Y, Z = (0, 2), (1, 2), (2, 2)


def full(*rules):
    return (0, FULL, list(rules))


def barred(table, *numbers):
    """A table in which these rules, from 1, test under NOT what their triggers tested, and have one trigger that no rule assigns."""
    fill, counts, rules = table
    turned = [((31, 15), [(1, 1) + t] + l, a, s) if n in numbers else (t, l, a, s) for n, (t, l, a, s) in enumerate(rules, 1)]
    return (fill, counts, turned)


def carrying(table, *numbers):
    """A table with these strata, the last of them for all rules that are left."""
    fill, counts, rules = table
    return (fill, counts, [(t, l, a, numbers[min(n, len(numbers) - 1)]) for n, (t, l, a, s) in enumerate(rules)])


def layered(table):
    """A table with its least strata."""
    return carrying(table, *strata(dependences(table[2])))


def backward(table):
    """A table with its rules in the other order."""
    return (table[0], table[1], table[2][::-1])


def files(*lists):
    """Tables over the three slots of document 01."""
    return [(0, [2, 2, 2], list(rules)) for rules in lists]


def documents():
    """The cases of document 01 and the readings of section 2 of document 02."""
    a = rule(X, Z, had=[(1, 1)])
    b = rule(Z, Y, had=[(1, 1)])
    c = rule(Z, X, had=[(1, 1)])
    d = rule(Y, Z, under=[X])
    e = rule(Y, X, had=[(0, 1)])
    h = rule(X, (0, 1))
    # the cases, in either order
    yield from files([], [a], [b], [a, b], [b, a], [a, c], [c, a], [d, e], [e, d], [h])
    # a rule that tests what it assigns: in its trigger, plainly, under NOT, both; by |= it does not
    yield from files([rule(X, X)], [rule(X, Y, plain=[Y])], [rule(X, Y, under=[Y])], [rule(X, Y, plain=[Y], under=[Y])], [rule(X, Y, had=[Y])], [rule(X, Y, had_not=[Y])])
    # a circle of two: plain, under NOT, both, by |=
    yield from files([rule(X, Y), rule(Z, X, plain=[Y])], [rule(X, Y), rule(Z, X, under=[Y])], [rule(X, Y), rule(Z, X, plain=[Y], under=[Y])], [rule(X, Y), rule(Z, X, had=[Y], had_not=[Y])])
    # 1 waits for 2, 2 for 1 and under NOT for 3, 3 for 2: no circle through the NOT meets 1 without meeting 2 twice; the same in other orders, and without one of the three
    one, two, three = rule(X, Y), rule(Y, X, under=[Z]), rule(X, Z)
    yield from files([one, two, three], [three, two, one], [two, one, three], [one, three, two], [one, two], [one, three], [two, three])


def withdrawn():
    """Tests of NONE bind as those of any value, and a slot's values and its NONE bind apart."""
    none = (1, 0)
    yield from files([rule(X, Z, under=[none]), rule(Z, none)], [rule(X, Z, under=[none], stratum=2), rule(Y, none, stratum=1)], [rule(X, Z, under=[none], stratum=1), rule(Y, (1, 1), stratum=1)], [rule(none, none, stratum=1)], [rule(X, none, (1, 1), stratum=1)])
    yield full(rule((31, 0), (30, 0), (29, 15), stratum=1), rule((30, 0), (31, 0), had=[(0, 0)], had_not=[(29, 0)], stratum=1))


def circles():
    """Circles, plain and through a NOT, and what leads into them or hangs from them."""
    # two circles, of which the one with the higher numbers is met first from rule 1
    two = full(rule(P[0], P[1]), rule(P[2], P[3]), rule(P[3], P[2]), rule(P[4], P[5]), rule(P[5], P[4], plain=[P[3]]))
    yield from [two, barred(two, 2), barred(two, 4), barred(two, 3, 4), barred(two, 1)]
    far = full(rule(P[9], P[0]), rule(P[4], P[5]), rule(P[7], P[8]), rule(P[5], P[4], plain=[P[8]]), rule(P[8], P[7]))
    yield from [far, barred(far, 3), barred(far, 2), barred(far, 5, 4)]
    # a rule between two circles
    between = full(rule(P[1], P[4]), rule(P[0], P[1]), rule(P[1], P[0]), rule(P[4], P[5]), rule(P[5], P[4]))
    yield from [between, barred(between, 1), barred(between, 4), barred(between, 3)]
    # rules that only lead into a circle, and rules that only hang from one
    into = full(rule(P[1], P[9]), rule(P[2], P[1]), rule(P[3], P[2]), rule(P[2], P[3]), rule(P[7], P[8]))
    yield from [into, barred(into, 4), barred(into, 1, 2), backward(barred(into, 4))]
    from_it = full(rule(P[8], P[1]), rule(P[1], P[2]), rule(P[2], P[3]), rule(P[3], P[2]), rule(P[1], P[7]))
    yield from [from_it, barred(from_it, 3), barred(from_it, 2), backward(barred(from_it, 3))]
    # a plain circle of six, of which the last or the first rule is on a circle through a NOT too; the NOT elsewhere in the knot
    six = [rule(P[i], P[(i + 1) % 6]) for i in range(6)]
    last = rule(P[5], P[0], under=[P[10]])
    yield full(*six[:5], last, rule(P[0], P[10]))
    yield full(rule(P[5], P[10]), *six[:3], rule(P[3], P[4], under=[P[10]]), *six[4:])
    yield full(*six, rule(P[2], P[10]), rule(P[10], P[11]), rule(P[31], P[2], under=[P[11]]))
    yield full(*six, rule(P[2], P[10]), rule(P[31], P[11], under=[P[10]]), rule(P[11], P[12]), rule(P[12], P[4]))
    yield full(*six, rule(P[2], P[10]), rule(P[31], P[11], under=[P[10]]), rule(P[11], P[12]), rule(P[12], P[13]))
    yield full(rule(P[13], P[14]), *six, rule(P[2], P[10]), rule(P[10], P[11], under=[P[0]]), rule(P[11], P[13], under=[P[2]]))
    # two circles through one rule, one of them through a NOT, and a third through a rule of the plain one
    yield full(rule(P[20], P[21]), rule(P[21], P[20]), rule(P[20], P[1]), rule(P[1], P[20], under=[P[2]]), rule(P[20], P[2]))
    # 255 rules in one circle through a NOT, and a circle at the end of a chain
    ring = full(*[rule(P[i], P[(i + 1) % 255]) for i in range(255)])
    yield from [barred(ring, 255), backward(barred(ring, 128))]
    own = full(*[rule(P[i + 1], P[i]) for i in range(254)], rule(P[300], P[254], plain=[P[254]]))
    yield from [barred(own, 100), full(*own[2][:254], rule(P[300], P[254], under=[P[254]]))]
    end = full(*[rule(P[i], P[i + 1]) for i in range(253)], rule(P[254], P[253]), rule(P[253], P[254]))
    yield from [barred(end, 100), barred(end, 255)]
    # a circle of two rules above 255, and the same at the end of the longest table, where the first of the two is the last but one; a ring of 480 pairs that goes round, with a NOT at its end
    high = [rule(P[0], P[1])] * 300 + [rule(P[2], P[3], under=[P[4]]), rule(P[3], P[4])]
    yield from [full(*high), full(*[rule(P[0], P[1])] * 1998, *high[300:])]
    yield barred(full(*[rule(P[i], P[i + 1]) for i in range(480)]), 480)
    # a plain circle of 252 rules, and a circle through a NOT that shares its last rule
    shared = full(*[rule(P[i], P[(i + 1) % 252]) for i in range(251)], rule(P[251], P[0], under=[P[400]]), rule(P[0], P[399]), rule(P[399], P[400]))
    yield from [shared, backward(shared)]


def heights():
    """Strata: pairs and slots, diamonds, chains."""
    # dependence is on pairs, not on slots
    slots = full(rule((0, 1), (0, 2)), rule((0, 2), (0, 3)), rule((0, 3), (0, 4)))
    yield from [slots, barred(slots, 2, 3)]
    # diamonds
    sides = full(rule(P[0], P[1]), rule(P[1], P[2]), rule(P[1], P[3]), rule(P[2], P[4], plain=[P[3]]))
    yield from [sides, barred(sides, 2), barred(sides, 3), barred(sides, 2, 3, 4)]
    yield full(rule(P[2], P[4], under=[P[3]]), rule(P[1], P[3]), rule(P[1], P[2]), rule(P[0], P[1]))
    yield full(rule(P[0], P[1], P[2], P[3], P[4]), *[rule(P[1 + k % 4], P[10 + k], under=[P[10 + j] for j in range(max(0, k - 7), k)]) for k in range(20)])
    # all 480 pairs in one chain: two tested and two assigned by each of 239 rules
    yield full(*[rule(P[2 * i], P[2 * i + 2], P[2 * i + 3], plain=[P[2 * i + 1]]) for i in range(239)])
    yield full(*[rule(P[2 * i], P[2 * i + 2], P[2 * i + 3], under=[P[2 * i + 1]]) for i in reversed(range(239))])
    # every rule tests nine pairs and assigns four
    yield full(*[rule(P[i], *[P[i + 9 + j] for j in range(4)], plain=[P[i + j] for j in range(1, 9)]) for i in range(240)])
    # chains of 255 rules, plain above a NOT and under NOT throughout, with their strata and with the last one lower; shorter ones of which every other rule tests under NOT
    chain = full(*[rule(P[i], P[i + 1]) for i in range(255)])
    for table in (barred(chain, 2), barred(chain, *range(1, 256)), barred(full(*chain[2][:40]), *range(1, 41, 2))):
        right = layered(table)
        numbers = [r[3] for r in right[2]]
        yield from [right, backward(right), backward(carrying(table, *numbers[:-1], numbers[-1] - 1))]
    # a chain under NOT through all pairs but the one that triggers it: its strata, those cut to a byte, 256 more or less than right, no higher than 255, the highest number there is
    chain = full(*[rule(P[i], P[i + 1]) for i in range(478)])
    right = layered(barred(chain, *range(1, 479)))
    numbers = [r[3] for r in right[2]]
    yield from [right, backward(right), carrying(right, *[n % 256 for n in numbers]), carrying(right, *[n + 256 for n in numbers]), carrying(right, *[min(n, 255) for n in numbers])]
    yield from [carrying(right, *numbers[:-1], last) for last in (numbers[-1] - 256, numbers[-1] + 256, 65535)]


def carried():
    """31: right strata, and others."""
    # a plain chain, and one under NOT
    chain = full(rule(P[0], P[1]), rule(P[1], P[2]), rule(P[2], P[3]))
    for numbers in ((1, 1, 1), (1, 2, 3), (1, 1, 2), (2, 2, 2), (3, 2, 1), (1, 1, 0), (0, 0, 0), (1, 2, 1)):
        yield from [carrying(chain, *numbers), carrying(barred(chain, 2, 3), *numbers), carrying(barred(chain, 2), *numbers)]
    # two rules that feed each other
    pair_of = full(rule(P[0], P[1]), rule(P[1], P[0]))
    yield from [carrying(pair_of, *numbers) for numbers in ((1, 1), (2, 2), (1, 2), (2, 1), (0, 0), (0, 1), (3, 3), (255, 255), (257, 257), (256, 256), (65535, 65535))]
    # a rule that feeds itself, alone and above a NOT
    yield from [carrying(full(rule(P[0], P[0])), n) for n in (0, 1, 2)]
    lifted = full(rule(P[5], P[9]), rule(P[0], P[0], under=[P[9]]))
    yield from [carrying(lifted, *numbers) for numbers in ((1, 1), (1, 2), (1, 3), (2, 3))]
    # a plain circle above a NOT and a rule that hangs from it, plainly and under NOT
    above = full(rule(P[5], P[9]), rule(P[0], P[1], under=[P[9]]), rule(P[1], P[0]), rule(P[1], P[7]))
    for numbers in ((1, 2, 2, 2), (1, 3, 3, 3), (1, 1, 1, 1), (1, 2, 1, 1), (1, 2, 2, 3), (1, 2, 3, 3), (1, 3, 3, 4), (2, 3, 3, 3)):
        yield from [carrying(above, *numbers), carrying(barred(above, 4), *numbers)]
    # two plain circles, the second fed by the first: either may be lifted so that each number is what the others ask
    twice = full(rule(P[0], P[1]), rule(P[1], P[0]), rule(P[1], P[2]), rule(P[2], P[3]), rule(P[3], P[2]))
    yield from [carrying(twice, *numbers) for numbers in ((1,), (2,), (1, 1, 1, 2, 2), (2, 2, 1, 1, 1), (1, 1, 2, 2, 2))]
    # 255 rules in a plain circle
    ring = full(*[rule(P[i], P[(i + 1) % 255]) for i in range(255)])
    yield from [carrying(ring, n) for n in (1, 2)]
    # rules with a circle through a NOT carry no right numbers
    yield from [carrying(barred(pair_of, 2), *numbers) for numbers in ((1, 1), (1, 2), (2, 1), (255, 255))]


def forms():
    """31: the other ways to break it."""
    three = [2, 2, 2]
    good = [rule(X, Z, stratum=1), rule(Y, Y, under=[Z], stratum=2)]
    yield (0, three, good)
    yield (0, [2, 0, 2], [])
    yield (0, [2, 16, 2], [])
    yield (0, [], [])
    yield (0, [], [rule((0, 1), stratum=1)])
    yield (0, [1] * 32, [rule((31, 1), (0, 1), stratum=1)])
    yield (0, [1] * 33, [])
    yield from [(0, [1], [rule((0, 1), stratum=1)] * count) for count in (255, 256, 2000, 2001)]
    yield from files(*[[rule((s, v), stratum=1)] for s, v in ((0, 0), (0, 1), (0, 2), (0, 3), (2, 2), (3, 1), (255, 1), (0, 255))])
    yield from files(*[[rule(X, had=[q], stratum=1)] for q in ((0, 0), (0, 3), (3, 1))])
    yield from files(*[[rule(X, q, stratum=1)] for q in ((1, 0), (1, 3), (3, 1))])
    yield from files([rule(X, Y, Y, stratum=1)], [rule(X, Y, (1, 1), stratum=1)], [rule(X, Z, Y, stratum=1)], [rule(X, Y, Z, (1, 1), stratum=1)])
    yield full(rule(P[0], had=[P[1]] * 8, stratum=1))
    yield full(rule(P[0], had=[P[1]] * 9, stratum=1))
    yield full(rule(P[0], P[1], P[2], P[3], P[4], stratum=1))
    yield full(rule(P[0], P[1], P[2], P[3], P[4], P[5], stratum=1))
    # unused places hold anything
    for fill in (1, 2, 77, 255):
        yield (fill, three, good)
        yield (fill, [2], [rule((0, 1), stratum=1)])


def by_chance():
    """Tables by chance: with any strata, or with the least where there are any, perhaps one of them changed."""
    chance = random.Random(5)
    for i in range(44):
        width = chance.randint(1, 6)
        counts = [chance.randint(1, 4) for s in range(width)]

        def any_pair():
            s = chance.randrange(width)
            return (s, chance.randint(0, counts[s]))

        rules = []
        for n in range(chance.randint(1, 14)):
            slots = chance.sample(range(width), chance.randint(0, min(width, 3)))
            literals = [(chance.randint(0, 1), int(not chance.randrange(i % 4 + 1))) + any_pair() for j in range(chance.randint(0, 3))]
            rules.append((any_pair(), literals, [(s, chance.randint(0, counts[s])) for s in slots], chance.randint(0, 3)))
        table = (chance.randrange(256), counts, rules)
        if i % 2 and circle(dependences(rules)) is None:
            table = layered(table)
            numbers = [r[3] for r in table[2]]
            numbers[chance.randrange(len(rules))] += chance.choice([0, 0, 1, -1])
            table = carrying(table, *numbers)
        yield table


def cases():
    for part in (documents, withdrawn, circles, heights, carried, forms, by_chance):
        yield from part()


def chain_line(word, rules):
    """What the program writes of a chain that it makes itself: how many rules, the strata of the first and the last, whether it then passes; of one without strata the first of the table without rules, which passes."""
    edges = dependences(rules)
    if circle(edges) is not None:
        return '%s %d 0 1' % (word, len(rules))
    numbers = strata(edges)
    return '%s %d %d %d %d' % (word, len(rules), numbers[0], numbers[-1], well_formed(full(*rules)))


def stored():
    """Each file with what it should hold."""
    tables = list(cases())
    assert len(tables) < 256
    stdin = bytes([len(tables)]) + b''.join(packed(t) for t in tables)
    assert len(stdin) <= INPUT
    lines = ['case %d%s' % (i + 1, written(t)) for i, t in enumerate(tables)]
    for n in [*range(1, 480), RULES]:
        lines.append(chain_line('forward', [rule(P[i], P[i + 1]) for i in range(n)]))
        lines.append(chain_line('backward', [rule(P[i + 1], P[i]) for i in range(n)]))
        lines.append(chain_line('forward-not', [rule(P[479], P[i + 1], under=[P[i]]) for i in range(n)]))
        lines.append(chain_line('backward-not', [rule(P[479], P[i], under=[P[i + 1]]) for i in range(n)]))
    yield 'crates/strata_cases/stdin', stdin
    yield 'crates/strata_cases/stdout', ''.join(line + '\n' for line in lines).encode()


if __name__ == '__main__':
    sys.exit(run(stored()))
