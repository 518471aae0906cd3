"""Why a response refuses with 40, 41 or 42: the values that meet, or stay open, and the rules or the slip behind each.

The library names the lowest slot of a conflict and nothing else, so the rules are fired, or selected, here once more. All complete and consistent orders of firing have the same changes, fired rules and lowest slot as the library, and all complete orders of selection the same marks: that is proved (demand 3, `promises/specs/Agreement.antt`, and `promises/specs/Selections.antt`), so any one order tells.
"""
from collections import deque

TRUE, FALSE, UNKNOWN = 2, 0, 1


def holds(test, card, changes):
    """Whether a test holds by the card and the changes."""
    pair = test.pair()
    had = card[pair[0]] == pair[1]
    return (not had and pair in changes if test.becomes else had) != test.negated


def is_enabled(rule, card, changes):
    """Whether all tests of a rule hold."""
    return all(holds(test, card, changes) for test in rule.tests)


def fire(file, card, slip):
    """The changes and the fired rules of one complete and consistent order, stratum by stratum; None where it is not complete and consistent."""
    changes, fired = set(slip), set()
    waking, strata = {}, {}
    for rule in file.rules:
        strata.setdefault(rule.stratum, []).append(rule)
        for test in rule.tests:
            if test.becomes:
                waking.setdefault(test.pair(), []).append(rule)
    for stratum in sorted(strata):
        waiting = deque(strata[stratum])
        while waiting:
            rule = waiting.popleft()
            if rule.stratum != stratum or rule.number in fired or not is_enabled(rule, card, changes):
                continue
            fired.add(rule.number)
            for pair in rule.assigns:
                if pair not in changes:
                    changes.add(pair)
                    waiting.extend(waking.get(pair, []))
    agreed = all(is_enabled(rule, card, changes) == (rule.number in fired) for rule in file.rules)
    return (changes, fired) if agreed else None


def truth(test, card, positive, negative):
    """What a test comes to by the marks."""
    pair = test.pair()
    if not test.becomes:
        found = TRUE if card[pair[0]] == pair[1] else FALSE
    elif card[pair[0]] == pair[1] or pair in negative:
        found = FALSE
    else:
        found = TRUE if pair in positive else UNKNOWN
    return TRUE - found if test.negated else found


class Selection:
    """A complete order of selection: the marks at its end, and the rules that were fired."""

    def __init__(self, file, card, slip):
        """Makes moves until none is left, or until a pair is both positive and negative."""
        self.file, self.card = file, card
        self.positive, self.negative, self.fired = set(), set(), set()
        self.pairs = [(slot, value) for slot, values in enumerate(file.values) for value in range(len(values))]
        for pair in slip:
            self.mark(pair)
        while not self.clashes() and self.move():
            pass

    def mark(self, pair):
        """Marks a pair positive, and the other values of its slot negative."""
        self.positive.add(pair)
        self.negative |= {other for other in self.pairs if other[0] == pair[0] and other != pair}

    def clashes(self):
        """The pairs that are both positive and negative."""
        return self.positive & self.negative

    def truth(self, rule):
        """What a rule comes to: the least of its tests."""
        return min(truth(test, self.card, self.positive, self.negative) for test in rule.tests)

    def move(self):
        """Fires the rules that can be fired, one after the other, or else rules out all pairs that can be; whether something moved."""
        before = len(self.fired)
        for rule in self.file.rules:
            if rule.number not in self.fired and self.truth(rule) == TRUE:
                self.fired.add(rule.number)
                for pair in rule.assigns:
                    self.mark(pair)
                if self.clashes():
                    return True
        if len(self.fired) > before:
            return True
        open_pairs = {pair for rule in self.file.rules if self.truth(rule) != FALSE for pair in rule.assigns}
        out = {pair for pair in self.unknown() if pair not in open_pairs}
        self.negative |= out
        return bool(out)

    def unknown(self):
        """The pairs that are neither positive nor negative."""
        return [pair for pair in self.pairs if pair not in self.positive and pair not in self.negative]


def behind(file, pair, slip, fired):
    """The slip, as 0, and the fired rules that bring a pair."""
    return [0] * (pair in slip) + [rule.number for rule in file.rules if rule.number in fired and pair in rule.assigns]


def brought(file, pair, causes):
    """A value and what brings it, for a person."""
    words = [f'rule {cause} (line {file.rules[cause - 1].line}): {file.rule(cause)}' if cause else 'the slip' for cause in causes]
    return [f'    {file.named(*pair)[1]}: {one}' for one in words]


def told(file, pair, causes):
    """A value and what brings it, for a program."""
    return {'value': file.named(*pair)[1], 'by': [cause or 'slip' for cause in causes]}


def conflict(file, card, slip, slot):
    """The values that meet in the slot that 40 names, with what brings each, for people and for programs."""
    outcome = fire(file, card, slip)
    if outcome is None or min((pair[0] for pair in outcome[0] if len(values_at(outcome[0], pair[0])) > 1), default=None) != slot:
        return [f'the slot is {file.slots[slot]}'], {'slot': file.slots[slot]}
    changes, fired = outcome
    met = [(pair, behind(file, pair, slip, fired)) for pair in values_at(changes, slot)]
    detail = [f'{file.slots[slot]} would receive {len(met)} values:'] + [line for pair, causes in met for line in brought(file, pair, causes)]
    return detail, {'slot': file.slots[slot], 'values': [told(file, *one) for one in met]}


def values_at(changes, slot):
    """The pairs of a slot among the changes, by value."""
    return sorted(pair for pair in changes if pair[0] == slot)


def clash(file, card, slip):
    """Of 41 the slot at which one order of selection ends, with the values that meet there."""
    selection = Selection(file, card, slip)
    slot = min(selection.clashes())[0]
    met = [(pair, behind(file, pair, slip, selection.fired)) for pair in values_at(selection.positive, slot)]
    detail = [f'in one order of selection {file.slots[slot]} would receive {len(met)} values:']
    return detail + [line for pair, causes in met for line in brought(file, pair, causes)], {
        'slot': file.slots[slot], 'values': [told(file, *one) for one in met]}


def unknown(file, card, slip):
    """Of 42 the pairs that stay unknown, with the rules on which each waits."""
    selection = Selection(file, card, slip)
    detail, pairs = ['these stay unknown, and the rules behind them are neither true nor false:'], []
    for pair in selection.unknown():
        rules = [rule.number for rule in file.rules if pair in rule.assigns and selection.truth(rule) == UNKNOWN]
        detail.append(f"    {' := '.join(file.named(*pair))}: {', '.join(f'rule {number} (line {file.rules[number - 1].line})' for number in rules)}")
        slot, value = file.named(*pair)
        pairs.append({'slot': slot, 'value': value, 'rules': rules})
    return detail, {'unknown': pairs}


def explain(file, number, second, card, slip):
    """What a refusal of 40 to 42 comes from, for people and for programs."""
    if number == 40:
        return conflict(file, card, slip, second)
    return clash(file, card, slip) if number == 41 else unknown(file, card, slip)
