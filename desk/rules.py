"""An accepted rule file: its slots, values and rules by name."""
from .library import without_rules
from .tokens import Lines, tokens

NONE = 'NONE'


class Test:
    """A test of a rule: its trigger or a literal."""

    def __init__(self, becomes, negated, slot, value):
        """Keeps what is tested, and how."""
        self.becomes, self.negated, self.slot, self.value = becomes, negated, slot, value

    def pair(self):
        """The slot and the value."""
        return self.slot, self.value


class Rule:
    """A rule: its number, its tests, trigger first, the pairs that it assigns, its stratum and its line."""

    def __init__(self, number, entry, line):
        """Takes them from the table's rule."""
        self.number, self.stratum, self.line = number, entry.stratum, line
        self.tests = [Test(True, False, entry.slot, entry.value)]
        self.tests += [Test(test.becomes, test.negated, test.slot, test.value) for test in entry.literals[:entry.tested]]
        self.assigns = [(assigned.slot, assigned.value) for assigned in entry.assignments[:entry.assigned]]


class RuleFile:
    """A rule text with the table that was read from it."""

    def __init__(self, library, text, table, by_marks):
        """Takes the names and the rules from the table."""
        self.library, self.text, self.table, self.by_marks = library, text, table, by_marks
        self.bare = without_rules(table)
        self.slots = [library.slot_name(text, self.bare, slot) for slot in range(table.width)]
        self.values = [[NONE] + [library.value_name(text, self.bare, slot, value + 1) for value in range(table.slots[slot].count)]
                       for slot in range(table.width)]
        lines = Lines(text)
        starts = [lines.place(token.start)[0] for token in tokens(text) if token.part == b'WHEN']
        self.rules = [Rule(at + 1, table.rules[at], starts[at]) for at in range(table.count)]

    def named(self, slot, value):
        """A pair by its names."""
        return self.slots[slot], self.values[slot][value]

    def test(self, test):
        """A test as a rule writes it."""
        slot, value = self.named(test.slot, test.value)
        return f"{'NOT ' if test.negated else ''}{slot} {'*=' if test.becomes else '|='} {value}"

    def rule(self, number):
        """A rule in the house style."""
        rule = self.rules[number - 1]
        trigger, *literals = map(self.test, rule.tests)
        assigns = ', '.join('{} := {}'.format(*self.named(*pair)) for pair in rule.assigns)
        braced = f'{{ {assigns} }}' if len(rule.assigns) > 1 else assigns
        return f"WHEN {trigger} IF {' AND '.join(literals) or 'TRUE'} THEN {braced};"

    def strata(self):
        """How many strata there are."""
        return max((rule.stratum for rule in self.rules), default=0)
