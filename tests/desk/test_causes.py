"""What the desk says behind 40, 41 and 42, held to the library on generated files: the same changes, fired rules and slots, and every cause one that brings its value."""
import random
import unittest

from running import DeskTest

from desk.causes import Selection, explain, fire
from desk.diagnosis import load
from desk.faults import Refused
from desk.library import Library, Records, Responder

FILES, ENTRIES = 250, 12


def generated(rng):
    """A rule file over a few slots, with tests of all kinds."""
    slots = [f's{number}' for number in range(rng.randrange(2, 5))]
    lines = [f'SLOT {slot} {{ a, b, c }};' for slot in slots]

    def pair(sign):
        """A slot and a value with a sign between."""
        return f"{rng.choice(slots)} {sign} {rng.choice(['a', 'b', 'c', 'NONE'])}"

    for _ in range(rng.randrange(1, 7)):
        tests = [('NOT ' if rng.random() < 0.4 else '') + pair(rng.choice(['*=', '*=', '|='])) for _ in range(rng.randrange(3))]
        assigned = rng.sample(slots, rng.randrange(1, 3))
        assigns = ', '.join(f"{slot} := {rng.choice(['a', 'b', 'c', 'NONE'])}" for slot in assigned)
        lines.append(f"WHEN {pair('*=')} IF {' AND '.join(tests) or 'TRUE'} THEN {{ {assigns} }};")
    return '\n'.join(lines).encode()


class Causes(DeskTest):
    """Both responses on generated files."""

    def setUp(self):
        """Counts what was met."""
        super().setUp()
        self.library, self.met = Library(), {}

    def entries(self, rng, file):
        """Some cards and slips of a file, packed and unpacked."""
        for _ in range(ENTRIES):
            values = [rng.randrange(4) for _ in file.slots]
            changes = sorted({slot: rng.randrange(4) for slot in rng.sample(range(len(file.slots)), rng.randrange(1, len(file.slots)))}.items())
            yield values, changes, self.library.pack_card(file.bare, values)[2], self.library.pack_slip(file.bare, changes)[2]

    def held(self, file, answer, changes, fired):
        """Sees that an answer has these changes and fired rules."""
        self.assertEqual(set(self.library.unpack_slip(file.bare, answer.changes)[2]), changes)
        self.assertEqual(set(answer.rules()), fired)

    def caused(self, file, values, slot, slip, fired):
        """Sees that each value that meets another has its causes, all of them and no other."""
        for one in values:
            value = file.values[slot].index(one['value'])
            by = ['slip'] * ((slot, value) in slip) + [rule.number for rule in file.rules if rule.number in fired and (slot, value) in rule.assigns]
            self.assertEqual(one['by'], by)
            self.assertTrue(by)

    def test_strata(self):
        """By strata: the changes and fired rules of an answer, the slot of 40 and all its values with their causes."""
        rng = random.Random(40)
        for _ in range(FILES):
            try:
                file = load(self.library, 'rules', generated(rng))
            except Refused as refused:
                self.assertEqual(refused.number, 18)
                continue
            responder = Responder(self.library, file.table)
            for values, slip, card, packed in self.entries(rng, file):
                answer = responder.respond(Records(), 1, card, packed)
                self.met[answer.number] = self.met.get(answer.number, 0) + 1
                changes, fired = fire(file, values, slip)
                if answer.number == 0:
                    self.held(file, answer, changes, fired)
                    continue
                self.assertEqual(answer.number, 40)
                told = explain(file, 40, answer.second, values, slip)[1]
                self.assertEqual(told['slot'], file.slots[answer.second])
                self.assertEqual({one['value'] for one in told['values']}, {file.named(*pair)[1] for pair in changes if pair[0] == answer.second})
                self.assertGreater(len(told['values']), 1)
                self.caused(file, told['values'], answer.second, slip, fired)
        self.assertGreater(min(self.met[0], self.met[40]), 200)

    def test_marks(self):
        """By marks: the changes and fired rules of an answer, of 41 a slot with two values, of 42 the pairs that stay unknown."""
        rng = random.Random(41)
        for _ in range(FILES):
            file = load(self.library, 'rules', generated(rng), by_marks=True)
            responder = Responder(self.library, file.table, by_marks=True)
            for values, slip, card, packed in self.entries(rng, file):
                answer = responder.respond(Records(), 1, card, packed)
                self.met[answer.number] = self.met.get(answer.number, 0) + 1
                selection = Selection(file, values, slip)
                self.assertEqual(bool(selection.clashes()), answer.number == 41)
                if answer.number == 0:
                    self.assertEqual(selection.unknown(), [])
                    self.held(file, answer, selection.positive, selection.fired)
                elif answer.number == 41:
                    told = explain(file, 41, 0, values, slip)[1]
                    self.assertGreater(len(told['values']), 1)
                    self.caused(file, told['values'], file.slots.index(told['slot']), slip, selection.fired)
                else:
                    told = explain(file, 42, 0, values, slip)[1]
                    self.assertTrue(told['unknown'])
                    self.assertTrue(all(pair['rules'] for pair in told['unknown']))
        self.assertGreater(min(self.met[0], self.met[41], self.met[42]), 200)


if __name__ == '__main__':
    unittest.main()
