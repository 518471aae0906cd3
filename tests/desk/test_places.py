"""The places that `desk check` tells, held to places marked by hand and to the reader of read_cases.py, which shares nothing with it.

  python3 -m unittest discover -s tests/desk   from the root of the repository
"""
import glob
import os
import random
import re
import unittest

from faulty import END, FAULTY, NAME
from running import TOP, DeskTest, desk

from read_cases import RESERVED, place, read, texts, tokens
from stored import whole
from strata_cases import tests

MARKS = [b'{', b'}', b',', b';', b'*=', b'|=', b':=']
UNSAID = b'said-nowhere-else-before'
WHITE = [b' ', b' ', b' ', b'\n', b'\n    ', b'\r\n', b'\r', b'\t']
WORDS = [*sorted(RESERVED), *MARKS, b'OR', b'when', b'none', b'status', b'Status', b'rare', b'0', b'q' * 25, b'(', b'-', b'*', b':', b'=', b'#']
BYTES = [bytes([code]) for code in b'\0\t\n\r -09AZaz_{},;*|:=()"#\x1a\x7f\x80\xa0\xe9\xef\xff']

ITEMS = [re.compile(pattern, re.S) for pattern in (rb'SLOT[^;]*;', rb',[^,}]*', rb'AND.*?(?=AND|THEN)')]


def position(text, offset):
    """The line and the column of an offset, both from 1; a line ends at byte 10, at byte 13, or at 13 and 10 as one."""
    lines = re.split(rb'\r\n|\r|\n', text[:offset])
    return len(lines), len(lines[-1]) + 1


def may_stand(text, offset):
    """What the reader takes at an offset, by trying there each word and mark, each name that stands before, another name, and the end."""
    before = text[:offset] + b' '
    tried = [b'', UNSAID, *RESERVED, *MARKS, *{part for kind, part, _ in tokens(before) if kind == 'name'}]
    taken = [part for part in tried if (place(before + part) or (0, 0, None))[2] != len(before)]
    if UNSAID in taken:
        taken = [UNSAID, *(part for part in taken if part in RESERVED or not part[:1].isalnum())]
    return [{b'': END, UNSAID: NAME}.get(part, part.decode()) for part in taken]


def written(chance):
    """A rule file of a few slots or of 32 and up to six rules, spaced at random."""
    names = chance.sample([b'x', b'y', b'1', b'status', b'Status', b'first-attested', b'none', b'WHEN-', b'n' * 24, *(b's%d' % number for number in range(23))], chance.choice([1, 2, 3, 3, 4, 5, 32]))
    slots = {name: chance.sample([b'0', b'1', b'x', b'rare', b'obsolete', b'before-1600', b'v' * 24, *(b'v%d' % number for number in range(8))], chance.choice([1, 2, 2, 3, 4, 15])) for name in names}

    def pair(name, mark):
        """A slot, a mark and one of the slot's values or NONE."""
        return [name, mark, chance.choice(slots[name] + [b'NONE'])]

    def literal():
        """A literal under up to three NOTs."""
        return [b'NOT'] * chance.choice([0, 0, 1, 1, 2, 3]) + pair(chance.choice(names), chance.choice([b'*=', b'*=', b'|=']))

    def joined(parts, between):
        """Lists of tokens as one, with a token between."""
        return parts[0] + [token for part in parts[1:] for token in [between, *part]]

    parts = [token for name in names for token in [b'SLOT', name, b'{', *joined([[value] for value in slots[name]], b','), b'}', b';']]
    for _ in range(chance.randrange(7)):
        condition = chance.choice([[], [[b'TRUE']]]) + [literal() for _ in range(chance.choice([0, 1, 1, 2, 8]))]
        assigned = [pair(name, b':=') for name in chance.sample(names, chance.randrange(1, min(4, len(names)) + 1))]
        braces = len(assigned) > 1 or chance.randrange(2)
        parts += [b'WHEN', *pair(chance.choice(names), b'*='), b'IF', *joined(condition or [[b'TRUE']], b'AND'), b'THEN', *[b'{'] * braces, *joined(assigned, b','), *[b'}'] * braces, b';']
    return b''.join(part + chance.choice(WHITE) for part in parts)


def doubled(chance, text):
    """A text with a slot line, an item of a list or a literal said twice."""
    found = chance.choice([*chance.choice(ITEMS).finditer(text)] or [re.match(b'', text)])
    return text[:found.end()] + b' ' + found.group() + text[found.end():]


def damaged(chance, text):
    """A text in which one to three times a token, or a byte, is taken out, exchanged or replaced, a stretch of them is doubled, or the rest is cut off."""
    by_token = chance.randrange(3)
    parts = re.findall(rb'[0-9A-Za-z][0-9A-Za-z-]*|[*|:]=|\s+|.', text, re.S) if by_token else [text[at:at + 1] for at in range(len(text))]
    for _ in range(chance.choice([1, 1, 1, 2, 3])):
        spot, other = chance.randrange(len(parts)), chance.randrange(len(parts))
        harm = chance.randrange(16)
        if harm < 3:
            parts[spot] = b''
        elif harm < 6:
            parts[spot], parts[other] = parts[other], parts[spot]
        elif harm < 9:
            parts[spot] = parts[other]
        elif harm < 12:
            parts[spot] = chance.choice(WORDS if by_token else BYTES)
        elif harm < 15:
            parts[spot:spot] = parts[spot:spot + chance.randrange(1, 20)]
        else:
            parts[spot:] = [b'']
    return b''.join(parts)


def generated(seed, count):
    """So many damaged files, of the examples' rules and of generated ones."""
    chance = random.Random(seed)
    examples = []
    for path in sorted(glob.glob(os.path.join(TOP, 'examples/*/rules.txt'))):
        with open(path, 'rb') as file:
            examples.append(file.read())
    for _ in range(count):
        harm = chance.choice([damaged, damaged, doubled])
        yield harm(chance, chance.choice(examples) if not chance.randrange(4) else written(chance))


class Places(DeskTest):
    """Each test runs `desk check --json` on its files."""

    def checked(self, text):
        """The exit status of a check of this text, and its answer."""
        run = desk('check', '--json', self.put('rules.txt', text))
        return run.status, run.json()

    def held(self, text, refusal):
        """Holds the answer for a text to its refusal as `place` tells it: the token's bytes only where they can be shown as they are."""
        status, answer = self.checked(text)
        if refusal is None:
            self.assertEqual((status, answer['accepted']), (0, True))
            return answer
        number, second, offset, token = refusal
        self.assertEqual((status, answer['accepted'], answer['number'], answer['second']), (1, False, number, second))
        if offset is None:
            self.assertIsNone(answer['place'])
        else:
            found = answer['place']
            self.assertEqual((found['offset'], found['line'], found['column']), (offset, *position(text, offset)))
            if token.isascii() and token.decode().isprintable():
                self.assertEqual(found['token'], token.decode() or None)
        if number == 18:
            self.closed(text, second, answer['circle'])
        return answer

    def closed(self, text, second, steps):
        """Holds a circle to the rules: it begins at the second number's rule, each step's rule tests the pair, plainly or under NOT as said, the rule that it leads to assigns it and is the next, and one step is under NOT."""
        file = read(text)[0]
        starts = [offset for kind, _, offset in tokens(text) if kind == 'WHEN']

        def named(slot, value):
            """A pair as the desk writes it."""
            name, values = file.slots[slot]
            return (name + b' *= ' + [b'NONE', *values][value]).decode()

        self.assertEqual(steps[0]['rule'], second)
        for step, after in zip(steps, steps[1:] + steps[:1]):
            slot, value, literals, _ = file.rules[step['rule'] - 1]
            self.assertIn((step['pair'], step['negated']), [(named(*pair), bool(under)) for pair, under in tests(((slot, value), literals))])
            self.assertIn(step['pair'], [named(*pair) for pair in file.rules[step['leads_to'] - 1][3]])
            self.assertEqual(step['leads_to'], after['rule'])
            self.assertEqual(step['line'], position(text, starts[step['rule'] - 1])[0])
        self.assertIn(True, [step['negated'] for step in steps])

    def stands(self, answer, owed):
        """Holds what an answer says may stand to what is owed, whatever the words for a new name."""
        self.assertCountEqual([NAME if ' ' in said and said != END else said for said in answer['may_stand']], owed)

    def test_marked_by_hand(self):
        """The files marked by hand: the reader agrees with what is told by hand, and so does the desk."""
        for case in FAULTY:
            with self.subTest(case.name):
                refusal = (case.number, case.second, case.offset, case.token)
                self.assertEqual(place(case.text), refusal)
                if case.at:
                    self.assertEqual(position(case.text, case.offset), case.at)
                answer = self.held(case.text, refusal)
                if case.may is not None:
                    self.stands(answer, case.may)
                    if len(case.text) <= 65535:
                        self.assertCountEqual(may_stand(case.text, case.offset), case.may)

    def each(self, files):
        """Holds the answer for each file to the reader's."""
        for number, text in enumerate(files, 1):
            with self.subTest(number=number):
                self.held(text, place(text))

    def test_stored_texts(self):
        """The stored texts."""
        self.each(whole(text) for text in texts())

    def test_damaged(self):
        """Files damaged at random."""
        self.each(generated(2026, 800))

    def test_circles(self):
        """Files of generated rules, many of them with a circle."""
        chance = random.Random(18)
        self.each(written(chance) for _ in range(100))

    def test_may_stand(self):
        """What may stand at the faults of files damaged at random is what the reader takes there, and nothing else."""
        for number, text in enumerate(generated(11, 150), 1):
            refusal = place(text)
            if refusal and refusal[2] is not None:
                with self.subTest(number=number):
                    self.stands(self.checked(text)[1], may_stand(text, refusal[2]))


if __name__ == '__main__':
    unittest.main()
