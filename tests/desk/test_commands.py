"""The commands of the desk but `batch`: what each prints, writes and refuses."""
import ctypes
import difflib
import errno
import os
import re
import signal
import stat
import subprocess
import sys
import unittest

from running import TOP, DeskTest, desk, example, failing, program

from desk import faults, library

RULES = '''SLOT dating { before-1900, from-1900 };
SLOT status { current, obsolete };
'''
CONFLICT = '''SLOT x { 0, 1 };
SLOT y { 0, 1 };
SLOT z { 0, 1 };
WHEN x *= 1 IF TRUE THEN z := 1;
WHEN z *= 1 IF TRUE THEN { y := 1, x := 1 };
WHEN x *= 1 IF NOT y *= 0 THEN y := NONE;
'''


class Check(DeskTest):
    """`desk check`."""

    def refused(self, text, *said):
        """Sees that a text is refused with these words."""
        self.expect(desk('check', self.put('rules.txt', text)), 1, *said)

    def test_accepted(self):
        """What an accepted file has, for people and for programs."""
        run = desk('check', example('dialect', 'rules.txt'))
        self.expect(run, 0)
        self.assertEqual(run.out, f"{example('dialect', 'rules.txt')}: 12 slots, 9 rules, 3 strata\n")
        told = desk('check', '--json', example('dialect', 'rules.txt')).json()
        self.assertEqual([told[name] for name in ('accepted', 'slots', 'rules', 'strata', 'for_rl')], [True, 12, 9, 3, True])
        self.assertEqual(desk('check', '--marks', example('marks', 'rules.txt')).out, f"{example('marks', 'rules.txt')}: 4 slots, 4 rules\n")

    def test_beginners(self):
        """What is said of mistakes that beginners make is about them."""
        slots, rule = 'SLOT x {0,1};\nSLOT y {0,1};\n', 'WHEN x *= 1 IF y |= 0 THEN y := 1;'
        for text, said in ((slots + rule.replace('|=', '!='), 'write NOT before the test'), ('SLOT x: 0, 1;', 'stand in braces'), ('SLOT x {0 | 1};', 'commas between'),
                           ('SLOT part of speech {noun};', 'a name is one word'), ('SLOT x {1.5};', 'write - for .'), ('SLOT x {TRUE};', 'reserved word and no name'),
                           (slots + rule.replace(':= 1', ':= NULL'), 'the word for no value is NONE'), (slots + rule.replace('y |= 0', 'FALSE'), 'there is no FALSE'),
                           (slots + rule.replace('THEN', '->'), 'write THEN'), ('SLOT x {0}\u037e', 'only looks like ;'), (slots + rule + ';', 'take this one away'),
                           ('SLOT a {b};\nSLOT b {c};\nSLOT b {d};', 'declared in line 2'), ('SLOT x\n{a,\nx,\nb,\nx};', 'declared in line 3')):
            self.refused(text, said)

    def test_long_name(self):
        """Of a name of any length a line's width is shown."""
        self.assertLess(len(desk('check', self.put('rules.txt', f"SLOT {'a' * 100000} {{ b }};")).err), 600)

    def test_several(self):
        """Several files are checked one after the other, and one that is refused stops none."""
        run = desk('check', '--json', example('marks', 'rules.txt'), example('case-c', 'rules.txt'))
        self.assertEqual((run.status, [told['accepted'] for told in run.lines()]), (1, [False, True]))

    def test_standard_input(self):
        """A file named - is standard input."""
        self.expect(program('check', '-', input=RULES.encode()), 0, '-: 2 slots, 0 rules')

    def test_place(self):
        """A refusal has line and column, the line with a caret, the token found and what may stand there."""
        run = desk('check', self.put('rules.txt', RULES + 'WHEN dating *= before-1900 THEN status := obsolete;\n'))
        self.expect(run, 1)
        self.assertEqual(run.err.replace(self.folder, ''), '''/rules.txt:3:28: refused 12 0: a word or mark stands where it cannot
      WHEN dating *= before-1900 THEN status := obsolete;
                                 ^^^^
  found THEN
  here may stand: IF
  IF is missing: a rule without a condition has IF TRUE
''')
        self.assertEqual(run.out, '')

    def test_tabs(self):
        """Below a line with tabs the caret stands under the token."""
        run = desk('check', self.put('rules.txt', RULES + '\tWHEN dating\t*= before-1800 IF TRUE THEN status := obsolete;\r\n'))
        self.assertIn('      \tWHEN dating\t*= before-1800 IF TRUE THEN status := obsolete;\n      \t           \t   ^^^^^^^^^^^\n', run.err)

    def test_long_line(self):
        """Of a long line the part around the token is shown."""
        run = desk('check', self.put('rules.txt', RULES.replace('\n', ' ') * 1 + ' ' * 300 + 'WHEN' + ' ' * 300 + 'IF'))
        line, caret = run.err.splitlines()[1:3]
        self.assertEqual(line[caret.index('^'):][:2], 'IF')
        self.assertLess(len(line), 120)

    def test_words_of_their_own(self):
        """Mistakes that are made most get a word of their own."""
        rule = RULES + 'WHEN dating *= before-1900 IF TRUE THEN status := obsolete;'
        for text, said in ((b'\xef\xbb\xbf' + rule.encode(), 'byte-order mark'), (rule.encode('utf-16'), 'UTF-16'), (rule.encode('utf-16-le'), 'UTF-16'),
                           ('# mine\n' + rule, 'no comments'), (rule + ' // mine', 'no comments'), (rule + '\n-- mine', 'no comments'), (rule + '/* x */', 'no comments'),
                           (RULES.replace('current', '\u201ccurrent\u201d'), 'curly quote'), (RULES.replace('current', '"current"'), 'without quotes'),
                           (RULES.encode().replace(b'current', b'\x93current\x94'), 'curly quote'),
                           (rule.replace('WHEN', 'when'), 'capitals: WHEN'), (rule.replace('IF', 'if'), 'capitals: IF'), (rule.replace('TRUE', 'true'), 'did you mean TRUE?'),
                           (rule.replace('THEN', 'then'), 'capitals: THEN'), (RULES.lower(), 'capitals: SLOT'),
                           (rule.replace('TRUE', 'status |= current OR status |= obsolete'), 'there is no OR'),
                           (rule.replace('*=', '|='), 'WHEN takes *='), (rule.replace('TRUE', '(status |= current)'), 'no parentheses'),
                           (RULES.replace('before-1900', 'before_1900'), 'write - for _'), (RULES.replace('before-1900', 'before\u20131900'), 'this is a dash'),
                           (RULES.replace(', obsolete', ', obsol\u00e8te'), 'plain letters'), (RULES.replace('SLOT s', 'SLOT\u00a0s'), 'space of another kind'),
                           (rule.replace('*= before', '* = before'), 'directly behind it'), (rule + RULES, 'before all rules'), (RULES.replace(' }', ', }'), 'take the comma'),
                           (rule.replace('status := obsolete', 'status := obsolete, dating := from-1900'), 'stand in braces'),
                           (rule[:-1], 'the file ends inside the statement that begins in line 3'), (rule.replace(':=', '='), ':= in an assignment'),
                           (rule[:-1] + '\n' + rule.split('\n')[2], 'no ; at its end'), (RULES.replace('current', 'NONE'), 'this is a reserved word and no name')):
            with self.subTest(said):
                self.refused(text, said)

    def test_did_you_mean(self):
        """A name that is not declared gets the declared ones that are like it, and is told of what else it is the name."""
        rule = RULES + 'WHEN dating *= before-1900 IF status |= current THEN status := obsolete;'
        for text, said in ((rule.replace('THEN status', 'THEN staus'), 'did you mean status?'), (rule.replace('IF status', 'IF Status'), 'did you mean status?'),
                           (rule.replace('*= before-1900', '*= before-1800'), 'did you mean before-1900?'), (rule.replace('|= current', '|= none'), 'did you mean NONE?'),
                           (rule.replace('status |= current', 'current |= status'), 'current is a value of status, not a slot'),
                           (rule.replace('|= current', '|= before-1900'), 'before-1900 is a value of dating, not of status'),
                           (rule.replace('|= current', '|= dating'), 'dating is a slot, not a value')):
            with self.subTest(said):
                self.refused(text, 'refused 16 0', said)

    def test_circle(self):
        """18 has the whole circle with each rule's line and what ties it to the next."""
        run = desk('check', example('marks', 'rules.txt'))
        self.expect(run, 1, 'refused 18 1', 'rule 1 (line 5) tests NOT place *= appendix, which rule 2 assigns', 'rule 2 (line 6) tests NOT label *= dated, which rule 1 assigns')

    def test_limits(self):
        """A text over the limit is 10; one that is too large for the program alone is told so."""
        self.refused(' ' * 262145, 'refused 10 0')
        self.expect(desk('check', self.put('rules.txt', RULES + ' ' * 65536)), 0, 'the program rl takes 255 rules and 65,535 bytes')
        many = 'WHEN dating *= before-1900 IF TRUE THEN status := obsolete;'
        self.assertFalse(desk('check', '--json', self.put('rules.txt', RULES + many * 256)).json()['for_rl'])

    def test_at_the_limit(self):
        """Of a text of as many bytes as there may be, the place is found to its last token."""
        rule = b'WHEN a*=b IF TRUE THEN a:=b;'
        text = b'SLOT a{b};' + rule * 1999
        text += b' ' * (262144 - len(text))
        for end, number, offset in ((b'WHEN', 12, 262144), (b'IF', 12, 262142), (b'WHEN a*=c', 16, 262143), (b'(', 11, 262143)):
            told = desk('check', '--json', self.put('rules.txt', text[:-len(end)] + end)).json()
            self.assertEqual((told['number'], told['place']['offset']), (number, offset))


class Format(DeskTest):
    """`desk format`."""

    def test_prints(self):
        """The print of each example is the stored one, for programs too."""
        for name in ('case-c', 'dialect', 'withdrawn'):
            with open(example(name, 'print.txt'), encoding='ascii') as file:
                stored = file.read()
            self.assertEqual(desk('format', example(name, 'rules.txt')).out, stored)
            self.assertEqual(desk('format', '--json', example(name, 'rules.txt')).json()['print'], stored)

    def test_write(self):
        """A file is written in the house style with its mode, and left alone where it is in it; `--check` tells, and `--diff` shows the difference."""
        path = self.put('rules.txt', RULES.replace('{ ', '{').replace(' }', '}'))
        os.chmod(path, 0o640)
        self.expect(desk('format', '--check', path), 1, 'not in the house style')
        self.assertEqual(desk('format', '--diff', path).out, ''.join(difflib.unified_diff(self.get('rules.txt').decode().splitlines(True), RULES.splitlines(True), path, 'house style')))
        self.expect(desk('format', '--write', path), 0)
        self.assertEqual((self.get('rules.txt').decode(), stat.S_IMODE(os.stat(path).st_mode)), (RULES, 0o640))
        before = os.stat(path).st_ino
        self.expect(desk('format', '--write', path), 0)
        self.expect(desk('format', '--check', path), 0, 'in the house style')
        self.assertEqual(os.stat(path).st_ino, before)

    def test_refused(self):
        """A refused file is told as by `check` and left as it was; so is one whose print would be too long."""
        path = self.put('rules.txt', 'SLOT a{b;')
        self.expect(desk('format', '--write', path), 1, 'rules.txt:1:9: refused 12 0')
        self.assertEqual(self.get('rules.txt'), b'SLOT a{b;')
        rule = f"WHEN aaa*=b IF {' AND '.join(['aaa|=b'] * 8)} THEN{{aaa:=b,c:=b}};"
        self.expect(desk('format', self.put('rules.txt', 'SLOT aaa{b};SLOT c{b};' + rule * 2000)), 1, 'refused 34 0')

    def test_disks(self):
        """On a full or a read-only disk the file stays what it was, and nothing is left beside it."""
        path = self.put('rules.txt', RULES.replace('{ ', '{'))
        for error in (errno.ENOSPC, errno.EROFS):
            for at in (1, 2, 3):
                self.expect(failing(self.folder, at, error, 'format', '--write', path), 2, os.strerror(error))
                self.assertEqual(self.get('rules.txt').decode(), RULES.replace('{ ', '{'))
        self.expect(failing(self.folder, 9, errno.ENOSPC, 'format', '--write', path), 0)
        self.assertEqual(os.listdir(self.folder), ['rules.txt'])


class Entries(DeskTest):
    """`desk card`, `desk slip` and `desk show`."""

    def test_examples(self):
        """The cards and slips of the examples come of their words, and go back to them."""
        for name in ('case-c', 'dialect', 'withdrawn', 'marks'):
            rules = example(name, 'rules.txt')
            for kind in ('card', 'slip'):
                words = desk('show', rules, f'--{kind}', example(name, f'{kind}.bin')).out.split()
                self.expect(desk(kind, rules, *words, '-o', self.path('made')), 0)
                with open(example(name, f'{kind}.bin'), 'rb') as file:
                    self.assertEqual(self.get('made'), file.read())
                self.assertEqual(desk(kind, rules, *words).out, self.get('made').hex(' ').upper() + '\n')

    def test_words(self):
        """The words of a card and a slip by hand, with NONE, in any order, and with a card to begin with."""
        rules = self.put('rules.txt', RULES)
        self.assertEqual(desk('card', rules, 'status=current').out, '08 04\n')
        self.assertEqual(desk('card', rules).out, '08 00\n')
        self.assertEqual(desk('card', rules, 'dating=', 'status=obsolete').out, '08 08\n')
        self.assertEqual(desk('slip', rules, 'dating=before-1900').out, '04 02\n')
        self.assertEqual(desk('slip', rules, 'status=obsolete', 'dating=NONE').out, '08 00 12\n')
        self.assertEqual(desk('slip', rules).out, '00\n')
        card = self.put('card.bin', bytes.fromhex('08 04'))
        self.assertEqual(desk('card', rules, '--change', card, 'dating=from-1900').out, '08 84\n')
        self.assertEqual(desk('card', '--json', rules, 'status=current').json(), {'packed': '08 04', 'pairs': {'dating': 'NONE', 'status': 'current'}})
        self.assertEqual(program('slip', rules, 'dating=NONE', '-o', '-').out, '\x04\x00')

    def test_wrong_words(self):
        """Words that name nothing are told, with what is like them."""
        rules = self.put('rules.txt', RULES)
        for word, said in (('datin=before-1900', 'did you mean dating?'), ('dating=before', 'did you mean before-1900?'), ('place=x', 'it is one of dating, status'), ('dating', 'not of the form'), ('=x', 'not of the form')):
            self.expect(desk('slip', rules, word), 2, said)
        self.expect(desk('card', rules, 'dating=from-1900', 'dating=from-1900'), 2, 'named twice')

    def test_refused(self):
        """Cards and slips that are damaged are told with their number and what it says here."""
        rules = self.put('rules.txt', RULES)
        for kind, data, number, said in (('card', '', 20, ''), ('card', '04 40', 21, 'the rules declare 2'), ('card', '08 0C', 22, 'slot 1 is status'), ('card', '08 05', 23, ''),
                                         ('slip', '04', 24, ''), ('slip', '04 42', 25, 'change 0'), ('slip', '08 22 01', 26, 'change 1'), ('slip', '04 06', 27, 'change 0'), ('slip', '04 03', 28, '')):
            self.expect(desk('show', rules, f'--{kind}', self.put('entry', bytes.fromhex(data))), 1, f'refused {number} ', said)

    def test_records(self):
        """Records are shown by editor."""
        rules = self.put('rules.txt', RULES)
        records = self.put('counts.bin', bytes(4 * 6) + (258).to_bytes(2, 'little') + (3).to_bytes(2, 'little') + bytes(4 * 33))
        self.assertEqual(desk('show', rules, '--editors', records).out, 'editor 7: 258 answered, 3 refused\n')
        self.assertEqual(desk('show', '--json', rules, '--editors', records).json()['editors'], [{'editor': 7, 'answered': 258, 'refused': 3}])

    def test_disks(self):
        """On a full or a read-only disk the card that was there stays."""
        rules, card = self.put('rules.txt', RULES), self.put('card.bin', b'\x08\x00')
        for error in (errno.ENOSPC, errno.EROFS):
            self.expect(failing(self.folder, 2, error, 'card', rules, 'status=current', '-o', card), 2, 'card.bin: ' + os.strerror(error))
            self.assertEqual(self.get('card.bin'), b'\x08\x00')


class Respond(DeskTest):
    """`desk respond`."""

    def respond(self, rules, card, slip, *words):
        """The response to a card and a slip in hexadecimal."""
        return desk('respond', self.put('rules.txt', rules), self.put('card.bin', bytes.fromhex(card)), self.put('slip.bin', bytes.fromhex(slip)), *words)

    def test_examples(self):
        """Each example comes to the card, the changes and the fired rules that are stored of the program's listing."""
        for name in ('case-c', 'dialect', 'withdrawn'):
            with open(example(name, 'expected'), encoding='ascii') as file:
                listing = [line.split() for line in file]
            told = desk('respond', '--json', *(example(name, part) for part in ('rules.txt', 'card.bin', 'slip.bin'))).json()
            self.assertEqual([[one['slot'], one['value']] for one in told['changes']], [line[1:] for line in listing if line[0] == 'change'])
            self.assertEqual(told['packed_card'].replace(' ', ''), [line[1] for line in listing if line[0] == 'card'][0])
            self.assertEqual([one['rule'] for one in told['fired']], [int(line[1]) for line in listing if line[0] == 'rule' and line[-1] == 'fired'])
            with open(example(name, 'print.txt'), encoding='ascii') as file:
                lines = [line.rstrip('\n') for line in file]
            for one in told['fired']:
                self.assertEqual(one['text'], lines[len(told['card']) + one['rule'] - 1])

    def test_people(self):
        """For people: changes with what brings each, the new card, the fired rules."""
        run = self.respond(CONFLICT.replace('NOT y *= 0', 'y |= 1'), '0C 44 40', '04 04', '--editor', '7')
        self.assertEqual(run.out, '''changes:
    x=1, by the slip and rule 2
    y=1, by rule 2
    z=1, by rule 1
new card: 0C 88 80
    x=1
    y=1
    z=1
fired rules:
    1 (line 4): WHEN x *= 1 IF TRUE THEN z := 1;
    2 (line 5): WHEN z *= 1 IF TRUE THEN { y := 1, x := 1 };
editor 7: 1 answered, 0 refused
''')

    def test_conflict(self):
        """40 has the slot's name, all values and the rules or the slip behind each."""
        run = self.respond(CONFLICT, '0C 44 40', '04 04')
        self.expect(run, 1, 'refused 40 1')
        self.assertTrue(run.err.endswith('''  y would receive 2 values:
      NONE: rule 3 (line 6): WHEN x *= 1 IF NOT y *= 0 THEN y := NONE;
      1: rule 2 (line 5): WHEN z *= 1 IF TRUE THEN { y := 1, x := 1 };
'''), run.err)
        told = self.respond(CONFLICT.replace('x := 1 }', 'x := 0 }'), '0C 44 40', '04 04', '--json').json()
        self.assertEqual((told['number'], told['second'], told['slot'], told['values']), (40, 0, 'x', [{'value': '0', 'by': [2]}, {'value': '1', 'by': ['slip']}]))

    def test_marks(self):
        """By marks: an answer, 41 with the values that meet, 42 with the pairs that stay unknown and their rules."""
        self.expect(desk('respond', '--marks', *(example('marks', part) for part in ('rules.txt', 'card.bin', 'slip.bin'))), 0, 'place=appendix, by rule 2')
        self.expect(self.respond(CONFLICT, '0C 44 40', '04 04', '--marks'), 1, 'refused 41 0', 'y would receive 2 values', 'NONE: rule 3')
        with open(example('marks', 'rules.txt'), encoding='ascii') as file:
            run = self.respond(file.read(), '10 4C 4C', '04 06', '--marks')
        self.expect(run, 1, 'refused 42 0', 'label := dated: rule 1 (line 5)', 'place := appendix: rule 2 (line 6)', 'page := proof: rule 3 (line 7), rule 4 (line 8)')

    def test_editors(self):
        """A slip is counted in the records of a file, a refusal too, and the new card is written with them."""
        counts = self.path('counts.bin')
        self.expect(self.respond(CONFLICT.replace('NOT y *= 0', 'y |= 1'), '0C 44 40', '04 04', '--editor', '40', '--editors', counts, '-o', self.path('new.bin')), 0)
        self.assertEqual((self.get('counts.bin'), self.get('new.bin')), (bytes(156) + b'\1\0\0\0', bytes.fromhex('0C 88 80')))
        self.expect(self.respond(CONFLICT, '0C 44 40', '04 04', '--editor', '40', '--editors', counts, '-o', self.path('new.bin')), 1, 'refused 40 1')
        self.assertEqual((self.get('counts.bin'), self.get('new.bin')), (bytes(156) + b'\1\0\1\0', bytes.fromhex('0C 88 80')))
        self.expect(self.respond(CONFLICT, '0C 44 40', '04 04', '--editor', '41', '--editors', counts), 1, 'refused 44 0')
        self.put('counts.bin', b'\x0f\x27' + bytes(158))
        self.expect(self.respond(CONFLICT, '0C 44 40', '04 04', '--editors', counts), 1, 'refused 32 0')

    def test_refused(self):
        """A damaged card, a damaged slip and a refused rule file are told by their own names."""
        self.expect(self.respond(CONFLICT, '0C 44 C0', '04 04'), 1, 'card.bin: refused 22 2', 'slot 2 is z')
        self.expect(self.respond(CONFLICT, '0C 44 40', '04 05'), 1, 'slip.bin: refused 28 0')
        self.expect(self.respond(CONFLICT + 'WHEN', '0C 44 40', '04 04'), 1, 'rules.txt:7:5: refused 12 3')


class Graph(DeskTest):
    """`desk graph`."""

    def test_dot(self):
        """As DOT text: a cluster for each stratum, an arrow for each pair that one rule assigns and another tests by *=, dashed under NOT."""
        run = desk('graph', '--dot', self.put('rules.txt', CONFLICT))
        self.expect(run, 0)
        for line in ('r1 -> r2 [label="z := 1"];', 'r2 -> r1 [label="x := 1"];', 'r2 -> r3 [label="x := 1"];', 'label="stratum 1"'):
            self.assertIn(line, run.out)
        self.assertEqual(run.out.count(' -> '), 3)
        run = desk('graph', '--dot', '--marks', example('marks', 'rules.txt'))
        self.assertIn('r1 -> r2 [label="label := dated", style=dashed];', run.out)
        self.expect(desk('graph', '--dot', example('marks', 'rules.txt')), 1, 'refused 18 1')

    def test_drawn(self):
        """Where Graphviz is installed it is an SVG; where it is not, or fails, DOT text with a word on it."""
        rules = self.put('rules.txt', CONFLICT)
        folder = self.path('bin')
        before = os.environ['PATH']
        self.addCleanup(os.environ.update, PATH=before)
        self.put('bin/dot', f'#!{sys.executable}\nimport sys\nprint("<svg>", sys.argv[1:], len(sys.stdin.read()) > 99)\n')
        os.chmod(self.path('bin/dot'), 0o755)
        os.environ['PATH'] = folder
        self.expect(desk('graph', rules, '-o', self.path('graph.svg')), 0)
        self.assertEqual(self.get('graph.svg'), b"<svg> ['-Tsvg'] True\n")
        self.put('bin/dot', '#!/nothing\n')
        self.expect(desk('graph', rules), 0, 'digraph rules', 'Graphviz did not draw it')
        os.unlink(self.path('bin/dot'))
        self.expect(desk('graph', rules), 0, 'digraph rules', 'Graphviz did not draw it')


class Usage(DeskTest):
    """Wrong arguments, files that are not there, outputs that take nothing, and the library."""

    def test_arguments(self):
        """Wrong arguments are told with status 2, and help is 0."""
        rules = self.put('rules.txt', RULES)
        for words in ((), ('chek', rules), ('check',), ('check', '--jsn', rules), ('respond', rules), ('respond', rules, rules, rules, '--editor', 'x'),
                      ('batch', rules), ('show', rules), ('format', '--write', '--check', rules), ('format', '--write', '-')):
            self.assertEqual(desk(*words).status, 2, words)
        for words in (('--help',), ('check', '--help'), ('batch', '--help')):
            self.expect(desk(*words), 0, 'usage: desk')

    def test_files(self):
        """A file that is not there, or is a folder, is told with status 2."""
        rules = self.put('rules.txt', RULES)
        self.expect(desk('check', self.path('none')), 2, 'none: No such file or directory')
        self.expect(desk('check', self.folder), 2, 'Is a directory')
        self.expect(desk('respond', rules, rules, self.path('none')), 2, 'none: No such file')
        self.expect(desk('card', rules, '-o', self.path('none/card.bin')), 2, 'No such file or directory')
        self.expect(desk('show', rules, '--editors', self.path('none')), 2, 'none: ')

    def test_outputs(self):
        """Where standard output takes nothing, the status is 2 and no trace of the program is shown."""
        rules = self.put('rules.txt', RULES)
        for words in (('check', rules), ('format', rules), ('card', rules), ('graph', '--dot', rules)):
            with open('/dev/full', 'wb') as full:
                ran = subprocess.run([sys.executable, '-m', 'desk', *words], env=dict(os.environ, PYTHONPATH=TOP), stdout=full, stderr=subprocess.PIPE, check=False)
            self.assertEqual((ran.returncode, ran.stderr), (2, b'desk: standard output: No space left on device\n'))

    def test_closed_streams(self):
        """Closed streams show no trace of the program, and messages never go to standard output."""
        rules = self.put('rules.txt', RULES)
        for words, status in ((f'check {rules} >&-', 0), ('check /none 2>&-', 2), ('check - <&-', 2), (f'check {rules} >&- 2>&-', 0)):
            ran = subprocess.run(['bash', '-c', f'{sys.executable} -m desk {words}'], env=dict(os.environ, PYTHONPATH=TOP), capture_output=True, check=False)
            self.assertEqual((ran.returncode, ran.stdout, b'Traceback' in ran.stderr), (status, b'', False), words)

    def test_refusals_on_a_full_disk(self):
        """A refusal for programs that standard output does not take is told with status 2."""
        with open('/dev/full', 'wb') as full:
            ran = subprocess.run([sys.executable, '-m', 'desk', 'graph', '--json', self.put('rules.txt', 'SLOT')], env=dict(os.environ, PYTHONPATH=TOP), stdout=full, stderr=subprocess.PIPE, check=False)
        self.assertEqual((ran.returncode, ran.stderr), (2, b'desk: standard output: No space left on device\n'))

    def test_names_of_any_bytes(self):
        """A file's name that standard output cannot show stands in escapes."""
        for name, encoding in ((b'\xff.txt', 'utf-8'), ('\u00e9.txt'.encode(), 'ascii')):
            path = os.path.join(os.fsencode(self.folder), name)
            with open(path, 'wb') as file:
                file.write(RULES.encode())
            ran = subprocess.run([sys.executable, '-m', 'desk', 'check', path], env=dict(os.environ, PYTHONPATH=TOP, PYTHONIOENCODING=encoding), capture_output=True, check=False)
            self.assertEqual((ran.returncode, ran.stderr), (0, b''))

    def test_interrupted(self):
        """Ctrl-C shows no trace of the program; a shell may have begun these tests without it."""
        os.mkfifo(self.path('pipe'))
        run = subprocess.Popen([sys.executable, '-m', 'desk', 'check', self.path('pipe')], env=dict(os.environ, PYTHONPATH=TOP), stderr=subprocess.PIPE,
                               preexec_fn=lambda: signal.signal(signal.SIGINT, signal.default_int_handler))
        with open(self.path('pipe'), 'wb'):
            run.send_signal(signal.SIGINT)
            self.assertEqual((run.communicate(timeout=60)[1], run.returncode), (b'desk: stopped\n', 128 + signal.SIGINT))

    def test_written_places(self):
        """A pipe is written to and stays one; what lies at the other name of a file is not written through."""
        rules = self.put('rules.txt', RULES)
        os.mkfifo(self.path('pipe'))
        handle = os.open(self.path('pipe'), os.O_RDWR)
        self.expect(desk('card', rules, '-o', self.path('pipe')), 0)
        self.assertTrue(os.read(handle, 100))
        os.close(handle)
        self.assertTrue(stat.S_ISFIFO(os.stat(self.path('pipe')).st_mode))
        self.put('other', 'words')
        os.symlink('other', self.path('.card.bin.new'))
        self.expect(desk('card', rules, '-o', self.path('card.bin')), 0)
        self.assertEqual((self.get('other'), os.path.islink(self.path('card.bin'))), (b'words', False))

    def test_standard_streams_once(self):
        """Standard input is one file alone, and standard output has the answer."""
        rules, card = example('case-c', 'rules.txt'), example('case-c', 'card.bin')
        self.expect(desk('respond', rules, '-', '-'), 2, 'one of the files alone')
        self.expect(desk('respond', rules, card, card, '-o', '-'), 2, 'name a file for the new card')

    def test_new_card_of_a_killed_run(self):
        """A response that is killed before it wrote a card that was not there is carried out by the next one."""
        words = ('respond', example('case-c', 'rules.txt'), example('case-c', 'card.bin'), example('case-c', 'slip.bin'), '--editors', self.path('counts.bin'))
        for at in range(1, 100):
            if failing(self.folder, at, 0, *words, '-o', self.path(f'{at}.card')).status == 0:
                break
            self.expect(desk(*words), 0)
        self.assertGreater(at, 10)

    def test_library(self):
        """A library that is not there, or is none, is told with status 2."""
        self.addCleanup(os.environ.pop, 'DESK_LIBRARY', None)
        for path in (self.path('none.so'), self.put('text.so', 'no library')):
            os.environ['DESK_LIBRARY'] = path
            self.expect(desk('check', example('case-c', 'rules.txt')), 2, 'the library cannot be loaded')

    def test_declared(self):
        """What the package says of the library is what include/rl.h says: sizes, limits and refusals."""
        with open(os.path.join(TOP, 'include/rl.h'), encoding='utf-8') as file:
            header = file.read()
        limits = {name: int(number) for name, number in re.findall(r'#define RL_(\w+) (\d+)\n', header)}
        for ours, theirs in (('SLOTS', 'SLOTS'), ('VALUES', 'VALUES'), ('RULES', 'RULES'), ('LITERALS', 'LITERALS'), ('ASSIGNMENTS', 'ASSIGNMENTS'), ('CARD_BYTES', 'CARD_BYTES'),
                             ('SLIP_BYTES', 'SLIP_BYTES'), ('FIRED_BYTES', 'FIRED_BYTES'), ('TEXT_BYTES', 'PRINT_BYTES'), ('EDITORS', 'EDITORS')):
            self.assertEqual(getattr(library, ours), limits[theirs])
        for ours, theirs in (('Stretch', 'RlPlace'), ('TableSlot', 'RlSlot'), ('Literal', 'RlLiteral'), ('Pair', 'RlAssignment'), ('TableRule', 'RlRule'), ('Table', 'RlTable'), ('CardForm', 'RlCardForm'),
                             ('SlipForm', 'RlSlipForm'), ('Tally', 'RlTally'), ('Read', 'RlRead'), ('Named', 'RlName'), ('Card', 'RlCard'), ('Slip', 'RlSlip'), ('Packed', 'RlPacked'), ('Response', 'RlResponse')):
            size = re.search(rf'sizeof\({theirs}\) == (\d+)', header)[1]
            self.assertEqual(ctypes.sizeof(getattr(library, ours)), int(size), theirs)
        with open(os.path.join(TOP, 'docs/REFERENCE.md'), encoding='utf-8') as file:
            part = file.read().split('## Refusals by who can cause them')[1].split('\n## ')[0]
        self.assertEqual(sorted(faults.WORDS), sorted({int(number) for number in re.findall(r'^\| (\d\d) \|', part, re.M)}))


if __name__ == '__main__':
    unittest.main()
