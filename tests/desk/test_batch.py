"""`desk batch`: a day's slips, stopped at every change to a file, with a full disk at each, and on a read-only one."""
import csv
import errno
import io
import os
import shutil
import signal
import struct
import subprocess
import sys
import unittest

from running import TOP, DeskTest, desk, failing, program

from desk import batch
from desk.counts import Counts
from terminal import on_terminal

RULES = '''SLOT dating { before-1900, from-1900 };
SLOT status { current, obsolete };
SLOT label { plain, dated };
WHEN dating *= before-1900 IF status |= current THEN status := obsolete;
WHEN status *= obsolete IF TRUE THEN label := dated;
WHEN dating *= from-1900 IF TRUE THEN { status := current, label := NONE };
'''

# By entry: the card.
CARDS = {'abbey': '0C 04 40', 'barn': '0C 04 40', 'croft': '0C 88 80', 'damaged': '0C 04 4F'}

# In the order of the day: the entry, the editor, the slip, and what comes of it: outcome, number, changes, fired rules.
SLIPS = [
    ('abbey', 1, '04 02', 'answered', 0, 'dating=before-1900 status=obsolete label=dated', '1 2'),
    ('damaged', 2, '04 02', 'refused', 23, '', ''),
    ('barn', 2, '08 02 22', 'answered', 0, 'dating=before-1900 status=obsolete label=dated', '1 2'),
    ('damaged', 1, '04 02', 'held', None, '', ''),
    ('barn', 40, '08 04 12', 'refused', 40, '', ''),
    ('lost', 3, '04 02', 'unread', None, '', ''),
    ('abbey', 1, '04 04', 'answered', 0, 'dating=from-1900 status=current label=NONE', '3'),
    ('croft', 41, '04 02', 'refused', 44, '', ''),
    ('croft', 12, '04 02', 'refused', 32, '', ''),
    ('croft', 1, '04 42', 'answered', 0, 'label=plain', ''),
]
FULL = 12
WORDS = ('batch', 'rules.txt', '--cards', 'cards', '--slips', 'slips', '--editors', 'counts.bin')


def counts(records):
    """The bytes of forty records, of which some are given by editor."""
    return b''.join(struct.pack('<HH', *records.get(editor, (0, 0))) for editor in range(1, 41))


class BatchTest(DeskTest):
    """A day of ten slips, of which some are refused, and the state that it ends in."""

    def setUp(self):
        """Makes the day, three slips carried out at once."""
        super().setUp()
        self.make()
        self.addCleanup(os.chdir, os.getcwd())
        os.chdir(self.folder)
        self.addCleanup(setattr, batch, 'TOGETHER', batch.TOGETHER)
        batch.TOGETHER = 3
        for number in (signal.SIGINT, signal.SIGTERM):
            self.addCleanup(signal.signal, number, signal.getsignal(number))

    def make(self):
        """Writes the day's files."""
        self.put('rules.txt', RULES)
        self.put('counts.bin', counts({FULL: (9999, 7), 1: (5, 1)}))
        for entry, card in CARDS.items():
            self.put(f'cards/{entry}.card', bytes.fromhex(card))
        for at, (entry, editor, slip, *_) in enumerate(SLIPS):
            self.put(f'slips/{at + 8}.{entry}.{editor}.slip', bytes.fromhex(slip))

    def state(self):
        """Every file of the day but the locks, and of the list of slips done its lines."""
        found = {}
        for folder, _, names in os.walk(self.folder):
            for name in names:
                path = os.path.relpath(os.path.join(folder, name), self.folder)
                if not name.endswith('.lock'):
                    found[path] = self.get(path)
        return found

    def again(self):
        """Makes the day anew, without what a run left."""
        for name in os.listdir(self.folder):
            path = self.path(name)
            shutil.rmtree(path) if os.path.isdir(path) else os.unlink(path)
        self.make()

    def leave_pending(self):
        """Kills a run where its pending work is written and nothing of it carried out."""
        for at in range(1, 1000):
            self.again()
            failing(self.folder, at, 0, *WORDS)
            if os.path.exists('counts.bin.pending'):
                return

    def test_outcomes(self):
        """Each slip comes to its outcome, by name, in order; the records and the cards are those of the slips answered."""
        run = desk(*WORDS, '--json')
        self.expect(run, 1)
        for (entry, editor, _, outcome, number, changes, fired), told in zip(SLIPS, run.lines()):
            told_changes = ' '.join(f"{one['slot']}={one['value']}" for one in told.get('changes', ()))
            self.assertEqual((told['entry'], told['editor'], told['outcome'], told.get('number'), told_changes, told.get('fired', [])),
                             (entry, editor, outcome, number, changes, [int(rule) for rule in fired.split()]))
        self.assertEqual(self.get('counts.bin'), counts({1: (8, 1), 2: (1, 1), 40: (0, 1), FULL: (9999, 7)}))
        self.assertEqual({name: self.get(f'cards/{name}.card').hex(' ').upper() for name in CARDS},
                         {'abbey': '0C 84 00', 'barn': '0C 48 80', 'croft': '0C 88 40', 'damaged': '0C 04 4F'})
        self.assertEqual(len(self.get('slips/done.jsonl').splitlines()), 8)

    def test_csv(self):
        """As CSV the same outcomes stand on a line each, below their names."""
        run = desk(*WORDS)
        rows = list(csv.DictReader(io.StringIO(run.out)))
        self.assertEqual([(row['entry'], row['outcome'], row['changes'], row['fired']) for row in rows], [(slip[0], slip[3], slip[5], slip[6]) for slip in SLIPS])
        self.assertEqual((rows[0]['packed_card'], rows[0]['answered'], rows[0]['refused']), ('0C 48 80', '6', '1'))
        self.assertIn('0 answered', desk('show', 'rules.txt', '--editors', 'counts.bin').out)
        self.expect(run, 1, '10 slips, 4 answered, 6 not')

    def test_all_answered(self):
        """A day on which all is answered ends with status 0; a day without slips too."""
        for at, (entry, editor, *_) in enumerate(SLIPS):
            if SLIPS[at][3] != 'answered':
                os.unlink(f'slips/{at + 8}.{entry}.{editor}.slip')
        self.expect(desk(*WORDS), 0, '4 slips, 4 answered, 0 not')
        self.expect(desk(*WORDS), 0, '4 slips were done before', '0 slips')

    def test_twice(self):
        """A day that is run again counts nothing twice; what was held or not read is tried again, and after a card is mended its slips are answered."""
        desk(*WORDS)
        before = self.state()
        self.expect(desk(*WORDS), 1, '8 slips were done before', '2 slips, 0 answered, 2 not')
        self.assertEqual(self.state(), before)
        self.put('cards/damaged.card', bytes.fromhex('0C 04 40'))
        self.put('cards/lost.card', bytes.fromhex('0C 04 40'))
        run = desk(*WORDS, '--json')
        self.assertEqual([(told['entry'], told['outcome']) for told in run.lines()],
                         [('damaged', 'answered'), ('lost', 'answered')])
        self.assertEqual(self.get('counts.bin'), counts({1: (9, 1), 2: (1, 1), 3: (1, 0), 40: (0, 1), FULL: (9999, 7)}))
        self.assertEqual(len(desk(*WORDS, '--json', '--all').lines()), 10)

    def test_killed(self):
        """A run that is killed at any change to a file, and started again, ends as one that was not."""
        desk(*WORDS)
        whole = self.state()
        for at in range(1, 1000):
            self.again()
            run = failing(self.folder, at, 0, *WORDS)
            if run.status == 1:
                break
            self.assertEqual(run.status, -signal.SIGKILL)
            self.expect(desk(*WORDS), 1)
            self.assertEqual(self.state(), whole, f'killed at change {at}')
        self.assertGreater(at, 50)

    def test_full(self):
        """A disk that is full from any change on stops the run with status 2 and a message; with room again it ends as one that was not stopped."""
        desk(*WORDS)
        whole = self.state()
        for at in range(1, 1000):
            self.again()
            run = failing(self.folder, at, errno.ENOSPC, *WORDS)
            if run.status == 1:
                break
            self.expect(run, 2, 'No space left on device')
            self.expect(desk(*WORDS), 1)
            self.assertEqual(self.state(), whole, f'full from change {at} on')
        self.assertGreater(at, 50)

    def test_read_only(self):
        """On a read-only disk nothing is begun."""
        before = self.state()
        self.expect(failing(self.folder, 1, errno.EROFS, *WORDS), 2, 'counts.bin.lock: Read-only file system')
        self.assertEqual(self.state(), before)

    def test_signal(self):
        """A run that is asked to stop ends what it has begun and says how many slips are left."""
        for at in range(400):
            self.put(f'slips/{at + 100}.abbey.1.slip', bytes.fromhex('00'))
        words = 'from desk import batch, cli; batch.TOGETHER = 1; import sys; sys.exit(cli.main())'
        run = subprocess.Popen([sys.executable, '-c', words, *WORDS], env=dict(os.environ, PYTHONPATH=TOP), stdout=subprocess.PIPE, stderr=subprocess.PIPE)
        run.stdout.readline()
        run.stdout.readline()
        run.send_signal(signal.SIGTERM)
        out, err = run.communicate()
        self.assertEqual(run.returncode, 128 + signal.SIGTERM)
        self.assertIn(b'left', err)
        self.expect(desk(*WORDS), 1)
        self.assertEqual(self.get('counts.bin'), counts({1: (408, 1), 2: (1, 1), 40: (0, 1), FULL: (9999, 7)}))

    def test_changed_meanwhile(self):
        """A card that another hand changed after a run was killed is not written over."""
        self.leave_pending()
        self.put('cards/abbey.card', bytes.fromhex('0C 00 00'))
        self.expect(desk(*WORDS), 2, 'abbey.card: changed by another hand')
        self.assertEqual(self.get('cards/abbey.card'), bytes.fromhex('0C 00 00'))

    def test_one_at_a_time(self):
        """A second run at the same records, or the same folders, is told so."""
        with Counts('counts.bin'):
            self.expect(desk(*WORDS), 2, 'another run works with it now')
        with Counts('other.bin', 'slips'):
            self.expect(desk(*WORDS), 2, 'slips: another run works with it now')
        self.assertNotIn('slips/done.jsonl', self.state())

    def test_files(self):
        """Files that are not in order are told with status 2; a file that is no slip is left alone."""
        self.put('slips/notes.txt', 'words')
        self.put('slips/abbey.slip', b'\0')
        run = desk(*WORDS)
        self.expect(run, 1, 'abbey.slip: not the name of a slip')
        self.assertNotIn('notes.txt', run.err)
        self.put('counts.bin', b'\0' * 159)
        self.expect(desk(*WORDS), 2, 'counts.bin: not 40 records of 4 bytes')
        os.unlink('counts.bin')
        self.put('slips/done.jsonl', '{"slip"')
        self.expect(desk(*WORDS), 2, 'done.jsonl: damaged')
        shutil.rmtree('cards')
        self.expect(desk(*WORDS), 2, 'cards: No such file or directory')

    def test_fresh_records(self):
        """Records that are not there are begun at 0 and 0, with a word on it."""
        os.unlink('counts.bin')
        self.expect(desk(*WORDS), 1, 'counts.bin: not there; begun with forty records')
        self.assertEqual(self.get('counts.bin'), counts({1: (3, 0), 2: (1, 1), 12: (1, 0), 40: (0, 1)}))

    def test_refused_rules(self):
        """A rule file that is refused stops the day with its place, and nothing is counted."""
        self.put('rules.txt', RULES.replace('THEN label', 'THEN lable'))
        before = self.state()
        self.expect(desk(*WORDS), 1, 'rules.txt:5:', 'did you mean label?')
        self.assertEqual(self.state(), before)

    def test_bar(self):
        """On a terminal a bar is drawn, and in a pipe none."""
        words = [sys.executable, '-m', 'desk', *WORDS]
        drawn, run = on_terminal(lambda terminal: subprocess.Popen(words, env=dict(os.environ, PYTHONPATH=TOP), stdout=subprocess.DEVNULL, stderr=terminal))
        self.assertEqual(run.wait(), 1)
        self.assertIn(b'[##############################] 10 of 10', drawn)
        self.assertNotIn('[#', program(*WORDS, cwd=self.folder).err)

    def test_other_rules(self):
        """An entry that rules of other slots stopped goes on by the right ones."""
        self.put('wrong.txt', 'SLOT dating { before-1900 };')
        desk('batch', 'wrong.txt', *WORDS[2:])
        outcomes = {told['slip']: told['outcome'] for told in desk(*WORDS, '--json').lines()}
        self.assertEqual(outcomes['14.abbey.1.slip'], 'answered')

    def test_one_card_of_two_names(self):
        """Slips of two entries whose cards are one file are answered one after the other."""
        shutil.rmtree('slips')
        os.symlink('abbey.card', 'cards/alias.card')
        self.put('slips/1.abbey.1.slip', bytes.fromhex('04 04'))
        self.put('slips/2.alias.1.slip', bytes.fromhex('04 42'))
        self.expect(desk(*WORDS), 0)
        self.assertEqual(self.get('cards/abbey.card').hex(' ').upper(), '0C 84 40')
        self.assertTrue(os.path.islink('cards/alias.card'))

    def test_pipe_and_long_name(self):
        """A pipe in the place of a card stops its entry alone; a name may be as long as names are."""
        shutil.rmtree('slips')
        os.mkfifo('cards/pipe.card')
        name = 'e' * 246
        self.put(f'cards/{name}.card', bytes.fromhex(CARDS['abbey']))
        self.put('slips/1.pipe.1.slip', bytes.fromhex('04 02'))
        self.put(f'slips/2.{name}.1.slip', bytes.fromhex('04 02'))
        self.expect(desk(*WORDS), 1, 'pipe.card: not a file', '2 slips, 1 answered, 1 not')

    def test_odd_numbers(self):
        """An editor's number is not cut to 64 bits, and its digits are those of ASCII."""
        shutil.rmtree('slips')
        self.put(f'slips/1.abbey.{2 ** 64 + 1}.slip', bytes.fromhex('04 02'))
        self.put('slips/\u0661.abbey.\u0661.slip', bytes.fromhex('04 02'))
        self.expect(desk(*WORDS), 1, 'refused,44', 'not the name of a slip')
        self.assertEqual(desk('respond', 'rules.txt', 'cards/abbey.card', f'slips/1.abbey.{2 ** 64 + 1}.slip', '--editor', 2 ** 64 + 1).status, 1)

    def test_records_by_a_link(self):
        """Records that are named by a link are held like those that it names."""
        os.symlink('counts.bin', 'link.bin')
        with Counts('counts.bin'):
            self.expect(desk(*WORDS[:-1], 'link.bin'), 2, 'another run works with it now')

    def test_other_records(self):
        """Slips at which a run was stopped are not taken by a run that counts elsewhere."""
        self.leave_pending()
        self.expect(desk(*WORDS[:-1], 'other.bin'), 2, 'counts.bin was stopped here')
        self.expect(desk(*WORDS), 1)
        self.expect(desk(*WORDS[:-1], 'other.bin'), 1, '8 slips were done before')

    def test_earlier_refused(self):
        """With the outcomes of earlier runs the last line still counts those of this run."""
        desk(*WORDS)
        self.expect(desk(*WORDS, '--all'), 1, '2 slips, 0 answered, 2 not')


if __name__ == '__main__':
    unittest.main()
