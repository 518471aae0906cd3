#!/usr/bin/env python3
"""What ./prove shows, how it ends and what it puts into target/, in a repository that has its crates.txt alone, with a rt of its own on PATH that proves nothing and prints what rt prints."""
import os
import re
import shutil
import signal
import subprocess
import sys
import tempfile
import time
import unittest

TOP = os.path.dirname(os.path.dirname(os.path.abspath(__file__)))
sys.path.insert(0, os.path.join(TOP, 'docs'))

from house import crates, reached, static_libraries
from terminal import on_terminal

LISTED = crates()
PROGRAMS = [name for name in LISTED if os.path.exists(os.path.join(TOP, 'crates', name, 'src/main.rt'))]

# The rt of these tests leaves in ASKED the folder in which it was asked and the words. Of that folder it prints what stands in SAID, a program's on standard error as rt run does, leaves what stands in MADE in out/, and ends with the status in STATUS, 0 where none stands; first it waits where WAITING is a pipe, in the background, as a proof does.
RT = '''#!/bin/sh
at=${PWD##*/}
sleep 0.05
echo "$at $*" >>"$ROOM/ASKED"
if [ "$1" = run ]; then
    echo 'what the program says'
    exec >&2
fi
cat "$ROOM/SAID/$at"
if [ -p "$ROOM/WAITING" ]; then
    sleep 60 >"$ROOM/WAITING" &
    wait
fi
if [ -d "$ROOM/MADE/$at" ]; then
    mkdir -p out
    cp "$ROOM/MADE/$at"/* out
fi
exit "$(cat "$ROOM/STATUS/$at" 2>/dev/null || echo 0)"
'''

# A program that writes its arguments, its input and a file of its data, and ends with a status of its own.
PROGRAM = """#!/bin/sh
echo "$*"
cat
cat rules.txt
exit 7
"""

# What rt prints of a proof by a lemma that does not fit, and what of that is shown.
WRONG = '''rt: chose --jobs 2 for text
./proofs/text/Answers.antt:8:13: error: `returns`: this has another type
fn text::two: proved
fn text::one: not proved
logic /kit/antt-project.json: libraries=16 files=2756 sum=0
library laws: modules loaded=0 checked=0
crate text: modules loaded=30 checked=10
logic=not-proved
rattle build: nothing was built, since only a proved crate is built
'''
SHOWN = '''./proofs/text/Answers.antt:8:13: error: `returns`: this has another type
fn text::one: not proved
rattle build: nothing was built, since only a proved crate is built
'''
ABOVE = 'rt: the library text did not build, so nothing above it was checked\n'


def needed(*names):
    """The crates to be proved for some, in the order of crates.txt."""
    wanted = reached(names or LISTED, LISTED)
    return [name for name in LISTED if name in wanted]


def proved(names):
    """What rt prints of crates that are proved."""
    return ''.join(f'''rt: chose --jobs 2 for {name}
rt: {name}: begins with what a check kept in /other/crates/{name}
checked {name}::one, 1 of 1
note: ./proofs/one/Answers.antt:14: an import that nothing uses
fn {name}::one: proved
struct {name}::Two: proved
logic /kit/antt-project.json: libraries=16 files=2756 sum=0
statements core: modules loaded=161 checked=0
crate {name}: modules loaded=0 checked=40
axioms std: none reached of the 2 declared
logic=proved functions=1 sum=0 native=nat,char,string
''' for name in names)


def counted(names, total, unchanged=()):
    """The lines that are owed for crates that are proved."""
    return ''.join(f'proved {at} of {total}: {name} ({"unchanged" if name in unchanged else "0 s"})\n' for at, name in enumerate(names, 1))


def untimed(text):
    """A text with 0 s wherever the time of this run stands."""
    return re.sub(r'(?<=\()\d+(?= s\))|(?<=\.\.\. )\d+|\d+(?= s in all)', '0', text)


class Proving(unittest.TestCase):
    def setUp(self):
        folder = tempfile.TemporaryDirectory()
        self.addCleanup(folder.cleanup)
        self.room, self.top = folder.name, os.path.join(folder.name, 'top')
        for path in 'prove', 'docs/house.py', 'crates.txt':
            os.makedirs(os.path.dirname(os.path.join(self.top, path)), exist_ok=True)
            shutil.copy(os.path.join(TOP, path), os.path.join(self.top, path))
        for name in LISTED:
            self.put(f'top/crates/{name}/src/{"main" if name in PROGRAMS else "lib"}.rt', '')
            self.put(f'SAID/{name}', '')
        self.put('bin/rt', RT)
        os.chmod(os.path.join(self.room, 'bin/rt'), 0o755)
        self.env = dict(os.environ, ROOM=self.room, PATH=f'{self.room}/bin:{os.environ["PATH"]}')

    def put(self, path, text):
        """Writes a file of the room."""
        path = os.path.join(self.room, path)
        os.makedirs(os.path.dirname(path), exist_ok=True)
        with open(path, 'w', encoding='utf-8') as file:
            file.write(text)
        return path

    def put_program(self, name, **files):
        """Has rt leave the program of these tests for a crate, on some files of the crate's own in place of those on which its run is as owed."""
        owed = {'args': 'one\ntwo\n', 'stdin': 'the input\n', 'data/rules.txt': 'the rules\n', 'stdout': 'one two\nthe input\nthe rules\n', 'status': '7\n'}
        for file, text in {**owed, **files}.items():
            self.put(f'top/crates/{name}/{file}', text)
        os.chmod(self.put(f'MADE/{name}/{name}', PROGRAM), 0o755)

    def read(self, path):
        """The text of a file of the room, or nothing."""
        path = os.path.join(self.room, path)
        if not os.path.exists(path):
            return None
        with open(path, encoding='utf-8') as file:
            return file.read()

    def says(self, name, text, status=0, **made):
        """What rt is to print in a crate's folder, or at the top, its status, and what it leaves in out/."""
        self.put(f'SAID/{name}', text)
        self.put(f'STATUS/{name}', str(status))
        for file, content in made.items():
            self.put(f'MADE/{name}/{file.replace("__", ".")}', content)

    def start(self, words, **more):
        """Starts ./prove."""
        return subprocess.Popen([os.path.join(self.top, 'prove'), *words], env=self.env, **more)

    def run_in_pipe(self, *words):
        """The lines that it prints into a pipe, without times, its exit status, and what rt was asked."""
        started = self.start(words, stdout=subprocess.PIPE, stderr=subprocess.STDOUT)
        shown = started.communicate(timeout=200)[0].decode()
        return untimed(shown), started.returncode, self.read('ASKED')

    def test_library(self):
        names = needed('cursor')
        self.says('cursor', proved(names) + proved(['cursor']))
        self.assertEqual(self.run_in_pipe('cursor'), (counted(names, len(names)), 0, 'cursor check\n'))
        self.assertEqual(self.read('top/target/prove.log'), proved(names) + proved(['cursor']))
        self.assertEqual(os.listdir(os.path.join(self.top, 'target')), ['prove.log'])

    def test_unchanged(self):
        names = needed('cursor')
        self.says('cursor', proved(['cursor']))
        self.assertEqual(self.run_in_pipe('cursor')[:2], (counted(names, len(names), names[:-1]), 0))

    def test_several(self):
        names = needed('cursor', 'tally')
        self.assertEqual(names, ['laws', 'tally', 'classes', 'text', 'cursor'])
        self.says('tally', proved(['laws', 'tally']))
        self.says('cursor', proved(['classes', 'text', 'cursor']))
        self.assertEqual(self.run_in_pipe('cursor', 'tally'), (counted(names, 5), 0, 'tally check\ncursor check\n'))

    def test_program(self):
        """It is run on what its crate has for it. The status of rt run is the program's own, and says nothing."""
        names = needed('rl')
        self.assertNotIn('library', names)
        self.assertNotIn('std', names)
        self.says('rl', proved(names), 7)
        self.put_program('rl')
        self.assertEqual(self.run_in_pipe('rl'), (counted(names, len(names)), 0, 'rl run\n'))
        self.assertEqual(self.read('top/target/bin/rl'), PROGRAM)
        # A source that is edited while rt runs is newer than what is made.
        self.assertLess(os.stat(os.path.join(self.top, 'target/bin/rl')).st_mtime, os.stat(os.path.join(self.room, 'ASKED')).st_mtime)

    def test_run_failed(self):
        """What a program writes is held to its crate's stdout, its exit status to status; one that fails is not taken."""
        names = needed('rl')
        self.says('rl', proved(names), 7)
        wrote, ended = "what the program wrote is not what its file 'stdout' has", 'the program ended with status 7, and not'
        for files, wrong in (({'stdout': 'one two\nthe input\nThe rules\n'}, wrote), ({'stdout': ''}, wrote), ({'stdin': ''}, wrote), ({'args': ''}, wrote),
                             ({'data/rules.txt': ''}, wrote), ({'status': '0'}, f'{ended} 0'), ({'status': '8'}, f'{ended} 8')):
            with self.subTest(files=files):
                self.put_program('rl', **files)
                self.assertEqual(self.run_in_pipe('rl')[:2], (counted(names, len(names)) + f'prove: rl: {wrong}\n', 1))
                self.assertIsNone(self.read('top/target/bin/rl'))

    def test_program_refused(self):
        """What an earlier run made is not taken for what is refused now."""
        names = needed('rl')[:-1]
        for file in 'rl', 'rl.stamp':
            self.put(f'top/crates/rl/out/{file}', 'an older one')
        self.says('rl', proved(names) + SHOWN, 1)
        self.assertEqual(self.run_in_pipe('rl')[:2], (counted(names, 1 + len(names)) + SHOWN + 'prove: rl is not proved\n', 1))
        self.assertIsNone(self.read('top/target/bin/rl'))

    def test_program_not_linked(self):
        """Without a program there is none, whatever rt says."""
        self.says('rl', proved(needed('rl')))
        shown, status, _ = self.run_in_pipe('rl')
        self.assertEqual((shown.splitlines()[-1], status), ('prove: rl is not proved', 1))

    def test_static_library(self):
        names = needed('library')
        self.assertEqual(static_libraries(), {'library'})
        self.says('library', proved(names), liblibrary__a='the archive')
        self.assertEqual(self.run_in_pipe('library'), (counted(names, len(names)), 0, 'library lib\n'))
        self.assertEqual(self.read('top/target/staticlib/liblibrary.a'), 'the archive')

    def test_static_library_refused(self):
        names = needed('library')[:-1]
        self.put('top/crates/library/out/liblibrary.a', 'an older one')
        self.says('library', proved(names) + SHOWN, 3)
        self.says('rl', proved(needed('rl')))
        self.put_program('rl')
        self.assertEqual(self.run_in_pipe('library', 'rl'), (counted(names, len(needed('library', 'rl'))) + SHOWN + 'prove: library is not proved\n', 3, 'library lib\n'))
        self.assertIsNone(self.read('top/target/staticlib/liblibrary.a'))

    def test_refused(self):
        self.says('cursor', proved(['laws', 'classes']) + WRONG + ABOVE, 1)
        self.assertEqual(self.run_in_pipe('cursor')[:2], (counted(['laws', 'classes'], 4) + SHOWN + ABOVE + 'prove: cursor is not proved\n', 1))

    def blocks(self, names, unchanged=()):
        """What rt all check prints of crates that are proved; of one that is unchanged it has nothing to say."""
        return ''.join(f'== {name}\n' + ('' if name in unchanged else proved([name])) for name in names)

    def test_all(self):
        """What is made of some crates comes after the proof of all, and is taken."""
        pass_over = 'rt: chose 2 at a time\nlogic /kit/antt-project.json: libraries=16 files=2756 sum=0\nonly=0 proved=0\n'
        ends = '== summary\n' + ''.join(f'{name}: ok\n' for name in LISTED) + f'{len(LISTED)} of {len(LISTED)} crates ok\n'
        self.says('top', pass_over + self.blocks(LISTED) + ends)
        self.says('library', proved(['library']), liblibrary__a='the archive')
        for name in PROGRAMS:
            self.says(name, proved([name]), 7)
            self.put_program(name)
        made = [f'{name} {"run" if name in PROGRAMS else "lib"}\n' for name in LISTED if name in PROGRAMS or name == 'library']
        self.assertEqual(len(made), 4)
        self.assertEqual(self.run_in_pipe(), (counted(LISTED, len(LISTED)), 0, 'top all check\n' + ''.join(made)))
        self.assertEqual(self.read('top/target/staticlib/liblibrary.a'), 'the archive')
        self.assertEqual([self.read(f'top/target/bin/{name}') for name in PROGRAMS], [PROGRAM] * 3)
        self.says('top', pass_over + self.blocks(LISTED, LISTED) + ends)
        self.assertEqual(self.run_in_pipe()[:2], (counted(LISTED, len(LISTED), LISTED), 0))
        self.put_program('rl', stdout='')
        self.assertEqual(self.run_in_pipe()[:2], (counted(LISTED, len(LISTED), LISTED) + "prove: rl: what the program wrote is not what its file 'stdout' has\n", 1))

    def test_all_refused(self):
        ends = 'text: failed (1)\ncursor: not run, since text failed\n2 of 4 crates ok\n'
        self.says('top', self.blocks(['laws', 'classes']) + '== text\n' + WRONG + self.blocks(['tally']) + '== summary\nlaws: ok\nclasses: ok\ntally: ok\n' + ends, 1)
        total = len(LISTED)
        shown = counted(['laws', 'classes'], total) + SHOWN + f'proved 3 of {total}: tally (0 s)\n' + ends
        self.assertEqual(self.run_in_pipe(), (shown, 1, 'top all check\n'))

    def test_not_listed(self):
        self.assertEqual(self.run_in_pipe('curser'), ('prove: crates.txt does not list curser\n', 2, None))

    def test_made(self):
        """What rt ci left of programs is taken with its time, and nothing is proved."""
        path = self.put('top/crates/rl/out/rl', 'the program')
        os.utime(path, (1000, 1000))
        self.assertEqual(self.run_in_pipe('--made', 'rl'), ('', 0, None))
        self.assertEqual(self.read('top/target/bin/rl'), 'the program')
        self.assertEqual(os.stat(os.path.join(self.top, 'target/bin/rl')).st_mtime, 1000)
        self.assertEqual(self.run_in_pipe('--made', 'rl', 'strata_cases'), ('prove: rt ci has left nothing of strata_cases\n', 1, None))

    def run_on_terminal(self, *words):
        """What it writes to a terminal, and its exit status."""
        written, started = on_terminal(lambda terminal: self.start(words, stdout=terminal, stderr=terminal))
        return untimed(written.decode()), started.wait(timeout=200)

    def test_terminal(self):
        names = needed('cursor')
        self.says('cursor', proved(names))
        written, status = self.run_on_terminal('cursor')
        lines = [line.split('\r\033[K')[-1] for line in written.split('\r\n')]
        self.assertEqual((lines, status), (['proved 4 of 4: cursor (0 s), 0 s in all', ''], 0))
        shown = written.split('\r\033[K')
        for at, name in enumerate(names, 1):
            self.assertIn(f'proved {at} of 4: {name} (0 s) ... 0 s', shown)

    def test_terminal_refused(self):
        self.says('cursor', proved(['laws', 'classes']) + WRONG + ABOVE, 1)
        written, status = self.run_on_terminal('cursor')
        lines = [line.split('\r\033[K')[-1] for line in written.split('\r\n')]
        self.assertEqual(lines, [*SHOWN.splitlines(), ABOVE[:-1], 'prove: cursor is not proved', 'proved 2 of 4: classes (0 s), 0 s in all', ''])
        self.assertEqual(status, 1)

    def test_stopped(self):
        os.mkfifo(os.path.join(self.room, 'WAITING'))
        self.says('cursor', proved(['laws']))
        for number in (signal.SIGINT, signal.SIGTERM):
            with self.subTest(signal=number):
                started = self.start(['cursor'], stdout=subprocess.PIPE)
                self.assertEqual(untimed(started.stdout.readline().decode()), 'proved 1 of 4: laws (0 s)\n')
                began = time.monotonic()
                with open(os.path.join(self.room, 'WAITING'), 'rb') as waiting:
                    started.send_signal(number)
                    self.assertEqual(started.communicate(timeout=200)[0], b'')
                    self.assertEqual(started.returncode, 128 + number)
                    self.assertEqual(waiting.read(), b'')
                self.assertLess(time.monotonic() - began, 30)


if __name__ == '__main__':
    unittest.main()
