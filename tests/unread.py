#!/usr/bin/env python3
"""The program on files that open but cannot be read: the one line `unread` and the name of the first of them, and nothing else.

  tests/unread.py   needs target/bin/rl and cc; exit status 1 where the program prints something else
"""
import os
import subprocess
import sys
import tempfile

TOP = os.path.dirname(os.path.dirname(os.path.abspath(__file__)))
NAMES = ('rules.txt', 'card.bin', 'slip.bin', 'editor.bin')
SLOTS = b'SLOT x {0,1}; SLOT y {0,1}; SLOT z {0,1};\n'
RULES = b'WHEN x *= 1 IF y |= 0 THEN z := 1;\n', b'WHEN z *= 1 IF y |= 0 THEN y := 1;\n'
FILES = SLOTS + b''.join(RULES), bytes.fromhex('0C 44 40'), bytes.fromhex('04 04'), bytes.fromhex('28')
LISTING = b'rule 1 stratum 1 fired\nrule 2 stratum 1 fired\nchange x 1\nchange y 1\nchange z 1\ncard 0C8880\ntally 40 1 0\n'


def run(files, preload=None, failing=None, after=0):
    """What the program prints over files, of which None stands for one that is not there and 'folder' for a folder; a read of `failing` fails after some bytes."""
    with tempfile.TemporaryDirectory() as folder:
        for name, file in zip(NAMES, files):
            path = os.path.join(folder, name)
            if file == 'folder':
                os.mkdir(path)
            elif file is not None:
                with open(path, 'wb') as out:
                    out.write(file)
        changed = {'LD_PRELOAD': preload, 'FAILING': failing, 'AFTER': str(after)} if preload else {}
        return subprocess.run([os.path.join(TOP, 'target/bin/rl')], cwd=folder, env=dict(os.environ, **changed), stdout=subprocess.PIPE, check=True).stdout


def cases(preload):
    """What each case prints, and what it should."""
    yield 'all is read', run(FILES), LISTING
    for at, name in enumerate(NAMES):
        unread = f'unread {name}\n'.encode()
        yield f'a folder {name}', run([*FILES[:at], 'folder', *FILES[at + 1:]]), unread
        yield f'folders from {name} on', run([*FILES[:at], *['folder'] * (len(NAMES) - at)]), unread
        size = len(FILES[at])
        for after in {0, 1, size // 2, size - 1, size}:
            yield f'{name} fails after {after} bytes', run(FILES, preload, name, after), unread
        yield f'{name} fails behind its end', run(FILES, preload, name, size + 1), LISTING
    yield 'a folder before a file that is not there', run(['folder', FILES[1], None, FILES[3]]), b'unread slip.bin\n'
    yield 'folders before an editor that is not there', run(['folder', 'folder', 'folder', None]), b'unread editor.bin\n'
    yield 'a text that fails before an editor of no number', run([*FILES[:3], b''], preload, 'rules.txt', 1), b'unread rules.txt\n'
    # Without its second rule the text is a text too, and would list another card.
    yield 'a rule cut off', run(FILES, preload, 'rules.txt', len(SLOTS + RULES[0])), b'unread rules.txt\n'
    # What fills the room for a text is over 65,535 bytes, whatever comes behind it.
    yield 'a long text that fails', run([b' ' * 70000, *FILES[1:]], preload, 'rules.txt', 65536), b'refused 10 0\n'
    # Two bytes are more than an editor file may have, whatever comes behind them.
    yield 'a long editor file that fails', run([*FILES[:3], bytes(9)], preload, 'editor.bin', 2), b'refused 44 0\n'


def main():
    wrong = 0
    with tempfile.TemporaryDirectory() as made:
        preload = os.path.join(made, 'failing_read.so')
        subprocess.run(['cc', '-shared', '-fPIC', '-o', preload, os.path.join(TOP, 'tests/failing_read.c'), '-ldl'], check=True)
        for case, printed, expected in cases(preload):
            if printed != expected:
                print(f'{case}: {printed!r}, not {expected!r}')
                wrong = 1
    return wrong


if __name__ == '__main__':
    sys.exit(main())
