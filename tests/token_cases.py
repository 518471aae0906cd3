#!/usr/bin/env python3
"""The stored texts of the crate token_cases, and the tokens that it should write, by a tokenizer of its own made from document 01 and section 6 of document 02.

  tests/token_cases.py          writes crates/token_cases/stdin and stdout
  tests/token_cases.py --check  says whether they are what it would write; exit status 1 where they are not
"""
import random
import re
import sys

from stored import run

WORDS = [b'SLOT', b'WHEN', b'IF', b'THEN', b'AND', b'NOT', b'TRUE', b'NONE']
MARKS = [b'{', b'}', b',', b';', b'*=', b'|=', b':=']
TOKEN = re.compile(rb'[0-9A-Za-z][0-9A-Za-z-]*|[*|:]=|[{},;]')
WHITE = b'\t\n\r '


def tokens(text):
    """The lines that are owed for a text: a token to a line, with the position after it."""
    lines, at = [], 0
    while True:
        while at < len(text) and text[at] in WHITE:
            at += 1
        if at == len(text):
            return lines + [b'end %d' % at]
        found = TOKEN.match(text, at)
        start, at = at, found.end() if found else at + 1
        part = found.group() if found else None
        if part is None:
            lines.append(b'bad %d' % at)
        elif part in WORDS:
            lines.append(b'word %d %d' % (WORDS.index(part) + 1, at))
        elif part in MARKS:
            lines.append(b'word %d %d' % (MARKS.index(part) + len(WORDS) + 1, at))
        elif len(part) > 24:
            lines.append(b'long %d' % at)
        else:
            lines.append(b'name %d %s %d' % (start, part, at))


CASE_C = (b'SLOT x {0,1}; SLOT y {0,1}; SLOT z {0,1};\n'
          b'WHEN x *= 1 IF y |= 0 THEN z := 1;\n'
          b'WHEN z *= 1 IF y |= 0 THEN y := 1;\n')


def texts():
    """Every byte alone, the places that are easy to get wrong, and some made at random."""
    yield from (bytes([b]) for b in range(256))
    yield from [b'', b' \t\r\n', b'a' * 24, b'a' * 25, b'a' * 24 + b' b', b'a-' * 12, b'a-' * 12 + b'-', b'SLOT' * 7]
    yield from [b'x*', b'*', b'* =', b'*==', b'**=', b'*=*', b'|', b'|=', b'|=|', b':', b':=:', b'a:=b', b'=']
    yield from WORDS + MARKS
    yield from [b'-a', b'a-', b'a--b', b'SLOTx', b'xSLOT', b'slot', b'Slot', b'IF-', b'-IF', b'WHEN0', b'0WHEN', b'SLOT{', b'TRUE;', b'IFTHEN', b'x_y', b'a.b']
    yield from [b'none', b'None', b'NONe', b'NON', b'NONES', b'NONE-', b'-NONE', b'0NONE', b'NONE0', b'NONE;', b'NONE=', b'x*=NONE;', b'NOTNONE', b'NONE NONE', b'NONE' * 6, b'NONE' * 7]
    yield from [b'\x80', b'a\xffb', b'\xef\xbb\xbfSLOT', b'\x00', b'a\x00b', b'\x0b', b'\x0c', b'(', b'a(b)', b'{a,b};', b'{ a , b } ;', b';;', b' a ', b'\ta\n', CASE_C]
    chance = random.Random(1901)
    pieces = WORDS + MARKS + [b' ', b'\n', b'a', b'Z9', b'-', b'*', b'|', b':', b'=', b'(', b'\x9f', b'name-of-twenty-four-bytes', b'name-of-twenty-four-byte']
    for _ in range(120):
        yield b''.join(chance.choice(pieces) for _ in range(chance.randrange(1, 14)))


def stored():
    """Each file with what it should hold."""
    cases, written = b'', []
    for number, text in enumerate(texts(), 1):
        cases += len(text).to_bytes(2, 'big') + text
        written += [b'text %d' % number] + tokens(text)
    yield 'crates/token_cases/stdin', cases
    yield 'crates/token_cases/stdout', b'\n'.join(written) + b'\n'


if __name__ == '__main__':
    sys.exit(run(stored()))
