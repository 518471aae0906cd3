"""Stored files that a script makes: written, or held to what it would write; and texts in them, whole or as parts that are (times, piece)."""
import os
import sys


def whole(text):
    """The bytes of a text."""
    return text if isinstance(text, bytes) else b''.join(times * piece for times, piece in text)


def stored_text(text):
    """A text as it is stored: the number of its parts, and for each how many times it stands, its length and its bytes."""
    parts = [(1, text)] if isinstance(text, bytes) else text
    return bytes([len(parts)]) + b''.join(times.to_bytes(2, 'big') + len(piece).to_bytes(2, 'big') + piece for times, piece in parts)


def run(stored):
    """Writes each (path, content) below the repository; with --check on the command line only compares. The exit status, 1 where a file differs."""
    top = os.path.dirname(os.path.dirname(os.path.abspath(__file__)))
    wrong = 0
    for path, content in stored:
        if '--check' not in sys.argv:
            with open(os.path.join(top, path), 'wb') as file:
                file.write(content)
            continue
        with open(os.path.join(top, path), 'rb') as file:
            if file.read() != content:
                print(f'{path} is not what {os.path.basename(sys.argv[0])} writes')
                wrong = 1
    return wrong
