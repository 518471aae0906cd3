"""A program on a terminal of its own, for tests of what it shows there."""
import os
import pty


def on_terminal(start):
    """What a program writes to a terminal until its end, and the program, which is started with the terminal's handle."""
    ours, theirs = pty.openpty()
    started = start(theirs)
    os.close(theirs)
    written = b''
    while True:
        try:
            written += os.read(ours, 4096)
        except OSError:
            break
    os.close(ours)
    return written, started
