"""The command desk run in this process, in a child whose changes to files fail, or as a program."""
import contextlib
import io
import json
import os
import signal
import subprocess
import sys
import tempfile
import unittest

TOP = os.path.dirname(os.path.dirname(os.path.dirname(os.path.abspath(__file__))))
sys.path[:0] = [TOP, os.path.join(TOP, 'tests')]

from desk import files  # noqa: E402
from desk.cli import main  # noqa: E402

# The functions that change files.
CHANGING = ('open', 'write', 'replace', 'unlink', 'ftruncate', 'fsync')


class Run:
    """What a run came to."""

    def __init__(self, status, out, err):
        """Keeps its exit status, and what it wrote."""
        self.status, self.out, self.err = status, out, err

    def json(self):
        """Its one line of JSON."""
        return json.loads(self.out)

    def lines(self):
        """Its lines of JSON."""
        return [json.loads(line) for line in self.out.splitlines()]


def desk(*words):
    """Runs the command in this process."""
    out, err = io.TextIOWrapper(io.BytesIO(), encoding='utf-8', newline=''), io.StringIO()
    with contextlib.redirect_stdout(out), contextlib.redirect_stderr(err):
        status = main([str(word) for word in words])
    out.flush()
    return Run(status, out.buffer.getvalue().decode(), err.getvalue())


def program(*words, **more):
    """Runs the command as a program of its own."""
    ran = subprocess.run([sys.executable, '-m', 'desk', *map(str, words)], env=dict(os.environ, PYTHONPATH=TOP), capture_output=True, check=False, **more)
    return Run(ran.returncode, ran.stdout.decode(), ran.stderr.decode())


class Failing:
    """Counts changes to files below a folder, and from one of them on lets each fail, or kills the process there."""

    def __init__(self, folder, at, error):
        """Puts itself before the functions that change files; an error of 0 kills."""
        self.folder, self.at, self.error, self.count = folder, at, error, 0
        for name in CHANGING:
            setattr(os, name, self.before(getattr(os, name), name))
        real = files.LIBC.syncfs
        files.LIBC.syncfs = lambda handle: self.before(lambda _: real(handle), 'syncfs')(handle)

    def before(self, real, name):
        """The function with the count before it."""
        def counted(subject, *more, **named):
            if name != 'open' or more[0] & (os.O_WRONLY | os.O_RDWR | os.O_CREAT):
                path = os.readlink(f'/proc/self/fd/{subject}') if isinstance(subject, int) else str(subject)
                if path.startswith(self.folder):
                    self.change()
            return real(subject, *more, **named)
        return counted

    def change(self):
        """Counts one change."""
        self.count += 1
        if self.count >= self.at:
            if not self.error:
                os.kill(os.getpid(), signal.SIGKILL)
            raise OSError(self.error, os.strerror(self.error))


def failing(folder, at, error, *words):
    """Runs the command in a child whose changes to files fail, or kill it; its exit status, below 0 for a signal, and what it wrote."""
    with tempfile.TemporaryFile() as out, tempfile.TemporaryFile() as err:
        child = os.fork()
        if child == 0:
            os.dup2(out.fileno(), 1)
            os.dup2(err.fileno(), 2)
            sys.stdout, sys.stderr = open(1, 'w', encoding='utf-8'), open(2, 'w', encoding='utf-8')
            Failing(os.path.realpath(folder), at, error)
            status = main([str(word) for word in words])
            sys.stdout.flush()
            sys.stderr.flush()
            os._exit(status)
        status = os.waitstatus_to_exitcode(os.waitpid(child, 0)[1])
        out.seek(0)
        err.seek(0)
        return Run(status, out.read().decode(), err.read().decode())


class DeskTest(unittest.TestCase):
    """A test with a folder of its own."""

    def setUp(self):
        """Makes the folder."""
        made = tempfile.TemporaryDirectory()
        self.addCleanup(made.cleanup)
        self.folder = made.name

    def path(self, name):
        """A path in the folder."""
        return os.path.join(self.folder, name)

    def put(self, name, data):
        """Writes a file of the folder; its path."""
        path = self.path(name)
        os.makedirs(os.path.dirname(path), exist_ok=True)
        with open(path, 'wb') as file:
            file.write(data.encode() if isinstance(data, str) else data)
        return path

    def get(self, name):
        """The bytes of a file of the folder."""
        with open(self.path(name), 'rb') as file:
            return file.read()

    def expect(self, run, status, *said):
        """Sees that a run ended with a status, and that its messages, or its outcome, have these words."""
        self.assertEqual(run.status, status, run.err)
        for words in said:
            self.assertIn(words, run.err + run.out)


def example(*parts):
    """The path of an example."""
    return os.path.join(TOP, 'examples', *parts)
