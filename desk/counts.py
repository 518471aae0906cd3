"""The forty editors' records in a file, and the work that is counted in them: done whole or not at all.

What some slips come to is first written whole to a file of its own beside the records, by rename: the *pending work*, the new cards, the records after it and the lines for the list of slips done. Then it is carried out, and taken away. A run that is stopped between leaves pending work, which the next run carries out first; each of its parts may be carried out twice without harm. So no slip is counted twice and none is lost.
"""
import contextlib
import ctypes
import fcntl
import json
import os

from .entries import ROOM
from .faults import Unusable
from .files import put_behind, read, remove, replace_all
from .library import EDITORS, Records

SIZE = ctypes.sizeof(Records)

# What is behind the name of the records for their pending work, and the file of a folder that names the records.
PENDING, CLAIM = '.pending', '.counts'


def load_records(path):
    """The records of a file, fresh ones where there is none."""
    if not os.path.exists(path):
        return Records()
    data = read(path, SIZE + 1)
    if len(data) != SIZE:
        raise Unusable(f'{path}: not {EDITORS} records of 4 bytes')
    return Records.from_buffer_copy(data)


def hold(path, flags=os.O_RDONLY):
    """Takes a file or a folder for this run, until what is given is closed."""
    try:
        handle = os.open(path, flags | os.O_CLOEXEC, 0o666)
    except OSError as error:
        raise Unusable(f'{path}: {error.strerror}') from error
    try:
        fcntl.flock(handle, fcntl.LOCK_EX | fcntl.LOCK_NB)
    except OSError as error:
        os.close(handle)
        raise Unusable(f'{path}: another run works with it now') from error
    return handle


class Counts:
    """The records of a file, and the folders of the work that is counted in them, held by one run at a time."""

    def __init__(self, path, *folders):
        """Names the files."""
        self.path, self.folders = os.path.realpath(path), folders
        self.pending = self.path + PENDING
        self.held, self.records = contextlib.ExitStack(), None

    def __enter__(self):
        """Takes the records and the folders for this run, and carries out what a run that was stopped left."""
        with self.held:
            self.held.callback(os.close, hold(self.path + '.lock', os.O_CREAT | os.O_RDWR))
            for folder in dict.fromkeys(map(os.path.realpath, self.folders)):
                self.held.callback(os.close, hold(folder))
                self.claim(folder)
            self.recover()
            self.records = load_records(self.path)
            self.held = self.held.pop_all()
        return self

    def __exit__(self, *_):
        """Gives them back."""
        self.held.close()

    def claim(self, folder):
        """Notes in a folder which records its work is counted in, unless work of other records is still pending there."""
        path = os.path.join(folder, CLAIM)
        other = os.fsdecode(read(path)) if os.path.exists(path) else ''
        if other == self.path:
            return
        if other and any(os.path.dirname(name) == folder for name in touched(other + PENDING)):
            raise Unusable(f'{folder}: a run that counts in {other} was stopped here; run that one again first')
        replace_all({path: os.fsencode(self.path)})

    def recover(self):
        """Carries out pending work."""
        if os.path.exists(self.pending):
            work = pending_work(self.pending)
            unmoved(work['cards'])
            self.carry_out(work)

    def commit(self, cards=None, done=None, lines=()):
        """Writes the records, and with them cards, by path with what each was and is to be, and lines at the end of a list."""
        work = {'records': bytes(self.records).hex(), 'cards': cards or {}, 'done': done, 'size': size_of(done), 'lines': list(lines)}
        replace_all({self.pending: json.dumps(work).encode()})
        self.carry_out(work)

    def carry_out(self, work):
        """Writes what pending work says, and takes it away once all of it is on the disk."""
        replace_all({path: bytes.fromhex(after) for path, (_, after) in work['cards'].items()})
        replace_all({self.path: bytes.fromhex(work['records'])})
        if work['done']:
            put_behind(work['done'], work['size'], ''.join(line + '\n' for line in work['lines']).encode())
        remove(self.pending)


def pending_work(path):
    """What pending work has."""
    try:
        work = json.loads(read(path))
        if isinstance(work, dict) and {'records', 'cards', 'done', 'size', 'lines'} <= work.keys():
            return work
        raise ValueError
    except ValueError as error:
        raise Unusable(f'{path}: damaged') from error


def touched(path):
    """The files that pending work would write; none where there is no such work."""
    if not os.path.exists(path):
        return []
    work = pending_work(path)
    return [*work['cards'], *([work['done']] if work['done'] else [])]


def unmoved(cards):
    """Sees that the cards of pending work are what they were, or what they are to be; one that was not there has no bytes."""
    for path, (before, after) in cards.items():
        found = read(path, ROOM).hex() if os.path.exists(path) else ''
        if found not in (before, after):
            raise Unusable(f'{path}: changed by another hand since a run was stopped; it was {before} and is to be {after}: put one of the two back')


def size_of(path):
    """How long a file is; one that is not there has no bytes."""
    return os.path.getsize(path) if path and os.path.exists(path) else 0
