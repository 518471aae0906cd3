"""Files read, and written by rename, so that a file is what it was or what it is to be and nothing between."""
import contextlib
import ctypes
import hashlib
import os
import stat
import sys

from .faults import Unusable

STANDARD = '-'

LIBC = ctypes.CDLL(None, use_errno=True)


def read(path, most=None):
    """The bytes of a file or of standard input; of a long one as many as asked."""
    try:
        if path == STANDARD and sys.stdin is None:
            raise Unusable('standard input is closed')
        if path == STANDARD:
            return sys.stdin.buffer.read(-1 if most is None else most)
        with open(path, 'rb') as file:
            return file.read(-1 if most is None else most)
    except OSError as error:
        raise Unusable(f'{path}: {error.strerror}') from error


def read_file(path, most):
    """The first bytes of a file proper; a pipe, which may never have any, and a device are not read."""
    try:
        handle = os.open(path, os.O_RDONLY | os.O_NONBLOCK | os.O_CLOEXEC)
        with open(handle, 'rb') as file:
            if not stat.S_ISREG(os.fstat(handle).st_mode):
                raise Unusable(f'{path}: not a file')
            return file.read(most)
    except OSError as error:
        raise Unusable(f'{path}: {error.strerror}') from error


def replace(path, data):
    """Writes a file by rename; a device or a pipe, which has no place for another file, is written to."""
    if path.endswith('/'):
        raise Unusable(f'{path}: a folder')
    if os.path.exists(path) and not os.path.isfile(path) and not os.path.isdir(path):
        try:
            with open(path, 'wb') as file:
                file.write(data)
        except OSError as error:
            raise Unusable(f'{path}: {error.strerror}') from error
    else:
        replace_all({path: data})


def beside(target):
    """The other name in its folder under which a file is written; a name may have 255 bytes."""
    folder, name = os.path.split(target)
    short = name if len(os.fsencode(name)) <= 250 else hashlib.sha256(os.fsencode(name)).hexdigest()
    return f'{folder}/.{short}.new'


def created(target):
    """Another file in the folder of a file, new and empty: its name, and it open; one that a run which was stopped left is taken away."""
    other, flags = beside(target), os.O_CREAT | os.O_EXCL | os.O_WRONLY | os.O_CLOEXEC
    try:
        return other, os.open(other, flags, 0o666)
    except FileExistsError:
        os.unlink(other)
        return other, os.open(other, flags, 0o666)


def replace_all(contents):
    """Writes each file under another name in its folder, with the mode that it had, and then renames them all; they are on the disk before they are renamed, and their names afterwards."""
    made, at = {}, None
    try:
        for at, data in contents.items():
            target = os.path.realpath(at) if os.path.islink(at) else os.path.abspath(at)
            made[target], handle = created(target)
            try:
                with contextlib.suppress(FileNotFoundError):
                    os.fchmod(handle, os.stat(target).st_mode & 0o777)
                write(handle, data)
                if len(contents) == 1:
                    os.fsync(handle)
            finally:
                os.close(handle)
        folders = {os.path.dirname(target) for target in made}
        for folder in folders if len(contents) > 1 else ():
            sync(folder, LIBC.syncfs)
        for target in list(made):
            at = target
            os.replace(made[target], target)
            del made[target]
        for folder in folders:
            sync(folder, LIBC.fsync)
    except OSError as error:
        for left in made.values():
            with contextlib.suppress(OSError):
                os.unlink(left)
        raise Unusable(f'{at}: {error.strerror}') from error


def write(handle, data):
    """Writes all bytes."""
    while data:
        data = data[os.write(handle, data):]


def sync(path, function):
    """Has a folder, or all of its file system, written to the disk."""
    handle = os.open(path, os.O_RDONLY)
    try:
        if function(handle) != 0:
            raise OSError(ctypes.get_errno(), os.strerror(ctypes.get_errno()), path)
    finally:
        os.close(handle)


def put_behind(path, size, data):
    """Puts bytes behind the first bytes of a file, whatever stood there, and has them written to the disk."""
    try:
        handle = os.open(path, os.O_CREAT | os.O_WRONLY | os.O_CLOEXEC, 0o666)
        try:
            os.ftruncate(handle, size)
            os.lseek(handle, size, os.SEEK_SET)
            write(handle, data)
            os.fsync(handle)
        finally:
            os.close(handle)
    except OSError as error:
        raise Unusable(f'{path}: {error.strerror}') from error


def remove(path):
    """Takes a file away, and has that written to the disk."""
    try:
        os.unlink(path)
        sync(os.path.dirname(path), LIBC.fsync)
    except OSError as error:
        raise Unusable(f'{path}: {error.strerror}') from error
