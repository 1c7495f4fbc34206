"""What the programs call beside `os`."""

import ctypes
import os

LIBC = ctypes.CDLL(None, use_errno=True)
RENAME_NOREPLACE, RENAME_EXCHANGE = 1, 2
AT_FDCWD = -100


def refused(number, call, *words, **options):
    """A call fails with this error."""
    try:
        call(*words, **options)
    except OSError as error:
        assert error.errno == number, (call, words, error)
        return
    raise AssertionError('%s %s was done' % (call, words))


def renameat2(old, new, flags):
    """rename(2) with flags."""
    if LIBC.renameat2(AT_FDCWD, os.fsencode(old), AT_FDCWD, os.fsencode(new), flags) != 0:
        raise OSError(ctypes.get_errno(), 'renameat2')


def make(name, data=b'', mode=0o644):
    """A new file with these bytes."""
    descriptor = os.open(name, os.O_RDWR | os.O_CREAT, mode)
    if data:
        os.write(descriptor, data)
    os.close(descriptor)


def whole(name):
    """The bytes of a file."""
    descriptor = os.open(name, os.O_RDONLY)
    try:
        return os.read(descriptor, 1 << 20)
    finally:
        os.close(descriptor)


def names(folder='.'):
    """The names in a directory, with their kinds and numbers."""
    with os.scandir(folder) as entries:
        return sorted((entry.name, entry.inode()) for entry in entries)
