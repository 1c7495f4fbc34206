"""set_id.py FOLDER: who isn't root clears a file's set-user and set-group bits by writing or cutting it, and so does a change of its owner.
As root, where others may use the folder."""

import os
import sys

from expecting import as_user, end, same

folder = sys.argv[1]
path = f'{folder}/file'


def mode():
    """The file's mode, looked at anew."""
    fd = os.open(path, os.O_RDONLY)
    found = os.fstat(fd).st_mode & 0o7777
    os.close(fd)
    same('mode by path and by descriptor', os.stat(path).st_mode & 0o7777, found)
    return f'{found:o}'


def write(flags=0):
    """Writes into the file."""
    fd = os.open(path, os.O_WRONLY | flags)
    os.write(fd, b'new')
    os.close(fd)


def cut_open():
    """Cuts the open file."""
    fd = os.open(path, os.O_WRONLY)
    os.ftruncate(fd, 2)
    os.close(fd)


def case(what, bits, call, wanted):
    """Makes the file with these bits, has another user do it, and looks at the mode."""
    fd = os.open(path, os.O_CREAT | os.O_WRONLY, 0o600)
    os.write(fd, b'bytes of the file')
    os.close(fd)
    os.chmod(path, bits)
    same(f'{what}: mode before', mode(), f'{bits:o}')
    same(what, as_user(call), 'done')
    same(f'{what}: mode', mode(), wanted)
    os.unlink(path)


case('write', 0o6777, write, '777')
case('write to append', 0o6777, lambda: write(os.O_APPEND), '777')
case('open with O_TRUNC', 0o6777, lambda: os.close(os.open(path, os.O_WRONLY | os.O_TRUNC)), '777')
case('truncate', 0o6777, lambda: os.truncate(path, 3), '777')
case('ftruncate', 0o6777, cut_open, '777')
case('write, set-user alone', 0o4777, write, '777')
# Without the group's right to execute it marks no program.
case('read', 0o6777, lambda: open(path, 'rb').read(), '6777')

for change, call in {'write by root': write, 'truncate by root': lambda: os.truncate(path, 3)}.items():
    with open(path, 'wb') as made:
        made.write(b'bytes')
    os.chmod(path, 0o6777)
    call()
    same(f'{change}: mode', mode(), '6777')
    os.unlink(path)

with open(path, 'wb') as made:
    made.write(b'bytes')
os.chmod(path, 0o6777)
os.chown(path, 12, 34)
same('chown: mode', mode(), '777')
found = os.stat(path)
same('chown: owner and group', (found.st_uid, found.st_gid), (12, 34))
os.unlink(path)
end()
