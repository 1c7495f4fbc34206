"""listing.py FOLDER [NAMES]: . and .. are listed; rewinddir lists anew, seekdir goes back to a place; names that stay are listed once while others
come and go."""

import collections
import ctypes
import os
import sys

from expecting import end, same

folder = sys.argv[1]
many = int(sys.argv[2]) if len(sys.argv) > 2 else 2500
libc = ctypes.CDLL(None, use_errno=True)


class Entry(ctypes.Structure):
    """struct dirent64 of Linux."""

    _fields_ = [('inode', ctypes.c_uint64), ('place', ctypes.c_int64), ('length', ctypes.c_uint16), ('kind', ctypes.c_uint8),
                ('name', ctypes.c_char * 256)]


libc.opendir.restype = ctypes.c_void_p
libc.readdir64.restype = ctypes.POINTER(Entry)
libc.telldir.restype = ctypes.c_long
for function in (libc.readdir64, libc.rewinddir, libc.telldir, libc.closedir):
    function.argtypes = [ctypes.c_void_p]
libc.seekdir.argtypes = [ctypes.c_void_p, ctypes.c_long]
DIRECTORY = 4


def read_one(stream):
    """The next entry, or None."""
    entry = libc.readdir64(stream)
    return (entry.contents.name.decode(), entry.contents.inode, entry.contents.kind) if entry else None


def read_names(stream):
    """All names from here on."""
    return [entry[0] for entry in iter(lambda: read_one(stream), None)]


def make(names):
    """Makes empty files."""
    for name in names:
        os.close(os.open(f'{place}/{name}', os.O_CREAT | os.O_WRONLY, 0o644))


place = f'{folder}/listed'
os.mkdir(place)
first = [f'name{at:04}' for at in range(many)]
make(first)
stream = libc.opendir(place.encode())

entries = list(iter(lambda: read_one(stream), None))
same('names', sorted(name for name, _, _ in entries), sorted(first + ['.', '..']))
by_name = {name: (inode, kind) for name, inode, kind in entries}
same('. is a directory, and this one', by_name.get('.'), (os.stat(place).st_ino, DIRECTORY))
# Its number is the one that docs/OPERATIONS.md tells, which isn't that of the directory above.
same('.. is a directory', by_name.get('..'), (os.stat(place).st_ino, DIRECTORY))
same('numbers of names', [name for name in first if by_name.get(name, (0, 0))[0] != os.stat(f'{place}/{name}').st_ino], [])

make(['new'])
os.unlink(f'{place}/{first[0]}')
libc.rewinddir(stream)
same('names behind rewinddir', sorted(read_names(stream)), sorted(first[1:] + ['new', '.', '..']))
libc.seekdir(stream, 0)
same('names behind a seek to 0', sorted(read_names(stream)), sorted(first[1:] + ['new', '.', '..']))

libc.rewinddir(stream)
places = {}
order = []
for _ in range(many * 4 // 5):
    at = libc.telldir(stream)
    order.append(read_one(stream)[0])
    places[order[-1]] = at
rest = read_names(stream)
for index in (0, 1, 2, 3, many // 3, many * 4 // 5 - 1):
    libc.seekdir(stream, places[order[index]])
    same(f'names behind a seek to place {index}', read_names(stream), order[index:] + rest)
# What was removed isn't listed there any more, what stays is, once.
gone = [name for name in order[many * 2 // 5:many * 3 // 5] if name.startswith('name')]
for name in gone:
    os.unlink(f'{place}/{name}')
libc.seekdir(stream, places[order[many // 3]])
left = [name for name in order[many // 3:] + rest if name not in set(gone)]
same('names behind a seek, some removed', read_names(stream), left)
libc.closedir(stream)

# Names come and go while a listing is under way.
stays = sorted(set(os.listdir(place)))
stream = libc.opendir(place.encode())
seen = collections.Counter()
for at in range(many * 2):
    entry = read_one(stream)
    if entry is None:
        break
    seen[entry[0]] += 1
    make([f'passing{at}'])
    os.unlink(f'{place}/passing{at}')
    make([f'added{at:05}'])
else:
    seen.update(read_names(stream))
libc.closedir(stream)
same('names that stayed and were not listed once', [name for name in stays if seen[name] != 1][:5], [])
same('names that were listed twice', [name for name, count in seen.items() if count > 1][:5], [])

# Emptied while it is read.
count = len(os.listdir(place))
removed = 0
with os.scandir(place) as names:
    for entry in names:
        os.unlink(entry.path)
        removed += 1
same('names removed while they were listed', removed, count)
same('names left', os.listdir(place), [])
os.rmdir(place)
end()
