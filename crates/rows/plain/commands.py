"""Commands that a generator of random numbers chooses, with an eye on what a system has."""

import random
import string

from calls import cookie_of, word_of
from model import ROOT
from objects import BLOCK

NAMES = ['a', 'b', 'c', 'd', 'e']
ODD_PATHS = ['%', 'a', '/a/', '//', '/', '/.', '/..', '/a/.', '/b/..', '/%00', '/a//b', '//a',
             '/' + 'n' * 256, '/' + 'l' * 255]
SIZES = [0, 0, 1, 2, 3, 100, 127, 128, 129, 130, 200, 4095, 4096, 4097, 5000, 8191, 8192, 8193,
         65535, 65536, 65537, 69632, 70000, 4194303, 4194304, 4194305, 67108863, 67108864, 67108865,
         71303168, 4294967295, 4294967296, 4299161600, 68719476735, 68719476736]
SMALL_SIZES = SIZES[:18]
ODD_SIZES = [-1, -2 ** 63, 68719476737, 2 ** 62, 2 ** 63 - 1, 2 ** 63 - 1]
COUNTS = [0, 1, 3, 9, 200, 5000, 65537]
TEXTS = ['a', '/b', '../c', 'd/e', '.', '..', '/', 'a/../b', '%', './' * 70 + 'b',
         '/' * 200 + 'c', 'x' * 256, 'a']
WEIGHTS = {
    'open': 14, 'close': 6, 'read': 5, 'write': 10, 'pread': 5, 'pwrite': 9, 'lseek': 4,
    'ftruncate': 6, 'fstat': 4, 'fsync': 1, 'sync': 4, 'df': 4, 'list': 2, 'stat': 3, 'lstat': 2,
    'readlink': 2, 'get': 5, 'mkdir': 4, 'rmdir': 4, 'unlink': 8, 'link': 4, 'symlink': 3,
    'rename': 6, 'chmod': 1, 'truncate': 3,
}
CROWDED_WEIGHTS = dict(WEIGHTS, open=50, mkdir=30, symlink=12, rmdir=10, close=1,
                       sync=2, unlink=1, rename=3)
FULL_WEIGHTS = dict(WEIGHTS, open=12, write=40, pwrite=30, sync=8, close=2, unlink=3, truncate=1,
                    ftruncate=1)
# What is asked beside these where paths begin at numbers.
NUMBERED_WEIGHTS = {'openstat': 6, 'store': 7, 'set': 8, 'renamenew': 5, 'entries': 6, 'statfs': 3, 'lstat': 5}
# What is asked where holes are.
EXTENT_WEIGHTS = {
    'extent': 40, 'store': 24, 'truncate': 14, 'set': 7, 'open': 5, 'close': 2, 'write': 3, 'pwrite': 9,
    'ftruncate': 8, 'get': 3, 'sync': 5, 'df': 1, 'unlink': 1, 'mkdir': 1, 'symlink': 2, 'link': 1,
    'rename': 1, 'stat': 1,
}
# Behind what would be a number if it were written as numbers are, or behind one that nothing has.
ODD_STARTS = ['@', '@03', '@-1', '@3x', '@4294967296', '@4294967295', '@0', '@1', '@2', '@31', '@1000000', 'at3']
ODD_ENDS = ['/..', '/../a', '/a/..', '/.', '/./a', '//a', '/', '/%00', '/' + 'n' * 256, '/' + 'l' * 255, '/@3', '/@4/a']
ENTRIES = [1, 1, 2, 3, 5, 1024]
ODD_ENTRIES = [0, 1025, 4294967295]
SECONDS = [0, 5, -1, 2 ** 31, 2 ** 63 - 1, -2 ** 63]
NANOSECONDS = [0, 7, 999999999, 1000000000, 2 ** 32 - 1]
OWNERS = ['-', '-', '0', '1000', '4294967295']
# None of the weights above names `fchmod`, nor what is about owners or times: they would change the lists that stand.
ON_DESCRIPTORS = ['close', 'read', 'write', 'pread', 'pwrite', 'lseek', 'ftruncate', 'fchmod', 'fchown',
                  'futimens', 'fstat', 'fattr', 'fsync']


class Numbers(random.Random):
    """Numbers from a seed, and what is wanted of them.

    Of three seeds one is for all commands alike, one for many names and open files, and one for
    many bytes, so that the log and the disk get full. Where there are to be snapshots, of six
    commands one is on them. Before a snapshot is restored all open files are closed; so what is
    wanted then stands in `wanted` until none is open. Where paths are to begin at numbers, two of
    five do. Where there are to be holes, most commands give a file bytes or a size, write zeros too,
    or ask what is stored.
    """

    def __init__(self, seed, has_snapshots=False, has_numbers=False, has_holes=False):
        super().__init__(seed)
        self.has_numbers, self.has_holes = has_numbers, has_holes
        self.has_snapshots, self.wanted = has_snapshots, None
        self.names, self.weights, self.longest_run = NAMES, WEIGHTS, 90
        self.standing_part = 0.45
        self.is_full = seed % 3 == 2
        if seed % 3 == 1:
            self.names, self.weights = list(string.ascii_lowercase), CROWDED_WEIGHTS
            self.longest_run, self.standing_part = 150, 0.2
        if self.is_full:
            self.weights = FULL_WEIGHTS
        if has_numbers:
            self.weights = {**self.weights, **NUMBERED_WEIGHTS}
        if has_holes:
            self.weights = EXTENT_WEIGHTS


def standing_paths(system):
    """A path to each object."""
    paths, left = ['/'], [('', ROOT)]
    while left:
        path, number = left.pop()
        for name, inner in system.volume[number].names.items():
            paths.append(path + '/' + word_of(name).decode())
            if system.volume[inner].kind == 'dir':
                left.append((paths[-1], inner))
    return paths


def path(numbers, system):
    """A path: an odd one, one that leads to something, or any of few names."""
    if numbers.has_numbers and numbers.random() < 0.4:
        return path_at_number(numbers, system)
    chance = numbers.random()
    if chance < 0.06:
        return numbers.choice(ODD_PATHS)
    if chance < numbers.standing_part:
        return numbers.choice(standing_paths(system))
    depth = numbers.choice([1, 1, 1, 1, 1, 1, 2, 2, 3])
    return '/' + '/'.join(numbers.choice(numbers.names) for _ in range(depth))


def path_at_number(numbers, system):
    """A path that begins at a number: mostly at one that something has, of an orphan too."""
    standing = sorted(system.volume)
    directories = [number for number in standing if system.volume[number].kind == 'dir']
    start = '@%d' % numbers.choice(standing)
    chance = numbers.random()
    if chance < 0.06:
        return numbers.choice(ODD_STARTS) + numbers.choice(['', '', '/a', '/..'])
    if chance < 0.12:
        return start + numbers.choice(ODD_ENDS)
    if chance < 0.4:
        return start
    if chance < 0.85:
        start = '@%d' % numbers.choice(directories)
    depth = numbers.choice([1, 1, 1, 1, 2, 3])
    return '/'.join([start] + [numbers.choice(numbers.names) for _ in range(depth)])


def path_of_file(numbers, system):
    """A path: mostly the number of a file."""
    files = sorted(number for number, thing in system.volume.items() if thing.kind == 'file')
    if files and numbers.random() < (0.85 if numbers.has_holes else 0.6):
        return '@%d' % numbers.choice(files)
    return path(numbers, system)


def part(numbers, system):
    """Behind which cookie names are asked for, and how many: mostly behind one that a name has."""
    names = [name for thing in system.volume.values() if thing.kind == 'dir' for name in thing.names]
    cookies = [0, 0, 3, 4] + [cookie_of(name) for name in sorted(names)]
    after = numbers.choice(cookies) + numbers.choice([0, 0, 0, -1, 1])
    if numbers.random() < 0.05:
        after = numbers.choice([-1, -2 ** 63, 2 ** 62, 2 ** 63 - 1])
    return '%d %d' % (after, numbers.choice(ODD_ENTRIES if numbers.random() < 0.05 else ENTRIES))


def size(numbers):
    """A size or an offset: mostly one beside a border."""
    chance = numbers.random()
    if chance < 0.04:
        return numbers.choice(ODD_SIZES)
    if chance < 0.7:
        return numbers.choice(SMALL_SIZES)
    return max(0, numbers.choice(SIZES) + numbers.choice([0, 0, -1, 1, 5]))


def place_in(numbers, system):
    """An offset or a size: mostly one beside a border of a block that some file has."""
    ends = [file.size for _, file in sorted(system.volume.items()) if file.kind == 'file']
    chance = numbers.random()
    if chance < 0.3 or not ends:
        return size(numbers)
    if chance < 0.4:
        return numbers.choice(ends)
    most = min(24 * BLOCK, numbers.choice(ends) + BLOCK)
    return max(0, BLOCK * numbers.randrange(0, 1 + most // BLOCK) + numbers.choice([0, 0, 0, -1, 1, 100]))


def data(numbers):
    """Bytes: none, a few, or many of one kind."""
    if numbers.has_holes and numbers.random() < 0.15:
        return '{30*%d}' % (2 * numbers.choice([1, 100, 129, 4096, 4097, 8192]))
    chance = numbers.random()
    if chance < 0.03:
        return '-'
    if chance < (0.2 if numbers.is_full else 0.6):
        count = numbers.randrange(1, 9)
        return ''.join('%02x' % numbers.randrange(256) for _ in range(count))
    count = numbers.choice([20, 100, 128, 129, 200, 4096, 4097, 5000, 10000])
    if chance > (0.7 if numbers.is_full else 0.97):
        count = numbers.choice([65536, 65536, 60000, 65537])
    return '{3%s*%d}' % (numbers.choice('123456789'), 2 * count)


def descriptor(numbers, system):
    """A descriptor: mostly an open one."""
    opened = [number for number, what in enumerate(system.descriptors) if what is not None]
    if opened and numbers.random() < 0.95:
        return numbers.choice(opened)
    return numbers.choice([0, 1, 2, 3, 31, 32, 33, 4294967295])


def flags(numbers):
    """Flags of `open`."""
    letters = [('c', 0.8), ('x', 0.12), ('t', 0.12), ('a', 0.2)]
    access = numbers.choice(['r', 'w', 'rw', 'rw', 'rw'])
    return access + ''.join(letter for letter, part in letters if numbers.random() < part)


def mode(numbers, default):
    """A mode behind a space, or nothing, which is how the default one is written."""
    chosen = numbers.choice([default, default, default, 0, 0o600, 0o7777, 0o444])
    return '' if chosen == default else ' %04o' % chosen


def time(numbers):
    """A time from the Epoch on, or below it."""
    return '%d %d' % (numbers.choice(SECONDS), numbers.choice(NANOSECONDS))


def new_time(numbers):
    """A time for data."""
    return numbers.choice(['now', 'omit', time(numbers)])


def owners(numbers):
    """An owner and a group, each with `-` where it stays."""
    return '%s %s' % (numbers.choice(OWNERS), numbers.choice(OWNERS))


def on_path(numbers, system, name):
    """A command that goes by a path."""
    if name in ('open', 'openstat'):
        return '%s %s %s%s' % (name, path(numbers, system), flags(numbers), mode(numbers, 0o644))
    if name == 'extent':
        return 'extent %s %d' % (path_of_file(numbers, system), place_in(numbers, system))
    if numbers.has_holes and name in ('store', 'truncate'):
        return on_holes(numbers, system, name)
    if name == 'store':
        return 'store %s %d %s' % (path_of_file(numbers, system), size(numbers), data(numbers))
    if name == 'entries':
        return 'entries %s %s' % (path(numbers, system), part(numbers, system))
    if name == 'get':
        return 'get %s %d %d' % (path(numbers, system), size(numbers), numbers.choice(COUNTS))
    if name == 'mkdir':
        return 'mkdir %s%s' % (path(numbers, system), mode(numbers, 0o755))
    if name == 'renamenew' and numbers.random() < 0.6:
        return 'renamenew %s %s' % (numbers.choice(standing_paths(system)), path(numbers, system))
    if name in ('link', 'rename', 'renamenew'):
        return '%s %s %s' % (name, path(numbers, system), path(numbers, system))
    if name == 'symlink':
        return 'symlink %s %s' % (numbers.choice(TEXTS), path(numbers, system))
    if name == 'chmod':
        chosen = numbers.choice([0o700, 0o644, 0o7777, 0])
        return 'chmod %s %04o' % (path(numbers, system), chosen)
    if name in ('chown', 'lchown'):
        return '%s %s %s' % (name, path(numbers, system), owners(numbers))
    if name in ('utimens', 'lutimens'):
        return '%s %s %s' % (name, path(numbers, system), new_time(numbers))
    if name == 'truncate':
        return 'truncate %s %d' % (path(numbers, system), size(numbers))
    if name == 'set':
        chosen = numbers.choice(['-', '0700', '0644', '7777', '0000'])
        target = path(numbers, system) if numbers.random() < 0.4 else path_of_file(numbers, system)
        return 'set %s %s %s' % (target, chosen, '-' if numbers.random() < 0.3 else size(numbers))
    if name == 'rmdir' and numbers.random() < 0.5:
        return 'rmdir ' + numbers.choice(standing_paths(system))
    return '%s %s' % (name, path(numbers, system))


def on_holes(numbers, system, name):
    """Bytes or a size for a file, beside a border of blocks that are there."""
    chosen = '%s %s %d' % (name, path_of_file(numbers, system), place_in(numbers, system))
    return chosen + ' ' + data(numbers) if name == 'store' else chosen


def on_descriptor(numbers, system, name):
    """A command that goes by a descriptor."""
    chosen = '%s %d' % (name, descriptor(numbers, system))
    if name == 'read':
        return '%s %d' % (chosen, numbers.choice(COUNTS + [65536]))
    if name == 'write':
        return '%s %s' % (chosen, data(numbers))
    if name == 'pread':
        return '%s %d %d' % (chosen, size(numbers), numbers.choice(COUNTS))
    if name == 'pwrite':
        return '%s %d %s' % (chosen, size(numbers), data(numbers))
    if name == 'lseek':
        offset = numbers.choice([size(numbers), size(numbers), size(numbers),
                                 -numbers.choice([0, 1, 5, 100]), 2 ** 63 - 1])
        return '%s %s %d' % (chosen, numbers.choice(['set', 'cur', 'end']), offset)
    if name == 'ftruncate':
        return '%s %d' % (chosen, size(numbers))
    if name == 'fchmod':
        return '%s %04o' % (chosen, numbers.choice([0o700, 0o644, 0o7777, 0]))
    if name == 'fchown':
        return '%s %s' % (chosen, owners(numbers))
    if name == 'futimens':
        return '%s %s' % (chosen, new_time(numbers))
    return chosen


SNAPSHOTS = ['s%d' % number for number in range(34)]
ODD_NAMES = ['%', 'a/b', '%20', 'n' * 64, '.']


def snapshot_name(numbers, system):
    """The name of a snapshot: mostly of one that is there."""
    names = [kept.name.decode() for kept in system.snapshots]
    chance = numbers.random()
    if names and chance < 0.8:
        return numbers.choice(names)
    return numbers.choice(ODD_NAMES if chance > 0.97 else SNAPSHOTS)


def on_snapshots(numbers, system):
    """A command on snapshots. Calls within one go by the paths of its own tree."""
    chance = numbers.random()
    if chance < 0.3:
        chosen = ODD_NAMES if numbers.random() < 0.1 else SNAPSHOTS
        return 'snap take ' + numbers.choice(chosen)
    if chance < 0.38:
        return 'snap delete ' + snapshot_name(numbers, system)
    if chance < 0.42:
        return 'snap list'
    if chance < 0.52:
        return restore(numbers, system)
    name = snapshot_name(numbers, system)
    view = system.copy()
    for kept in system.snapshots:
        if kept.name == name.encode():
            view.volume = kept.volume
    calls = ['list', 'stat', 'lstat', 'readlink', 'get', 'get', 'get', 'mkdir', 'truncate']
    call = numbers.choice(calls + ['entries', 'entries', 'store'] if numbers.has_numbers else calls)
    return 'in %s %s' % (name, on_path(numbers, view, call))


def restore(numbers, system):
    """The restoring of a snapshot: mostly behind the closing of all files that are open."""
    line = 'snap restore ' + snapshot_name(numbers, system)
    if any(system.descriptors) and numbers.random() < 0.8:
        numbers.wanted = line
        return towards_wanted(numbers, system)
    return line


def towards_wanted(numbers, system):
    """The next command towards the one that is wanted."""
    for number, opened in enumerate(system.descriptors):
        if opened is not None:
            return 'close %d' % number
    line, numbers.wanted = numbers.wanted, None
    return line


def command(numbers, system):
    """Any command."""
    if numbers.wanted is not None:
        return towards_wanted(numbers, system)
    if numbers.has_snapshots and numbers.random() < 1 / 6:
        return on_snapshots(numbers, system)
    name = numbers.choices(list(numbers.weights), list(numbers.weights.values()))[0]
    if name in ('sync', 'df', 'statfs'):
        return name
    if name == 'at':
        return 'at ' + time(numbers)
    if name == 'as':
        return 'as %d %d' % (numbers.choice([0, 1000, 4294967295]), numbers.choice([0, 100]))
    if name not in ON_DESCRIPTORS:
        return on_path(numbers, system, name)
    if any(system.descriptors) or numbers.random() < 0.1:
        return on_descriptor(numbers, system, name)
    wanted = numbers.choice(['rwc', 'rwc', 'wc', 'rw', 'rwca'])
    return 'open %s %s%s' % (path(numbers, system), wanted, mode(numbers, 0o644))
