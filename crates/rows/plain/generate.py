#!/usr/bin/env python3
"""Makes rows of commands from fixed numbers, with the replies of a plain model.

    generate.py             writes the files data/random_*.rows
    generate.py --check     says whether they stand as made, and whether the rows that were written
                            by hand agree with the model, as far as it can read them
    generate.py --more FIRST COUNT FOLDER
                            writes as many other lists of 150 commands into a folder, a file for
                            each seed from FIRST on, for a longer comparison

The program `rows` compares these replies with those of the file system. It reads the data alone:
no test of the project runs Python.
"""

import collections
import sys
from pathlib import Path

from commands import Numbers, command
from cuts import rows_of_cuts
from model import ROOT, System
from objects import BLOCK
from calls import word_of
from scripts import run, step
from session_rows import bytes_of, difference, heads, is_read, rows_of, shown
from version_1 import TITLE, lines_of, stored_of

DATA = Path(__file__).resolve().parent.parent / 'data'
HALF = 131072
LENGTH = 150
KEEPS = ['none', 'all', '10', '01', '110']
LOSING_KEEPS = ['2', '021']
# File, blocks, inodes, whether there are snapshots, paths that begin at numbers and what asks for holes, what
# cuts keep, and the seed of each list. The seeds are ones with refusals of many kinds.
FILES = [
    ('random_64.rows', 64, 32, False, False, False, KEEPS, [43, 47, 50, 101, 117, 128]),
    ('random_128.rows', 128, 32, False, False, False, KEEPS, [17, 47, 59, 101, 122, 150]),
    ('random_256.rows', 256, 64, False, False, False, KEEPS, [43, 45, 117, 122, 141, 149]),
    ('random_snapshots.rows', 128, 32, True, False, False, KEEPS, [11, 14, 35, 47, 50, 56]),
    ('random_unreadable.rows', 128, 32, True, False, False, LOSING_KEEPS, [3, 65, 83, 93, 116, 140]),
    ('random_numbers.rows', 128, 32, True, True, False, LOSING_KEEPS, [56, 75, 119, 130, 132, 141]),
    ('random_extents.rows', 256, 32, True, True, True, KEEPS, [16, 21, 33, 37, 47, 58]),
]
# The seeds of the lists that are cut at each of their writes: in one a snapshot is restored while a point is under way, in the other a
# snapshot is deleted then.
CUT_SEEDS = [83, 104]
# The images of version 1 that lists go on from, and their seeds.
VERSION_1_SEEDS = [
    ('a directory, and a snapshot of it', 9),
    ('files of each level, links, and a directory of two blocks', 44),
    ('records in the log', 28),
    ('snapshots of different trees, and a cut within a third one', 5),
]
HEAD = '''\
# Commands made from fixed numbers, with the replies of a plain model in Python: see the folder
# `plain`, which writes this file. How a row is written stands in the head of sessions.rows.
# Each row is one list of commands over a new image, in several runs, half of which end with a
# cut; the last run reads all that is left. A row's name ends with its seed.
'''
VERSION_1_HEAD = '''\
# Commands made from fixed numbers, with the replies of a plain model in Python: see the folder
# `plain`, which writes this file. How a row is written stands in the head of sessions.rows.
# Each row is one list of commands over an image of version 1 (version_1.rows), in several runs, half
# of which end with a cut; the last run reads all that is left. A row's name ends with its seed.
'''
CUT_HEAD = '''\
# Commands made from fixed numbers, with the replies of a plain model in Python: see the folder
# `plain`, which writes this file. How a row is written stands in the head of sessions.rows.
# Lists over an image with some files, which fill the log and then have a point written in slices.
# Each list is cut at each of its device writes; a row stands for those that leave the same. Then all
# that is left is read, and further commands come.
'''


def script(numbers, system, length):
    """Lines that a system does: pairs of command and reply, and how many writes they make."""
    system = system.copy()
    system.mount()
    pairs, writes = [], 0
    for _ in range(length):
        line = command(numbers, system)
        pairs.append((line, step(system, bytes_of(line))))
        writes += system.writes
    return pairs, writes


def some_run(numbers, system, keeps, length):
    """The lines of a run, and what it leaves. Half of the runs are cut."""
    pairs, writes = script(numbers, system, length)
    lines = [bytes_of(line) for line, _ in pairs]
    if writes == 0 or numbers.random() < 0.5:
        replies, left = run(system, lines)
        return ['run'] + shown_lines(pairs, replies), left
    cut, keep = numbers.randrange(1, writes + 1), numbers.choice(keeps)
    kept_bytes = numbers.choice([0, 0, 1, 5, 20, 1000])
    replies, left = run(system, lines, cut, keep, kept_bytes)
    head = 'run cut=%d keep=%s bytes=%d' % (cut, keep, kept_bytes)
    return [head] + shown_lines(pairs, replies), left


def shown_lines(pairs, replies):
    """The lines of a run up to the last reply."""
    return ['  %s -> %s' % (shown(bytes_of(line)), shown(reply)) for (line, _), reply in zip(pairs, replies)]


def reading(system, has_numbers=False, has_holes=False):
    """Commands that read all that a system has, once more by numbers and with what is stored where that is asked."""
    read_tree = reading_by_numbers if has_numbers else reading_tree
    lines = read_tree(system.volume) + ['df'] + (['statfs'] if has_numbers else [])
    lines += reading_extents(system.volume) if has_holes else []
    for kept in system.snapshots:
        lines += ['in %s %s' % (word_of(kept.name).decode(), line) for line in read_tree(kept.volume)]
    return lines + (['snap list'] if system.snapshots else [])


def reading_extents(volume):
    """Commands that ask for each piece of data and each hole of all files."""
    lines = []
    for number, thing in sorted(volume.items()):
        offset = 0 if thing.kind == 'file' else None
        while offset is not None:
            lines.append('extent @%d %d' % (number, offset))
            _, data, hole = thing.extent(offset)
            offset = hole if data == offset else thing.size if data is None and offset < thing.size else data
    return lines


def reading_by_numbers(volume):
    """Commands that read a tree, and again by the numbers in it, and by the next one."""
    lines = reading_tree(volume)
    for number, thing in sorted(volume.items()):
        lines.append('lstat @%d' % number)
        if thing.kind == 'link':
            lines.append('readlink @%d' % number)
        if thing.kind == 'file':
            lines.append('get @%d 0 20' % number)
        if thing.kind == 'dir':
            lines += ['list @%d' % number, 'entries @%d 0 1024' % number]
            lines += ['lstat @%d/%s' % (number, word_of(name).decode()) for name in thing.names]
    return lines + ['lstat @%d' % (max(volume) + 1)]


def reading_tree(volume):
    """Commands that read all of a tree."""
    lines, left = [], [('/', ROOT)]
    while left:
        path, number = left.pop()
        thing = volume[number]
        lines.append('lstat ' + path)
        if thing.kind == 'link':
            lines.append('readlink ' + path)
        if thing.kind == 'file':
            offsets = {0, max(0, thing.size - 3000)}
            offsets |= {index * BLOCK - 10 for index in thing.data if index}
            lines += ['get %s %d 4200' % (path, offset) for offset in sorted(offsets)]
        if thing.kind == 'dir':
            lines.append('list ' + path)
            before = '' if path == '/' else path
            left += [(before + '/' + word_of(name).decode(), inner)
                     for name, inner in thing.names.items()]
    return lines


def some_row(blocks, inodes, has_snapshots, has_numbers, has_holes, keeps, seed):
    """A row of as many commands as `LENGTH` over a new image, and then what reads all that is left."""
    made = ['', 'row random %d' % seed, 'image %d %d %d' % (blocks, inodes, HALF)]
    return going_on(System(blocks, inodes, HALF), made, Numbers(seed, has_snapshots, has_numbers, has_holes), keeps)


def row_of_version_1(name, seed):
    """The same over an image of version 1."""
    made = ['', 'row %s%s, random %d' % (TITLE, name, seed)] + lines_of(name)
    return going_on(stored_of(TITLE + name), made, Numbers(seed, True), LOSING_KEEPS + KEEPS)


def going_on(system, made, numbers, keeps):
    """The lines that make an image, then as many commands as `LENGTH`, and then what reads all that is left."""
    lines = list(made)
    count = 0
    while count < LENGTH:
        length = min(LENGTH - count, numbers.randrange(5, numbers.longest_run))
        more, system = some_run(numbers, system, keeps, length)
        lines += more + ['check -> ' + shown(system.checked())] + heads(system)
        if not set(keeps).isdisjoint(LOSING_KEEPS):
            lines.append(' '.join(['slots ->'] + [str(sector) for sector in system.lost_slots()]))
        count += len(more) - 1
    mounted = system.copy()
    mounted.mount()
    last = reading(mounted, numbers.has_numbers, numbers.has_holes)
    replies, _ = run(system, [bytes_of(line) for line in last])
    return lines + ['run'] + shown_lines([(line, None) for line in last], replies) + ['unchanged']


def made_file(blocks, inodes, has_snapshots, has_numbers, has_holes, keeps, seeds):
    """The text of a file with a row for each seed."""
    lines = HEAD.splitlines()
    for seed in seeds:
        lines += some_row(blocks, inodes, has_snapshots, has_numbers, has_holes, keeps, seed)
    return '\n'.join(lines) + '\n'


def file_of_version_1():
    """The text of a file with rows over images of version 1."""
    lines = VERSION_1_HEAD.splitlines()
    for name, seed in VERSION_1_SEEDS:
        lines += row_of_version_1(name, seed)
    return '\n'.join(lines) + '\n'


def cut_file(seeds):
    """The text of a file with the cuts of a list for each seed."""
    lines = CUT_HEAD.splitlines()
    for seed in seeds:
        lines += rows_of_cuts(seed, reading)
    return '\n'.join(lines) + '\n'


def fixed_files():
    """The names and texts of the files that belong to the data."""
    others = [('random_version_1.rows', file_of_version_1()), ('random_slices.rows', cut_file(CUT_SEEDS))]
    return [(name, made_file(*rest)) for name, *rest in FILES] + others


def tell(name, text):
    """Prints what a file has: its commands, and how many answers of each kind."""
    lines = [line for line in text.split('\n') if line.startswith('  ')]
    refusals = collections.Counter(line.rsplit(' -> ')[1] for line in lines if ' -> err ' in line)
    told = ', '.join('%s %d' % pair for pair in sorted(refusals.items()))
    print('%s: %d commands; %s' % (name, len(lines), told))


def check():
    """Whether the files stand as made and the other rows agree with the model."""
    holds = True
    for name, text in fixed_files():
        tell(name, text)
        if (DATA / name).read_text() != text:
            holds = False
            print('%s: not as made' % name)
    count = 0
    for path in sorted(DATA.glob('*.rows')):
        rows = [row for row in rows_of(path.read_text()) if is_read(row)]
        count += len(rows)
        for found in filter(None, map(difference, rows)):
            holds = False
            print('%s: %s' % (path.name, found))
    print('%d rows compared' % count)
    return holds


def main(words):
    """Does what the words say: the exit status."""
    if words == ['--check']:
        return 0 if check() else 1
    if len(words) == 4 and words[0] == '--more':
        for seed in range(int(words[1]), int(words[1]) + int(words[2])):
            _, *sizes_and_keeps, _ = FILES[seed // 3 % len(FILES)]
            path = Path(words[3]) / ('random_%d.rows' % seed)
            path.write_text(made_file(*sizes_and_keeps, [seed]))
        return 0
    if words:
        print(__doc__)
        return 2
    for name, text in fixed_files():
        (DATA / name).write_text(text)
        tell(name, text)
    return 0


if __name__ == '__main__':
    sys.exit(main(sys.argv[1:]))
