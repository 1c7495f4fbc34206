#!/usr/bin/env python3
"""Makes the stories of the programs `cuts` and `point_cuts`, by the plain model in crates/rows/plain.

    generate.py             writes their files data/*.story, and says how many cuts each has, and how many second ones
    generate.py --check     says whether they stand as made

A story is a list of commands over an image, what reading commands show behind each of them, and the cuts and failures that are to be
tried. The program reads the data alone: no test of the project runs Python.
"""

import sys
from pathlib import Path

sys.dont_write_bytecode = True

from teller import HALF, KEEPS, Teller, long_name, told  # noqa: E402
from commands import Numbers, command  # noqa: E402
from model import System  # noqa: E402
from scripts import step  # noqa: E402
from session_rows import bytes_of  # noqa: E402
from version_1 import TITLE, lines_of, stored_of  # noqa: E402

HERE = Path(__file__).resolve().parent

FORTY = '''\
mkdir /a -> ok
mkdir /a/b 0700 -> ok
open /a/f rwc -> fd 0
write 0 616263 -> wrote 3
symlink a/f /l -> ok
get /l 0 9 -> data 616263
link /a/f /g -> ok
sync -> ok
snap take s1 -> ok
pwrite 0 1 ff -> wrote 1
in s1 get /g 0 9 -> data 616263
get /g 0 9 -> data 61ff63
rename /a /c -> ok
stat /l -> err ENOENT
rename /c/b /b -> ok
unlink /g -> ok
unlink /c/f -> ok
fstat 0 -> stat number 6 kind file mode 0644 links 0 size 3
sync -> ok
pwrite 0 8192 01 -> wrote 1
open /h wcx 0600 -> fd 1
close 0 -> ok
mkdir /b/e -> ok
truncate /h 200 -> ok
chmod /h 0640 -> ok
snap take s2 -> ok
rmdir /c -> ok
in s2 list / -> names b c h l
list / -> names b h l
in s1 stat /a/f -> stat number 6 kind file mode 0644 links 2 size 3
snap delete s1 -> ok
snap list -> snaps s2
rename /l /b/e -> err EISDIR
rename /b /b/e/x -> err EINVAL
open /h rw -> fd 0
read 0 3 -> data 000000
ftruncate 0 2 -> ok
lseek 0 end 1 -> at 3
write 0 07 -> wrote 1
get /h 0 9 -> data 00000007
close 0 -> ok
close 1 -> ok
snap restore s2 -> ok
'''
VERSION_1 = '''\
open /f rw
pwrite 0 67108862 616263
sync
snap take s3
ftruncate 0 67108863
mkdir /b
snap restore s1
close 0
snap delete s2
snap restore s3
snap restore s1
mkdir /c
'''
PATHS = '/ /a /a/b /a/f /l /g /c /c/b /c/f /b /b/e /h /z'.split()


def reading(paths):
    """Reading commands that show all that may stand at some paths."""
    return [line for path in paths for line in ('lstat ' + path, 'list ' + path, 'readlink ' + path, 'get %s 0 300' % path)]


def of_forty():
    """The commands and replies of the list of forty, and of the way back behind them."""
    return [line.split(' -> ') for line in FORTY.splitlines()]


def forty():
    """Forty commands of all kinds, and the way back to a snapshot."""
    head = ['Forty commands, and three that go back to a snapshot: cut within each write, with a second cut behind each; and each device call',
            'fails in turn.']
    teller = Teller(head, 128, 32)
    of_tail = ['list /', 'list /a', 'list /b', 'list /c', 'readlink /l', 'get /g 0 300', 'get /h 0 300', 'lstat /z']
    probes = reading(PATHS) + ['snap list']
    probes += ['in %s %s' % (name, line) for name in ('s1', 's2') for line in reading(PATHS)]
    teller.probe(probes + ['in z ' + line for line in of_tail])
    teller.tail()
    teller.second_cuts(1)
    teller.lines += ['failing', '']
    first_state(teller)
    for place, (line, reply) in enumerate(of_forty()):
        came = teller.do(line, '')
        assert came == reply, (line, came)
        teller.show_state()
        teller.lines += without(place)
    return teller


def first_state(teller):
    """What the tail shows before the first command."""
    teller.lines.append('start')
    teller.show_state()


def without(place):
    """What others are answered where one of the forty commands is left out."""
    system = System(128, 32, HALF)
    out = []
    for number, (line, reply) in enumerate(of_forty()):
        if number == place:
            continue
        came = told(step(system, bytes_of(line)))
        if came != reply:
            out.append('  without %d %s -> %s' % (number + 1, line, came))
    return out


def slices():
    """Commands amid which a point is written in slices that changes most blocks of a directory of long names."""
    head = ['Directories of names of 255 bytes, and a file that fills the log. The 452nd plans a point of most blocks of their directory, and the',
            'next ones write it in slices: cut within each write, each number of bytes of a record staying in one or another of them. Behind each',
            'of these cuts the tail is run; of the cuts within its writes those are tried whose turn it is, as all of them take too long.']
    teller = Teller(head, 1024, 512)
    late = range(17, 452, 17)
    teller.before(['mkdir /' + long_name(number) for number in range(1, 452)] + ['rmdir /' + long_name(number) for number in late]
                  + ['open /f wc', 'sync'] + ['mkdir /' + long_name(number) for number in late]
                  + ['pwrite 0 0 {6%d*33060}' % digit for digit in (1, 2, 3, 4, 5, 6, 1)])
    probes = ['list /', 'snap list', 'lstat /' + long_name(451), 'list /' + long_name(451), 'get /f 16520 20']
    probes += ['lstat /' + long_name(number) for number in range(452, 461)]
    teller.probe(probes + ['lstat /z', 'list /z', 'in z list /'])
    teller.tail()
    teller.second_cuts(97)
    first_state(teller)
    for number in range(452, 461):
        first, keep = 31 * (number - 452), KEEPS.split(',')[number % 5]
        teller.do('mkdir /' + long_name(number), 'none,all', (first, first + 30), keep)
        teller.show_state()
    return teller


def filled():
    """Commands amid which a point is written in slices, with second cuts."""
    head = ['A file fills the log: the first command plans a point, and the next ones write it in slices, cut within each write. Behind each of',
            'these cuts the tail is run; of the cuts within its writes those are tried whose turn it is.']
    teller = Teller(head, 256, 32)
    teller.before(['open /f wc', 'write 0 {61*131072}', 'write 0 {62*114546}'])
    names = 'abcdeghi'
    probes = ['list /', 'snap list', 'lstat /f', 'get /f 65534 4', 'get /f 122807 9', 'lstat /z', 'list /z', 'in z list /', 'in z get /f 65534 4']
    teller.probe(probes + ['lstat /' + name for name in names])
    teller.tail()
    teller.second_cuts(24)
    first_state(teller)
    for name in names:
        teller.do('mkdir /' + name, KEEPS)
        teller.show_state()
    return teller


def version_1():
    """Commands over an image of version 1, from its first record on to roots of version 2."""
    name = 'snapshots of different trees, and a cut within a third one'
    system = stored_of(TITLE + name)
    head = ['An image of version 1 with two snapshots, as a program made it that wrote this version. Commands go on from it: a file over',
            '67,108,864 bytes, which only version 2 has, consistency points, a snapshot, and the way back to it and to the first one. They are cut',
            'within each write; of the cuts behind these those are tried whose turn it is.']
    teller = Teller(head, system.block_count, system.inode_count, system)
    words = [line.split() for line in lines_of(name)]
    teller.lines += ['%s %s %s' % (device, place, digits) for device, verb, place, *rest in words if verb == 'at' for digits in rest]
    teller.system.mount()
    probes = ['list /', 'snap list', 'lstat /a', 'lstat /b', 'lstat /f', 'get /f 4194303 4', 'get /f 67108862 9', 'lstat /z']
    probes += ['in %s %s' % (taken, line) for taken in ('s1', 's2', 's3', 'z')
               for line in ('list /', 'get /f 4194303 4', 'get /f 67108862 9')]
    teller.probe(probes)
    teller.tail()
    teller.second_cuts(8)
    teller.lines.append('')
    first_state(teller)
    for line in VERSION_1.splitlines():
        teller.do(line, KEEPS)
        teller.show_state()
    return teller


def many():
    """Two thousand commands of every kind."""
    teller = Teller(['Two thousand commands from fixed numbers, each of them spelled as it is written again.'], 128, 32)
    for seed in range(20):
        numbers = Numbers(1000 + seed, True)
        for _ in range(100):
            teller.do(command(numbers, teller.system))
    return teller


def again():
    """A file of 200 blocks, read twice."""
    teller = Teller(['A file of 200 blocks, read whole twice behind a mount: the second reading makes no device call.'], 1024, 512)
    parts = [(place, min(65536, 200 * 4096 - place)) for place in range(0, 200 * 4096, 65536)]
    teller.before(['open /f wc'] + ['write 0 {3%d*%d}' % (place // 65536 % 9 + 1, 2 * count) for place, count in parts] + ['sync'])
    teller.lines += ['quiet %d' % len(parts)]
    for _ in range(2):
        for place, count in parts:
            teller.do('get /f %d %d' % (place, count))
    return teller


def foreign():
    """Bytes of an image changed one at a time: the roots, the inodes, the block map, and what a half of the log begins with."""
    teller = Teller(['Bytes of a small image\'s roots, inodes, block map and log become 00 and ff in turn.'], 64, 32)
    teller.before(['mkdir /a'])
    teller.lines += ['sweep disk %d..%d' % (4096 * block, 4096 * block + 4095) for block in (0, 2, 3)]
    teller.lines += ['sweep nvram %d..%d' % (half, half + 63) for half in (0, HALF)]
    for line, _ in of_forty():
        teller.do(line)
    return teller


STORIES = {'cuts/data/forty.story': forty, 'cuts/data/many.story': many, 'cuts/data/foreign.story': foreign,
           'cuts/data/again.story': again,
           'cuts/data/version_1.story': version_1, 'point_cuts/data/slices.story': slices, 'point_cuts/data/filled.story': filled}


def main(words):
    """Does what the words say: the exit status."""
    holds = True
    for name, make in STORIES.items():
        teller, path = make(), HERE.parent.parent / name
        text = '\n'.join(teller.lines) + '\n'
        stands = words != ['--check'] or path.read_text(encoding='latin-1') == text
        if words != ['--check']:
            path.write_text(text, encoding='latin-1')
        holds &= stands
        print('%s: %d cuts, %d second cuts%s' % (path.name, teller.firsts, teller.seconds(), '' if stands else '; not as made'))
    return 0 if holds else 1


if __name__ == '__main__':
    sys.exit(main(sys.argv[1:]))
