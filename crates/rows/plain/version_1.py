"""Images of version 1, as `data/version_1.rows` has their bytes, and what the model makes of them.

A program made them that wrote this version. Beside each stand the commands that it was made by; the model does
them, and what comes of it has roots of version 1.
"""

import functools
from pathlib import Path

from model import System
from scripts import run

DATA = Path(__file__).resolve().parent.parent / 'data'
TITLE = 'an image of version 1: '


class Image:
    """What an image is made by: its sizes, and the scripts of runs, each with the options of `run`.

    `looks` are reading commands, and `then` are scripts that go on from it. Bytes that are put in it
    afterwards, the `patches`, stand for other scripts, those of `instead`: no program of version 1 could
    run them.
    """

    def __init__(self, name, sizes, scripts, looks, then, patches=(), instead=None):
        self.name, self.sizes, self.scripts, self.looks, self.then = name, sizes, scripts, looks, then
        self.patches, self.instead = patches, instead

    def system(self):
        """What the model makes of it."""
        system = System(*self.sizes)
        for script, options in self.instead or self.scripts:
            words = dict(zip(options[::2], options[1::2]))
            cut = int(words['--cut']) if '--cut' in words else None
            _, system = run(system, [line.encode() for line in script], cut, words.get('--keep', 'none'))
        system.roots = [root and (1, root[1]) for root in system.roots]
        return system


IMAGES = [
    Image('a directory, and a snapshot of it', (64, 32, 131072), [(['mkdir /a', 'snap take s1'], [])],
          ['list /', 'snap list', 'in s1 list /', 'df'],
          [['mkdir /b', 'sync', 'in s1 list /', 'df'], ['snap restore s1', 'list /', 'snap take s2', 'snap list', 'df']]),
    Image('twenty snapshots', (128, 32, 131072), [([f'snap take n{k}' for k in range(1, 21)], [])],
          ['df', 'snap list', 'in n20 list /', 'snap take n1'],
          [['snap take n21', 'snap list', 'in n21 list /', 'in n20 list /', 'df'], ['snap delete n20', 'snap take n22', 'snap take n23', 'snap list', 'df']]),
    Image('a file of 64 MiB with blocks at both ends of its levels', (128, 32, 131072),
          [(['open /f rwc', 'pwrite 0 0 61', 'pwrite 0 4190207 62', 'pwrite 0 4194304 63', 'pwrite 0 67108863 64', 'sync',
             'snap take s1', 'pwrite 0 8388608 65', 'sync'], [])],
          ['stat /f', 'get /f 0 1', 'get /f 4190207 1', 'get /f 4194304 1', 'get /f 8388608 1', 'get /f 67108863 2',
           'in s1 get /f 8388608 1', 'in s1 get /f 67108863 1', 'df'],
          [['open /f rw', 'pwrite 0 67108863 6667', 'df', 'sync', 'df', 'pread 0 67108862 4', 'pread 0 4190206 3', 'in s1 get /f 67108863 9'],
           ['truncate /f 67108864', 'df', 'sync', 'get /f 67108862 9', 'df'],
           ['snap restore s1', 'get /f 8388608 1', 'get /f 67108863 9', 'snap delete s1', 'df']]),
    Image('files of each level, links, and a directory of two blocks', (128, 64, 131072),
          [(['open /inline rwc', 'write 0 696e', 'close 0', 'open /one rwc', 'pwrite 0 65535 31', 'close 0',
             'open /over rwc', 'pwrite 0 65536 32', 'close 0', 'open /two rwc', 'pwrite 0 4194304 33', 'close 0',
             'symlink /over /s', 'link /one /o', 'mkdir /d', 'mkdir /d/e']
            + [f"link /one /d/{'x' * 250}{k:02}" for k in range(16)] + ['chmod /two 0600', 'sync'], [])],
          ['list /', 'stat /inline', 'stat /one', 'stat /over', 'stat /two', 'stat /d', 'lstat /s', 'get /inline 0 9',
           'get /o 65534 9', 'get /s 65535 9', 'get /two 4194303 9', 'list /d/e', 'df'],
          [['truncate /two 68719476736', 'truncate /over 67108865', 'truncate /inline 67108865', 'df', 'snap take s', 'df'],
           ['get /s 65535 9', 'get /two 4194303 9', 'get /inline 0 4', 'stat /two', 'unlink /two', 'truncate /over 65537', 'sync', 'df']]),
    Image('both roots, of which the older one has more in it', (64, 32, 131072),
          [(['mkdir /a', 'mkdir /a/b', 'open /f rwc', 'pwrite 0 65536 66', 'sync', 'rmdir /a/b', 'rmdir /a', 'unlink /f', 'close 0',
             'sync'], [])],
          ['list /', 'df'],
          [['mkdir /c', 'sync', 'list /', 'df'], ['list /', 'snap take s', 'df']]),
    Image('records in the log', (64, 32, 131072),
          [(['mkdir /a', 'sync', 'open /f rwc', 'pwrite 0 67108863 66', 'mkdir /b', 'rename /a /b/c', 'ftruncate 0 65536'], [])],
          ['list /', 'list /b', 'stat /f', 'df'],
          [['sync', 'df'], ['list /b', 'stat /f', 'open /f w', 'pwrite 0 67108864 67', 'df', 'sync', 'df']]),
    Image('a write in the log that ends past 64 MiB, which only a later version allows', (64, 32, 131072),
          [(['open /f rwc', 'pwrite 0 67108863 66'], [])],
          ['stat /f', 'get /f 67108863 9', 'df'],
          [['sync', 'get /f 67108863 9', 'df'], ['truncate /f 1', 'sync', 'df']],
          [('0504000000ffffff03', '050400000000000004')],
          [(['open /f rwc', 'pwrite 0 67108864 66'], [])]),
    Image('a cut in the log to a size past 64 MiB, which only a later version allows', (64, 32, 131072),
          [(['open /f rwc', 'ftruncate 0 67108863'], [])],
          ['stat /f', 'df'],
          [['truncate /f 68719476736', 'df', 'sync', 'stat /f', 'df'], ['stat /f', 'unlink /f', 'sync', 'df']],
          [('0604000000ffffff03', '060400000001000004')],
          [(['open /f rwc', 'ftruncate 0 67108865'], [])]),
    Image('a file without a name, and records in the log', (64, 32, 131072),
          [(['open /f rwc', 'pwrite 0 65536 66', 'unlink /f', 'sync', 'mkdir /a'], [])],
          ['list /', 'df'],
          [['sync', 'list /', 'df'], ['snap take s', 'rmdir /a', 'snap restore s', 'list /', 'df']]),
    Image('a consistency point under way, with records of both epochs', (256, 32, 131072),
          [(['mkdir /a', 'open /f rwc'] + [f"pwrite 0 {65536 * k} {'00' * 61439}66" for k in range(2)]
            + ['pwrite 0 131072 ' + '00' * 2000, 'mkdir /b', 'mkdir /c'], [])],
          ['list /', 'stat /f', 'get /f 61438 4', 'df'],
          [['mkdir /d', 'df'], ['list /', 'get /f 61438 4', 'sync', 'df']]),
    Image('snapshots of different trees, and a cut within a third one', (128, 32, 131072),
          [(['mkdir /a', 'snap take s1', 'open /f rwc', 'pwrite 0 4194304 66', 'snap take s2', 'rmdir /a'], []),
           (['snap take s3'], ['--cut', '8', '--keep', 'none'])],
          ['list /', 'snap list', 'in s1 list /', 'in s2 list /', 'in s2 get /f 4194304 1', 'df'],
          [['snap restore s1', 'list /', 'df'], ['snap restore s2', 'list /', 'get /f 4194304 1', 'df'],
           ['snap delete s1', 'snap take s3', 'snap list', 'df']]),
]


# Runs over such images that are cut: the image's name, what a cut within a write leaves behind the script, and the script.
CUTS = [
    ('a directory, and a snapshot of it', ['cut=6..8 keep=none,all,10,01,2,021', 'cut=9 keep=none', 'cut=9 keep=2', 'cut=9 keep=all'],
     ['mkdir /b', 'sync']),
    ('a directory, and a snapshot of it', ['cut=1..3 keep=none,all,10,01,2,021', 'cut=4 keep=none', 'cut=4 keep=2', 'cut=4 keep=all'],
     ['snap take s2']),
    ('a directory, and a snapshot of it', ['cut=1..2 keep=none,all,10,01,2,021', 'cut=3 keep=none', 'cut=3 keep=2', 'cut=3 keep=all'],
     ['snap restore s1']),
    ('a directory, and a snapshot of it', ['cut=1..2 keep=none,all,10,01,2,021', 'cut=3 keep=none', 'cut=3 keep=2', 'cut=3 keep=all'],
     ['snap delete s1']),
    ('a write in the log that ends past 64 MiB, which only a later version allows',
     ['cut=1..6 keep=none,all,10,01,2,021', 'cut=7 keep=none', 'cut=7 keep=2', 'cut=7 keep=all'],
     ['sync']),
    ('records in the log', ['cut=4 bytes=0', 'cut=4 bytes=1', 'cut=4 bytes=26'], ['truncate /f 67108865', 'sync']),
]


def image_of(title):
    """The image that a row begins with, by its title; None where it begins with none of these."""
    found = [image for image in IMAGES if title.startswith(TITLE + image.name)]
    return max(found, key=lambda image: len(image.name), default=None)


@functools.cache
def system_of(name):
    """What the model makes of the image of a name."""
    return image_of(TITLE + name).system()


def stored_of(title):
    """The system on the image that a row begins with."""
    image = image_of(title)
    return image and system_of(image.name).copy()


def is_put(line):
    """Whether a line puts bytes of an image."""
    return line.split()[0] in ('disk', 'nvram') and line.split()[1] in ('size', 'at')


def lines_of(name):
    """The lines that put an image, as `data/version_1.rows` has them."""
    text = (DATA / 'version_1.rows').read_text()
    row = next(row for row in text.split('\nrow ') if row.split('\n')[0] == TITLE + name)
    return [line for line in row.split('\n')[1:] if line.startswith('image ') or line and is_put(line)]
