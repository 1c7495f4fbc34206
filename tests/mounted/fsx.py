"""fsx.py FOLDER SEED STEPS: random reads, writes, cuts, maps, renames, and files without names, beside the same bytes in memory.
fsx.py --kills COUNT LAUNCHER WORK SEED STEPS: the same in a folder of its own whose server is killed so many times amid them; behind each
kill the files are what was answered, and of the call under way nothing, all, or of a write a beginning."""

import mmap
import os
import random
import sys
import threading

from modelled import Modelled
from serving import Served

FILES = 3
GREATEST = 400_000


def read_at(fd, count, at):
    """The bytes at a place. One read may tell fewer than there are, as where the server is killed amid it: what it has in the cache."""
    found = b''
    while count > len(found):
        part = os.pread(fd, count - len(found), at + len(found))
        if not part:
            break
        found += part
    return found


class Steps:
    """Random steps on a few files, which are always open."""

    def __init__(self, folder, seed):
        self.random = random.Random(seed)
        self.names = [f'file{seed}.{at}' for at in range(FILES)]
        self.model = Modelled(folder)
        self.open = {}
        self.log = []
        self.acts = [self.write] * 8 + [self.read] * 8 + [self.append] * 3 + [self.truncate] * 3 + [self.map] * 3 + [
            self.reopen, self.unlink, self.rename, self.link, self.sync, self.size, self.size]
        self.fill()

    def fill(self):
        """Opens the files, and makes those that aren't there."""
        for name in self.names:
            if name not in self.model.files:
                self.open[name] = self.model.create(name, 0o600)
            elif name not in self.open:
                self.open[name] = os.open(self.model.path(name), os.O_RDWR)

    def step(self):
        """One random step."""
        self.random.choice(self.acts)(self.random.choice(self.names))

    def span(self, limit):
        """A place up to the limit, and a count."""
        at = self.random.randrange(limit + 1)
        if self.random.random() < 0.3:
            at -= at % 4096
        count = self.random.choice([1, 7, 100, 512, 4095, 4096, 4097, 8192, 20000, 65536, 65537, 100000])
        return at, min(count, GREATEST - at)

    def note(self, *what):
        """Remembers a step, to be told where a difference is."""
        self.log.append(what)

    def check(self, name, got, wanted, what):
        """Ends the test where bytes differ."""
        if got == wanted:
            return
        at = next((at for at in range(min(len(got), len(wanted))) if got[at] != wanted[at]), min(len(got), len(wanted)))
        print(f'{what} of {name}: {len(got)} bytes, and not {len(wanted)}, or others, the first at {at}; the last steps:')
        for line in self.log[-25:]:
            print('   ', *line)
        sys.exit(1)

    def close(self, name):
        """Closes a file."""
        os.close(self.open.pop(name))

    def write(self, name):
        at, count = self.span(GREATEST)
        self.note('write', name, at, count)
        self.model.write(self.open[name], name, at, self.random.randbytes(count))

    def read(self, name):
        at, count = self.span(GREATEST)
        self.note('read', name, at, count)
        self.check(name, read_at(self.open[name], count, at), self.model.files[name][at:at + count], 'a read')

    def append(self, name):
        data = self.random.randbytes(self.random.randrange(1, 9000))
        at = len(self.model.files[name])
        if at + len(data) > GREATEST:
            return
        self.note('append', name, len(data))
        fd = os.open(self.model.path(name), os.O_WRONLY | os.O_APPEND)
        try:
            # Where it is written doesn't depend on the place.
            self.model.write(fd, name, at, data)
        finally:
            os.close(fd)

    def truncate(self, name):
        size = self.span(GREATEST)[0]
        self.note('truncate', name, size)
        self.model.truncate(name, size, self.open[name] if self.random.random() < 0.5 else None)

    def map(self, name):
        length = len(self.model.files[name])
        if length == 0:
            return
        at, count = self.span(length)
        count = min(count, length - at)
        if count <= 0:
            return
        self.note('map', name, at, count)
        with mmap.mmap(self.open[name], length) as view:
            self.check(name, view[at:at + count], self.model.files[name][at:at + count], 'a map')
            if self.random.random() < 0.5:
                data = self.random.randbytes(count)
                view[at:at + count] = data
                view.flush()
                old = self.model.files[name]
                self.model.files[name] = old[:at] + data + old[at + count:]

    def reopen(self, name):
        self.note('reopen', name)
        self.close(name)
        self.fill()

    def unlink(self, name):
        self.note('unlink', name)
        data = self.model.files[name]
        self.model.unlink(name)
        fd = self.open[name]
        self.check(name, read_at(fd, GREATEST + 1, 0), data, 'a file without a name')
        os.ftruncate(fd, len(data) // 2)
        self.check(name, read_at(fd, GREATEST + 1, 0), data[:len(data) // 2], 'a cut file without a name')
        self.close(name)
        self.fill()

    def rename(self, name):
        other = self.random.choice(self.names)
        if other == name:
            return
        self.note('rename', name, other)
        self.model.rename(name, other)
        self.close(other)
        self.open[other] = self.open.pop(name)
        self.fill()

    def link(self, name):
        self.note('link', name)
        second = f'{name}.second'
        self.model.link(name, second)
        self.model.unlink(name)
        self.model.rename(second, name)

    def sync(self, name):
        self.note('sync', name)
        os.fsync(self.open[name])

    def size(self, name):
        self.note('size', name)
        wanted = len(self.model.files[name])
        found = os.fstat(self.open[name]).st_size, os.stat(self.model.path(name)).st_size
        if found != (wanted, wanted):
            self.note('sizes', found, wanted)
            self.check(name, b'', b'size', 'the size')

    def recover(self):
        """Behind a new mount: sees what is there, and goes on from that."""
        for fd in self.open.values():
            os.close(fd)
        self.open = {}
        differs = self.model.differs()
        if differs:
            self.check(differs, b'', b'lost', 'what was answered')
        for name in list(self.model.files):
            if name not in self.names:
                self.model.unlink(name)
        self.fill()

    def end(self):
        """Looks at all files, and removes them."""
        for name in self.names:
            self.close(name)
        differs = self.model.differs()
        if differs:
            self.check(differs, b'', b'other', 'the whole')
        for name in self.names:
            self.model.unlink(name)


def plain(folder, seed, count):
    """Steps without kills."""
    steps = Steps(folder, seed)
    for _ in range(count):
        steps.step()
    steps.end()
    print(f'{count} steps of seed {seed}: no difference')


def with_kills(kills, launcher, work, seed, count):
    """Steps amid which the server is killed."""
    served = Served(launcher, work, f'fsx{seed}', ['--blocks', '64M', '--inodes', '1k', '--half', '1M'])
    served.start()
    steps = Steps(served.folder, seed)
    # A map of a file that nobody serves ends the process.
    steps.acts = [act for act in steps.acts if act != steps.map]
    times = random.Random(seed)
    left = kills
    while True:
        killed = threading.Event()
        killer = threading.Timer(times.uniform(0.05, 1.5), lambda: (killed.set(), served.kill()))
        if left > 0:
            killer.start()
        try:
            while left > 0 or count > 0:
                steps.step()
                count -= 1
            break
        except OSError as error:
            if not killed.is_set():
                sys.exit(f'{error}, though the server lives; the last step: {steps.log[-1]}')
        killer.join()
        left -= 1
        served.start()
        steps.recover()
    steps.end()
    served.stop()
    served.check()
    print(f'{len(steps.log)} steps of seed {seed}, {steps.model.answered} changes answered, {kills} kills: no difference')


if sys.argv[1] == '--kills':
    with_kills(int(sys.argv[2]), sys.argv[3], sys.argv[4], int(sys.argv[5]), int(sys.argv[6]))
else:
    plain(sys.argv[1], int(sys.argv[2]), int(sys.argv[3]))
