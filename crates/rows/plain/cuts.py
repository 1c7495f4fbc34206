"""Lists of commands of the plain model that are cut at each of their writes, while a point is written in slices.

A list begins with a file that fills the log up to where a point is planned, so that the commands
behind it write slices, and these are cut. A row stands for all cuts within a command that leave the
same.
"""

from commands import Numbers, command
from model import System
from scripts import run, step
from session_rows import bytes_of, shown

KEEPS = ['none', 'all', '201']
BLOCKS, INODES, HALF = 320, 64, 131072
FIRST, LENGTH = 8, 14
# Behind these three records the next gate is the first one at which a point is planned.
FILL = ['open /big rwc', 'write 0 {36*131072}', 'write 0 {37*114542}']
BEHIND = ['mkdir /behind', 'df', 'sync']
WEIGHTS = {
    'open': 12, 'close': 6, 'write': 8, 'pwrite': 8, 'ftruncate': 6, 'mkdir': 10, 'rmdir': 4,
    'unlink': 10, 'link': 6, 'symlink': 4, 'rename': 10, 'chmod': 4, 'truncate': 8, 'get': 4,
    'df': 3, 'sync': 1,
}


class Moment:
    """A command of a run: what stood before and behind it, and how many writes come before it."""

    def __init__(self, writes, before, behind, reading):
        self.writes, self.before, self.behind, self.reading = writes, before, behind, reading
        self.told = {}

    def outcome(self, write, keep, kept_bytes):
        """What a row tells of what a cut within this write leaves."""
        standing, loses_slot = self.behind.standing(write, self.before, keep, kept_bytes)
        key = (id(standing), loses_slot)
        if key not in self.told:
            left = self.behind.cut(write, self.before, keep, kept_bytes)
            self.told[key] = told_of(left, self.reading)
        return self.told[key]

    def groups(self):
        """Its cuts: writes one behind the other that leave the same, by keeps and kept bytes."""
        groups = []
        for kept_bytes in (0, 1):
            for write in range(1, self.behind.writes + 1):
                found = {}
                for keep in KEEPS:
                    told = self.outcome(write, keep, kept_bytes)
                    if kept_bytes == 0 or told != self.outcome(write, keep, 0):
                        found.setdefault(tuple(told), []).append(keep)
                for told, keeps in found.items():
                    self.add(groups, write, (keeps, kept_bytes, told))
        return groups

    def add(self, groups, write, what):
        """Adds a write to the group that ends before it and leaves the same, or makes a group."""
        for group in groups:
            if group[1] == what and group[0][-1] == write + self.writes - 1:
                group[0].append(write + self.writes)
                return
        groups.append(([write + self.writes], what))


def told_of(left, reading):
    """A check of what a cut left, all that can be read of it, and what commands behind that come to."""
    mounted = left.copy()
    mounted.mount()
    asked = reading(mounted)
    replies, _ = run(left, [bytes_of(line) for line in asked])
    going, last = run(left, [bytes_of(line) for line in BEHIND])
    slots = ' '.join(['slots ->'] + [str(sector) for sector in left.lost_slots()])
    return ['check -> ' + shown(left.checked()), slots, 'run'] + shown_run(asked, replies) \
        + ['unchanged', 'run'] + shown_run(BEHIND, going) + ['check -> ' + shown(last.checked())]


def shown_run(lines, replies):
    """The lines of a run with their replies."""
    return ['  %s -> %s' % (shown(bytes_of(line)), shown(reply)) for line, reply in zip(lines, replies)]


def some_line(numbers, system):
    """A command, mostly one that isn't refused."""
    for _ in range(4):
        line = command(numbers, system)
        if not step(system.copy(), bytes_of(line)).startswith(b'err '):
            break
    return line


def some_run(numbers, system, first, count, reading):
    """The lines of a run, with so many chosen behind the first ones, their replies, and its moments."""
    system = system.copy()
    system.mount()
    lines, replies, moments, writes = [], [], [], 0
    for place in range(len(first) + count):
        lines.append(first[place] if place < len(first) else some_line(numbers, system))
        before = system.copy()
        replies.append(step(system, bytes_of(lines[-1])))
        moments.append(Moment(writes, before, system, reading))
        writes += system.writes
        system = system.copy()
    return lines, replies, moments


def rows_of_cuts(seed, reading):
    """The rows of a list: one for each group of its cuts."""
    numbers = Numbers(seed, True)
    lines, _, _ = some_run(numbers, System(BLOCKS, INODES, HALF), [], FIRST, reading)
    lines.append('sync')
    replies, system = run(System(BLOCKS, INODES, HALF), [bytes_of(line) for line in lines])
    made = ['image %d %d %d' % (BLOCKS, INODES, HALF), 'run'] + shown_run(lines, replies)
    numbers.weights, numbers.standing_part = WEIGHTS, 0.6
    lines, replies, moments = some_run(numbers, system, FILL, LENGTH, reading)
    out = []
    for place, moment in list(enumerate(moments))[len(FILL):]:
        for writes, (keeps, kept_bytes, told) in moment.groups():
            cut = '%d..%d' % (writes[0], writes[-1]) if writes[1:] else '%d' % writes[0]
            words = 'cut=%s keep=%s bytes=%d' % (cut, ','.join(keeps), kept_bytes)
            out += ['', 'row random %d, %s' % (seed, words)] + made + ['run ' + words]
            out += shown_run(lines[:place + 1], replies[:place] + [b'cut']) + list(told)
    return out
