"""What writes a story while the plain model in crates/rows/plain does it."""

import re
import sys
from pathlib import Path

sys.path.insert(0, str(Path(__file__).resolve().parent.parent.parent / 'rows' / 'plain'))
sys.dont_write_bytecode = True

from model import System  # noqa: E402
from scripts import step  # noqa: E402
from session_rows import bytes_of, shown  # noqa: E402

HALF = 131072
KEEPS = 'none,all,10,2,021'
TAIL = ['mkdir /z', 'sync', 'snap take z']

FORM = '''\
# How a story is written. A line that is empty or begins with `#` says nothing.
#
#   image BLOCKS INODES HALF        a new image of these sizes
#   disk AT DIGITS, nvram AT DIGITS    bytes of it, two hexadecimal digits each: where there are such lines no image is made, and these
#                                   stand over zeros
#   before COMMAND -> REPLY         what is run on it before anything is tried
#   command COMMAND -> REPLY        the story's commands; they run on what that left. Each is spelled as it is written again
#   tail COMMAND -> REPLY           commands that run on what a cut left, and are cut in their turn
#   probe COMMAND -> REPLY          a reading command, and its reply on the image before the first command
#   start                           lines about what is shown before the first command follow
#   again N                         of all second cuts, which come within each write of the tail behind each cut, each N-th is tried only
#   failing                         each device call fails in turn
#   quiet N                         those behind the first N commands make no device call
#   sweep disk A..B, sweep nvram A..B    each byte from A to B becomes 00 and ff in turn: a mount, the commands and a check come to an end
#
# Two spaces before them, lines about the command above:
#
#   COMMAND -> REPLY                a reading command now has another reply than behind the command before
#   + COMMAND -> REPLY              it has this reply where the tail's first command comes next; ++ where two come, +++ for three
#   cut A..B KEEP,KEEP C..D         these device writes are the command's, and the power is to be cut within each: once for each KEEP, which
#                                   says what of the sectors written since the last sync stays (`none`, `all`, or by digits: 1 stays, 0 doesn't,
#                                   2 can't be read then), and once for each number of bytes that stay of a write to the NVRAM
#   without N COMMAND -> REPLY      what command N is answered in a run without this one
#
# Behind a cut within a command the replies are those of the commands before, and a mount then shows what the reading commands show
# behind these, or behind one command more. Where a read fails one command answers `err EIO`, and all others as in a run without it;
# where a write or a sync fails it does, and then all answer `err FAILED`, and a mount shows the state with or without it.
# In texts {HH} is a byte, {HH*N} so many of it, and {A..B HH*N} the numbers from A to B, each in three digits with so many of the byte
# behind it.
'''


def long_name(number):
    """A name of 255 bytes, as the program takes it and as a story writes it."""
    return '%03d{6e*252}' % number


def told(reply):
    """A reply as a story has it."""
    text = shown(reply)
    return re.sub(r'\b\d{3}\{6e\*252\}(?: \d{3}\{6e\*252\})+', shorter, text)


def shorter(found):
    """Long names one behind the other, by the first and the last of them."""
    numbers = [int(name[:3]) for name in found.group().split()]
    assert numbers == list(range(numbers[0], numbers[-1] + 1))
    return '{%03d..%03d 6e*252}' % (numbers[0], numbers[-1])


class Teller:
    """Writes a story while the model does it."""

    def __init__(self, head, blocks, inodes, system=None):
        self.system = system or System(blocks, inodes, HALF)
        self.lines = ['# ' + line for line in head] + FORM.splitlines() + ['', 'image %d %d %d' % (blocks, inodes, HALF)]
        self.probes, self.replies, self.writes = [], {}, 0
        self.again, self.firsts, self.places = 1, 0, 0

    def before(self, lines):
        """What is run before, and then what a mount makes of it."""
        for line in lines:
            reply = step(self.system, bytes_of(line))
            self.lines.append('before %s -> %s' % (line, told(reply)))
        self.system.give_up()
        self.system.mount()

    def probe(self, probes):
        """The reading commands."""
        self.probes = probes
        self.replies = self.shown(self.system)
        self.lines += ['probe %s -> %s' % pair for pair in self.replies.items()]

    def tail(self):
        """The commands that are cut a second time."""
        system = self.left(self.system)
        for line in TAIL:
            self.lines.append('tail %s -> %s' % (line, told(step(system, bytes_of(line)))))

    def second_cuts(self, again):
        """Of all second cuts, each so-manieth is tried only."""
        self.again = again
        self.lines.append('again %d' % again)

    def left(self, system):
        """What a mount makes of what stands behind a command."""
        left = system.copy()
        left.give_up()
        left.mount()
        return left

    def shown(self, system):
        """What a mount then shows."""
        left = self.left(system)
        return {probe: told(step(left, bytes_of(probe))) for probe in self.probes}

    def differences(self, mark, before, behind):
        """Lines of what is shown otherwise."""
        self.lines += ['  %s%s -> %s' % (mark, probe, behind[probe]) for probe in self.probes if behind[probe] != before[probe]]

    def show_state(self):
        """What is shown behind the last command, and behind those of the tail."""
        replies = self.shown(self.system)
        self.differences('', self.replies, replies)
        self.replies = replies
        system = self.left(self.system)
        for count, line in enumerate(TAIL):
            assert step(system, bytes_of(line)) == b'ok'
            behind = self.shown(system)
            self.differences('+' * (count + 1) + ' ', replies, behind)
            replies = behind

    def do(self, line, keeps=None, of_long=(0, 3), keep='none'):
        """A command: its reply. `keeps` are those of cuts within its writes to the NVRAM; of a long one so many bytes stay with `keep`, too."""
        before = self.system.copy()
        reply = told(step(self.system, bytes_of(line)))
        self.lines.append('command %s -> %s' % (line, reply))
        if keeps is not None:
            self.cut(before, nvram_writes(self.system), self.system.writes, keeps, of_long, keep)
        self.writes += self.system.writes
        return reply

    def cut(self, before, nvram, count, keeps, of_long, keep):
        """The cuts within so many writes, of which these go to the NVRAM."""
        first = None
        for write in range(1, count + 2):
            is_of_disk = write <= count and write not in nvram
            if is_of_disk and first is None:
                first = write
            if not is_of_disk and first is not None:
                self.add_cut(before, (first, write - 1), KEEPS, (0, 0))
                first = None
            if write in nvram:
                length = nvram[write]
                if length < 100:
                    self.add_cut(before, (write, write), 'none', (0, length))
                else:
                    self.add_cut(before, (write, write), keep, (of_long[0], min(of_long[1], length)))
                if keeps:
                    self.add_cut(before, (write, write), keeps, (0, 0))
                    self.add_cut(before, (write, write), keeps, (length, length))

    def add_cut(self, before, writes, keeps, kept):
        """Cuts, by numbers of writes since the mount; and counts them, and those behind them."""
        numbers = ranged(writes[0] + self.writes, writes[1] + self.writes), ranged(*kept)
        self.lines.append('  cut %s %s %s' % (numbers[0], keeps, numbers[1]))
        for write in range(writes[0], writes[1] + 1):
            for keep in keeps.split(','):
                behind = [writes_of_tail(self.system.cut(write, before, keep, some)) for some in (0, 1)]
                for kept_bytes in range(kept[0], kept[1] + 1):
                    self.firsts += 1
                    self.places += behind[min(kept_bytes, 1)]

    def seconds(self):
        """How many second cuts are tried."""
        return self.places // self.again


def writes_of_tail(left):
    """How many writes the tail makes on what a cut left."""
    system, writes = left.copy(), 0
    system.mount()
    for line in TAIL:
        assert step(system, bytes_of(line)) == b'ok'
        writes += system.writes
    return writes


def ranged(first, last):
    return '%d' % first if first == last else '%d..%d' % (first, last)


def nvram_writes(system):
    """How many bytes each write of the last command has that goes to the NVRAM, by the write's number."""
    lengths = {}
    for found in system.steps:
        if found.kind == 'open':
            lengths.update({found.write - 2: 1, found.write - 1: 9, found.write: 1})
    if system.record is not None:
        lengths.update({system.record.write - 1: system.log_end - system.record.before.log_end, system.record.write: 1})
    return lengths
