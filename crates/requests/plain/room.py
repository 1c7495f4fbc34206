"""How much room there is: counted by the plain model of the commands in crates/rows/plain, which knows blocks, the log and its points.

What the tree of this model does is done there too. It alone says ENOSPC; where it refuses something else, or gives another number, the
two models differ, which ends the comparison.
"""

import errno
import sys
from pathlib import Path

from tree import BLOCK, INLINE, Thing, Tree, refuse

sys.path.append(str(Path(__file__).resolve().parents[2] / 'rows' / 'plain'))

from calls import word_of  # noqa: E402
from model import System  # noqa: E402
from scripts import step  # noqa: E402

HALF = 131072
DESCRIPTORS = 65536
# Commands that don't wait for a commit, as none does that a consistency point comes before.
ALONE = ('sync', 'statfs', 'snap')


class Done:
    """A command that was done: whether it is durable by itself, its device writes where it isn't done together with others, and
    the bytes of its record, 0 for none."""

    def __init__(self, is_alone, writes, record):
        self.is_alone, self.writes, self.record = is_alone, writes, record


class Room:
    """The commands that were done over an image; with `before`, those that are done before the first server. `done` has those that nobody
    asked for yet."""

    def __init__(self, blocks, inodes, before=()):
        self.system, self.done = System(blocks, inodes, HALF), []
        if before:
            self.mount()
        for line in before:
            self.do(*line.split(' '))

    def mount(self):
        """The server ends, and the image is mounted anew."""
        self.system.give_up()
        self.system = self.system.copy()
        self.system.mount()
        self.system.descriptors = [None] * DESCRIPTORS

    def do(self, command, *words):
        """Does a command: its reply."""
        line = b' '.join([command.encode()] + [word if isinstance(word, bytes) else str(word).encode() for word in words])
        log_end, generation = self.system.log_end, self.system.generation
        reply = step(self.system, line)
        is_alone = command in ALONE or self.system.generation != generation
        record = self.system.log_end - log_end if self.system.record is not None else 0
        self.done.append(Done(is_alone, self.system.writes, record))
        if reply == b'err ENOSPC':
            refuse(errno.ENOSPC)
        assert not reply.startswith(b'err '), (line, reply)
        return reply

    def take_done(self):
        """What was done since this was asked for last."""
        done, self.done = self.done, []
        return done

    def tree(self, first):
        """The tree as commands left it."""
        tree = Tree(self.system.inode_count, first)
        assert not self.system.snapshots
        for number, thing in self.system.volume.items():
            found = Thing(thing.kind, number, 0, thing.mode, first, thing.text if thing.kind == 'link' else b'')
            if thing.kind == 'dir':
                found.names = dict(thing.names)
            if thing.kind == 'file':
                kept = thing.stored if thing.size > INLINE else thing.data
                found.size, found.links = thing.size, self.system.links(number)
                found.blocks = {index: bytearray(thing.data.get(index, bytes(BLOCK))) for index in kept}
                found.keep_inline()
            tree.things[number] = found
        return tree

    def usage(self):
        """Blocks, free ones, those of them that no data may have, and numbers and those in use."""
        self.do('sync')
        words = self.do('statfs').split()
        return [int(word) for word in words[2::2]]


def path(directory, name):
    """The path of a name in a directory."""
    return b'@%d/%s' % (directory.number, word_of(name))
