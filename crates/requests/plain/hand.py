"""A row that is written by hand."""

import os

import messages
from rows import Row

ROOT, SNAPSHOTS = 1, 2
WITHIN = 2 ** 63
START = (1900000000, 1)
FILE, FIFO = 0o100644, 0o010644
DATA, HOLE = 3, 4


def node(number, generation=1):
    """The node of a number; objects that were made since the mount have generation 1."""
    return (generation << 32) + number


def within(identity, number=3):
    """The node of what has a number in a snapshot."""
    return WITHIN + (identity << 32) + number


class Hand:
    """A row that is being written."""

    def __init__(self, file, title, sizes=(128, 32), owner=(0, 0), before=()):
        self.file, self.title, self.sizes, self.owner, self.before = file, title, sizes, owner, before
        self.sessions, self.now, self.unique = [[]], START, 0

    def row(self):
        return Row(self.title, self.sizes, self.owner, self.sessions, self.before)

    def put(self, message):
        """Asks by these bytes."""
        self.sessions[-1].append((self.now, message))

    def next(self):
        """The number of the next request."""
        self.unique += 2
        return self.unique

    def ask(self, kind, of, /, **fields):
        """Asks a request of a node."""
        self.put(messages.asked(kind, self.next(), of, **fields))

    def cut(self, kind, of, /, less=0, more=b'', length=0, **fields):
        """The same, less its last bytes, with more bytes behind, and with another length in its head."""
        message = messages.asked(kind, self.next(), of, **fields)
        message = (message[:-less] if less else message) + more
        self.put((len(message) + length).to_bytes(4, 'little') + message[4:])

    def go(self, seconds):
        """Time passes."""
        self.now = (self.now[0] + seconds, self.now[1] + 1)

    def again(self):
        """The folder is mounted anew."""
        self.sessions.append([])
        self.go(1000)

    # What comes often

    def make(self, name, of=ROOT, **fields):
        """A file is made and opened."""
        self.ask('CREATE', of, name=name, mode=FILE, flags=os.O_RDWR | os.O_CREAT | os.O_EXCL, **fields)

    def write(self, of, handle, data, offset=0):
        self.ask('WRITE', of, handle=handle, offset=offset, size=len(data), bytes=data)

    def look(self, of, *names):
        for name in names:
            self.ask('LOOKUP', of, name=name)
