"""Rows of requests that wait in the device together, of replies that go before what they tell is durable, and of power cuts."""

import os

from batching import Run, Session
from hand import ROOT, SNAPSHOTS, Hand, node, within
from messages import MODE, SIZE
from room import Room
from rows import Row
from server import Server

FILE = 'batches.requests'
# The first write of a batch of three directories with names of one letter: so many bytes, 19 each.
OF_THREE = 57
# Opens the epoch of a new image, and makes a file known.
FIRST = 5


class BatchRow(Row):
    """A row whose kernel can be asked, and whose lines stand as the messages pass."""

    def count(self):
        return sum(len(session.items) for session in self.sessions)

    def lines(self):
        yield from ['', 'row ' + self.title, 'image %d %d' % self.sizes, 'owner %d %d' % self.owner, 'questions']
        server = None
        for session in self.sessions:
            now = session.items[0][0]
            if server is None:
                server = Server(Room(*self.sizes), self.owner, now)
            else:
                server.mount(now)
                yield 'again'
            run = Run(server, session)
            server = run.pass_all()
            yield from run.told()


class Waiting(Hand):
    """A row that is being written."""

    def __init__(self, title, deferred=None, blocks=128):
        super().__init__(FILE, title, (blocks, 32))
        self.sessions, self.how = [Session(deferred)], 'next'

    def row(self):
        return BatchRow(self.title, self.sizes, self.owner, self.sessions)

    def put(self, message):
        self.sessions[-1].items.append((self.now, message, self.how))
        self.how = 'next'

    def also(self):
        """The next request waits in the device with the one before."""
        self.how = 'also'
        return self

    def late(self):
        """The next request waits behind what the kernel is asked for then."""
        self.how = 'late'
        return self

    def again(self, deferred=None, cut=None):
        self.sessions.append(Session(deferred, cut))
        self.go(1000)

    def directory(self, name, of=ROOT):
        self.ask('MKDIR', of, name=name, mode=0o755)

    def three(self):
        """Three directories wait together."""
        self.directory(b'a')
        self.also().directory(b'b')
        self.also().directory(b'c')

    def look_for_three(self):
        self.look(ROOT, b'a', b'b', b'c')


def three_together():
    row = Waiting('three directories that wait together have one commit')
    row.make(b'f')
    row.three()
    row.look_for_three()
    row.again()
    row.look_for_three()
    row.ask('GETATTR', ROOT)
    return row


def one_by_one():
    row = Waiting('the same one by one: each has its own')
    row.make(b'f')
    for name in (b'a', b'b', b'c'):
        row.directory(name)
    row.again()
    row.look_for_three()
    row.ask('GETATTR', ROOT)
    return row


def cut_within_three():
    row = Waiting('three together, cut within their commit: all of them are there behind its last byte, and none before')
    row.make(b'f')
    for cut in (1, 0), (1, 19), (1, OF_THREE - 1), (1, OF_THREE), (2, 0), (2, 1):
        row.again(cut=cut)
        row.look_for_three()
        row.look(ROOT, b'f')
        row.three()
        row.look_for_three()
    row.again()
    row.look_for_three()
    row.ask('READDIR', ROOT, size=4096)
    return row


def cut_one_by_one():
    row = Waiting('one by one, cut within the second one: the first one is there')
    row.make(b'f')
    for write, count in ((3, 0), (4, 0), (2, 1)):
        row.again(cut=(write, count))
        row.look_for_three()
        row.look(ROOT, b'f')
        row.directory(b'a' if write > 2 else b'd')
        row.directory(b'b')
        row.directory(b'c')
        row.ask('RMDIR', ROOT, name=b'a')
    row.again()
    row.look_for_three()
    row.look(ROOT, b'd')
    return row


def cut_at_the_opening():
    row = Waiting('three together open an epoch, cut within each write')
    row.make(b'f')
    row.ask('STATFS', ROOT)
    for cut in ((1, 0), (1, 1), (2, 4), (3, 0)):
        row.again(cut=cut)
        row.look(ROOT, b'a', b'b', b'c', b'f')
        row.three()
    # Behind the third write the epoch is open: a commit is two writes then.
    for cut in ((4, OF_THREE), (1, 0), (2, 1)):
        row.again(cut=cut)
        row.look(ROOT, b'a', b'b', b'c', b'f')
        row.three()
    row.again()
    row.look_for_three()
    return row


def opened_by_a_cut():
    row = Waiting('the epoch is open behind the byte that opens it')
    row.make(b'f')
    row.ask('STATFS', ROOT)
    for cut in ((3, 1), (2, 0), (2, 1)):
        row.again(cut=cut)
        row.look(ROOT, b'a', b'b', b'c', b'f')
        row.three()
    row.again()
    row.look_for_three()
    return row


def of_many_kinds(row):
    """Requests of many kinds wait together, behind one that makes a directory: some are refused, some only look, some have no reply."""
    row.directory(b'a')
    row.also().directory(b'a')
    row.also().look(ROOT, b'a')
    row.also().ask('GETATTR', ROOT)
    row.also().ask('FORGET', node(5), lookups=1)
    row.also().ask('READDIRPLUS', ROOT, size=1024)
    row.also().ask('RMDIR', ROOT, name=b'missing')
    row.also().ask('INTERRUPT', 0, unique=6)
    row.also().cut('GETATTR', ROOT, less=1)
    row.also().ask('OPENDIR', ROOT)
    row.also().directory(b'inner', of=node(5))
    row.also().ask('SYMLINK', ROOT, name=b'l', target=b'a/inner')
    row.also().ask('RENAME', ROOT, new_parent=node(5), name=b'l', new_name=b'm')
    row.also().ask('SETATTR', node(4), valid=MODE | SIZE, mode=0o600, size=9)
    row.also().write(node(4), 0, b'more', offset=5)
    row.also().ask('READ', node(4), handle=0, size=20)
    row.also().ask('FSYNC', node(4), handle=0)
    row.also().ask('READLINK', node(7))
    row.also().ask('RMDIR', ROOT, name=b'a')


def many_kinds():
    row = Waiting('requests of many kinds wait together, and are answered as alone', blocks=256)
    row.make(b'f')
    of_many_kinds(row)
    row.look(ROOT, b'a', b'l', b'f')
    row.look(node(5), b'inner', b'm')
    row.again()
    row.look(ROOT, b'a', b'l', b'f')
    row.ask('READDIRPLUS', node(5, 0), size=1024)
    return row


def many_kinds_lost():
    row = Waiting('where their commit is lost each is answered EIO, and what comes behind too', blocks=256)
    row.make(b'f')
    row.write(node(4), 0, b'bytes')
    for cut in ((3, 0), (3, 50), (4, 0), (4, 1)):
        row.again(cut=cut)
        row.look(ROOT, b'a', b'l', b'f')
        row.ask('OPEN', node(4, 0), flags=os.O_RDWR)
        row.ask('SETATTR', node(4, 0), valid=MODE, mode=0o640)
        row.directory(b'a')
        row.also().directory(b'a')
        row.also().look(ROOT, b'a')
        row.also().ask('GETATTR', ROOT)
        row.also().ask('FORGET', node(5), lookups=1)
        row.also().ask('INTERRUPT', 0, unique=6)
        row.also().cut('GETATTR', ROOT, less=1)
        row.also().write(node(4, 0), 0, b'other bytes')
        row.also().ask('READ', node(4, 0), handle=0, size=20)
        row.also().ask('OPENDIR', ROOT)
        row.look(ROOT, b'f')
        row.directory(b'z')
        row.also().ask('STATFS', ROOT)
        row.also().ask('FORGET', node(4, 0), lookups=1)
        row.ask('READ', node(4, 0), handle=0, size=20)
        row.directory(b's', of=SNAPSHOTS)
    row.again()
    row.look(ROOT, b'a', b'z', b'f')
    row.ask('OPEN', node(4, 0), flags=os.O_RDONLY)
    row.ask('READ', node(4, 0), handle=0, size=20)
    row.look(SNAPSHOTS, b's')
    return row


def snapshot_in_the_midst():
    row = Waiting('a snapshot is taken behind a commit of what waits before it, which ends the batch')
    row.make(b'f')
    row.directory(b'a')
    row.also().write(node(4), 0, b'bytes')
    row.also().directory(b's', of=SNAPSHOTS)
    row.also().directory(b'b')
    row.also().write(node(4), 0, b'other')
    row.look(within(0), b'a', b'b', b'f')
    row.ask('READ', within(0, 4), size=20)
    row.directory(b's', of=SNAPSHOTS)
    row.directory(b'c')
    row.also().ask('RMDIR', SNAPSHOTS, name=b's')
    row.again()
    row.look_for_three()
    row.look(SNAPSHOTS, b's')
    return row


def space_in_the_midst():
    row = Waiting('the room of the disk is told behind a consistency point, which ends the batch')
    row.make(b'f')
    row.directory(b'a')
    row.also().directory(b'b')
    row.also().ask('STATFS', ROOT)
    row.also().directory(b'c')
    row.also().directory(b'd')
    row.again()
    row.look(ROOT, b'a', b'b', b'c', b'd')
    return row


def no_room_to_wait():
    row = Waiting('what a consistency point has to come before, for room, is done behind a commit, which ends the batch', blocks=96)
    row.make(b'f')
    row.directory(b'a')
    for name in (b'b', b'c', b'd', b'e', b'g', b'h', b'i', b'j'):
        row.also().directory(name)
    row.ask('READDIR', ROOT, size=4096)
    row.again()
    row.ask('READDIR', ROOT, size=4096)
    return row


def no_file_is_known():
    row = Waiting('where the kernel knows no file it is not asked', blocks=320)
    row.three()
    row.make(b'f')
    row.also().directory(b'd')
    row.also().directory(b'e')
    row.again()
    row.look(ROOT, b'a', b'b', b'c', b'd', b'e')
    row.directory(b'g')
    row.also().directory(b'h')
    row.look(ROOT, b'f')
    row.directory(b'i')
    row.also().directory(b'j')
    return row


def file_is_forgotten():
    row = Waiting('where the kernel refuses the question a batch is one request', blocks=256)
    row.make(b'f')
    row.ask('RELEASE', node(4), handle=0)
    row.ask('FORGET', node(4), lookups=1)
    row.three()
    row.look(ROOT, b'f')
    row.directory(b'd')
    row.also().directory(b'e')
    row.again()
    row.look(ROOT, b'a', b'b', b'c', b'd', b'e')
    return row


def behind_the_question():
    row = Waiting('what comes behind the question is the next batch', blocks=256)
    row.make(b'f')
    row.directory(b'a')
    row.also().directory(b'b')
    row.late().directory(b'c')
    row.late().look(ROOT, b'b')
    row.late().directory(b'd')
    row.again()
    row.look(ROOT, b'a', b'b', b'c', b'd')
    return row


def parts_of_a_write():
    row = Waiting('the parts of a write are one commit')
    row.make(b'f')
    for cut in ((1, 0), (1, 70000), (2, 0), (2, 1)):
        row.again(cut=cut)
        row.look(ROOT, b'f')
        row.ask('OPEN', node(4, 0), flags=os.O_RDWR)
        row.write(node(4, 0), 0, b'x' * 100000)
        row.ask('READ', node(4, 0), handle=0, size=131072)
    row.again()
    row.look(ROOT, b'f')
    row.ask('OPEN', node(4, 0), flags=os.O_RDONLY)
    row.ask('READ', node(4, 0), handle=0, offset=65530, size=20)
    return row


def nothing_is_durable_yet():
    row = Waiting('deferred, replies go before anything is written, and a cut loses what they told')
    row.sessions[-1].deferred, row.sessions[-1].cut = (5000, 1000), (1, 0)
    row.make(b'f')
    row.directory(b'a')
    row.also().directory(b'b')
    row.also().directory(b'a')
    row.write(node(4), 0, b'bytes')
    row.look(ROOT, b'a', b'b')
    row.again()
    row.look(ROOT, b'f', b'a', b'b')
    return row


def end_is_durable():
    row = Waiting('deferred, all is durable in the end', (5000, 1000))
    row.make(b'f')
    row.three()
    row.again()
    row.look_for_three()
    return row


def durable_when_asked(kind):
    def written():
        row = Waiting('deferred, what was answered before %s is kept, and no more' % kind, blocks=256)
        before = FIRST + 2
        row.sessions[-1].deferred, row.sessions[-1].cut = (5000, 1000), (before + 2, 0)
        of = ROOT if kind == 'FSYNCDIR' else node(4)
        row.make(b'f')
        row.directory(b'a')
        row.ask(kind, of)
        row.ask(kind, of)
        row.directory(b'b')
        row.directory(b'c')
        row.ask(kind, of)
        row.directory(b'd')
        row.directory(b'e')
        row.again()
        row.look(ROOT, b'f', b'a', b'b', b'c', b'd', b'e')
        return row
    return written


def cut_when_asked():
    row = Waiting('deferred, FSYNC is answered EIO where the commit that it asks for is cut, and what comes behind too')
    for write, count in ((1, 0), (2, 5), (3, 0), (4, 19), (5, 0)):
        row.sessions[-1].deferred = (5000, 1000)
        # Behind write 3 the epoch is open.
        row.sessions[-1].cut = (write, count)
        row.directory(b'a')
        row.directory(b'b')
        row.ask('FSYNCDIR', ROOT)
        row.directory(b'c')
        row.look(ROOT, b'a')
        row.ask('FSYNC', node(4))
        row.again()
        if write == 4:
            break
    row.sessions[-1].deferred, row.sessions[-1].cut = (5000, 1000), (2, 1)
    row.look(ROOT, b'a', b'b')
    row.directory(b'a')
    row.directory(b'b')
    row.ask('FSYNCDIR', ROOT)
    row.ask('FSYNCDIR', ROOT)
    row.again()
    row.look_for_three()
    return row


def durable_by_statfs():
    row = Waiting('deferred, STATFS makes all durable that was answered before it')
    row.sessions[-1].deferred = (5000, 1000)
    row.directory(b'a')
    row.directory(b'b')
    row.ask('STATFS', ROOT)
    row.ask('STATFS', ROOT)
    row.again((5000, 1000), (1, 0))
    row.look(ROOT, b'a', b'b')
    row.ask('STATFS', ROOT)
    row.directory(b'c')
    row.again()
    row.look_for_three()
    return row


def durable_by_a_snapshot():
    row = Waiting('deferred, a snapshot is taken behind a commit', (5000, 1000))
    row.make(b'f')
    row.directory(b'a')
    row.directory(b's', of=SNAPSHOTS)
    row.look(within(0), b'a', b'b')
    row.again((5000, 1000), (1, 0))
    row.look(ROOT, b'a')
    row.directory(b'b')
    row.again()
    row.look_for_three()
    row.look(SNAPSHOTS, b's')
    return row


def bound_of_bytes():
    row = Waiting('deferred, a commit comes before the reply with which more bytes wait than may', blocks=256)
    row.sessions[-1].deferred, row.sessions[-1].cut = (5000, OF_THREE), (FIRST + 1, 0)
    for name in (b'a', b'b', b'c', b'd', b'e', b'f', b'g'):
        row.directory(name)
    row.again()
    row.look(ROOT, b'a', b'b', b'c', b'd', b'e')
    row.ask('GETATTR', ROOT)
    # One byte less than three records.
    row.again((5000, OF_THREE - 1), (3, 0))
    row.three()
    row.ask('RMDIR', ROOT, name=b'd')
    for name in (b'e', b'f', b'g', b'h'):
        row.directory(name)
    row.again()
    row.look(ROOT, b'd', b'e', b'f')
    return row


def bound_of_time():
    row = Waiting('deferred, a commit comes before the first reply behind so many milliseconds', blocks=256)
    row.sessions[-1].deferred, row.sessions[-1].cut = (2000, 1000), (FIRST + 1, 0)
    row.directory(b'a')
    row.now = (row.now[0] + 1, row.now[1])
    row.directory(b'b')
    row.now = (row.now[0] + 1, row.now[1])
    row.look(ROOT, b'a')
    row.directory(b'c')
    row.now = (row.now[0] + 1, row.now[1])
    row.look(ROOT, b'c')
    row.again()
    row.look_for_three()
    row.ask('GETATTR', ROOT)
    # Half a millisecond counts for nothing, and a clock that goes back makes all durable.
    row.again((1, 1000), (2 + 1, 0))
    row.now = (row.now[0], 1500000)
    row.directory(b'c')
    row.now = (row.now[0], 1999999)
    row.directory(b'd')
    row.now = (row.now[0], 999999)
    row.look(ROOT, b'd')
    row.directory(b'e')
    row.again()
    row.look(ROOT, b'c', b'd', b'e')
    return row


WRITTEN = [three_together, one_by_one, cut_within_three, cut_one_by_one, cut_at_the_opening, opened_by_a_cut, many_kinds, many_kinds_lost,
           snapshot_in_the_midst, space_in_the_midst, no_room_to_wait, no_file_is_known, file_is_forgotten, behind_the_question,
           parts_of_a_write, nothing_is_durable_yet, end_is_durable, durable_when_asked('FSYNC'), durable_when_asked('FLUSH'),
           durable_when_asked('FSYNCDIR'), cut_when_asked, durable_by_statfs, durable_by_a_snapshot, bound_of_bytes, bound_of_time]


def rows_of_batches():
    """The rows of the file."""
    return [write().row() for write in WRITTEN]
