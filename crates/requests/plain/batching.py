"""A server that makes what waits in the device durable together, or later; and the kernel beside it.

Together: each request is answered, its reply is kept, and where something waits to be durable the kernel is asked for a message behind the
requests that wait in the device, by a file that it knows. When that comes, one commit makes all durable, and the replies go. Without such a
file, or where the kernel refuses, a batch is one request. Deferred: replies go at once, and a commit comes before the reply where FSYNC,
FSYNCDIR, FLUSH or STATFS is asked, where more than so many bytes of the log wait, and where the first of them waits for so many
milliseconds, or the clock went back. What can't wait is done behind a commit. In the end all is made durable.

A commit is the writes of one record: what stands behind its gate, in one write, and then the gate, one byte. Three come before where the
epoch isn't open: its gate is closed, the epoch is written, and the gate is opened. Behind a device write that fails, no other is made. Then
a server that answers together answers EIO alone, and one that defers where the file system or the log is needed, of which there is no
other request in these rows.
"""

import copy
import errno

import messages
from collections import deque

# Requests that ask that what was done be durable.
DURABLE = ('FSYNC', 'FSYNCDIR', 'FLUSH')
# Replies by which a kernel learns to know a file.
ENTRIES = ('LOOKUP', 'MKNOD', 'LINK', 'CREATE')
OPENING = 3


class Session:
    """What comes to a server, each with its time and whether it waits in the device: not (`next`), with the one before (`also`), or behind
    what the kernel is asked for then (`late`). And when all is durable (milliseconds and bytes, None for together), and where the power
    is cut: the write, and how many of its bytes stay."""

    def __init__(self, deferred=None, cut=None):
        self.deferred, self.cut, self.items = deferred, cut, []


class Run:
    """A session, as it passes."""

    def __init__(self, server, session):
        self.server, self.deferred, self.cut = server, session.deferred, session.cut
        self.items = deque(session.items)
        self.device, self.late = deque(), deque()
        # The files that the kernel knows; the one by which it is asked; and whether it was.
        self.known, self.file, self.is_asked = set(), None, False
        # Replies that are kept, and the commands that wait, since when.
        self.kept, self.waiting, self.since = [], [], None
        self.writes, self.is_failed = 0, False
        self.durable = copy.deepcopy(server)
        self.time, self.lines = None, []

    def pass_all(self):
        """All passes, and in the end all is made durable: the server that the next mount finds."""
        while self.arrive():
            self.take(*self.device.popleft())
        assert not self.kept, 'the server waits for ever'
        self.commit()
        if self.is_failed:
            self.server = self.durable
        assert self.is_failed == (self.cut is not None), 'no such write'
        return self.server

    def told(self):
        """What is told of it, and then the lines of what passes."""
        words = ['deferred %d %d' % self.deferred] if self.deferred else []
        words += ['cut %d %d' % self.cut, 'lost'] if self.cut else []
        return words + ['writes %d' % self.writes] + self.lines

    # The kernel

    def arrive(self):
        """Whether a message waits in the device. Where none does, and none can come without a reply, the next ones come."""
        if not self.device and self.late:
            self.device, self.late = self.late, deque()
        elif not self.device and self.items:
            assert self.items[0][2] == 'next' and not self.kept
            self.come('next')
            while self.items and self.items[0][2] == 'also':
                self.come('also')
            while self.items and self.items[0][2] == 'late':
                self.late.append(self.items.popleft()[:2])
        return bool(self.device)

    def come(self, how):
        now, message, found = self.items.popleft()
        assert found == how
        self.device.append((now, message))

    def question(self, now):
        """The server asks the kernel, which takes that for a file that it knows."""
        is_taken = self.file in self.known
        text = messages.retrieval(self.file)
        self.lines += ['# the server asks for what comes behind, by node ' + messages.shown_node(self.file),
                       ('taken ' if is_taken else 'refused ') + messages.spelled(text)]
        if is_taken:
            self.device.append((now, messages.retrieved(self.file)))
            self.device.extend(self.late)
            self.late.clear()
        else:
            self.file = None
        return is_taken

    # The server

    def take(self, now, message):
        """A message is taken from the device."""
        if now != self.time:
            self.lines.append('at %d %d' % now)
        self.time = now
        self.lines += ['# ' + messages.told_of(message), 'ask ' + messages.spelled(message)]
        request = messages.read(message)
        name = None if request is None else request.name
        if name == 'FORGET':
            self.known.discard(request.node)
        self.is_asked &= name != 'NOTIFY_REPLY'
        self.kept.append((request, messages.unique_of(message), self.answer(name, message, now)))
        self.note_done()
        if self.deferred:
            self.settle(name, now)
        elif not self.waits(name, now):
            self.commit()
            self.send(self.is_failed)

    def answer(self, name, message, now):
        if self.is_failed and name is not None and name not in messages.SILENT:
            return messages.error(messages.unique_of(message), errno.EIO)
        if self.deferred and name in DURABLE:
            return messages.reply(messages.unique_of(message))
        return self.server.answer(message, now)

    def note_done(self):
        """What a request did waits, or is durable where it can't wait, behind what waits."""
        for done in self.server.room.take_done():
            if done.is_alone:
                self.commit()
                assert self.cut is None or not self.writes < self.cut[0] <= self.writes + done.writes
                self.writes += done.writes
                self.durable = copy.deepcopy(self.server)
            elif done.record:
                assert done.writes == 2 or not self.waiting
                self.waiting.append(done)

    def waits(self, name, now):
        """Whether replies wait for more messages."""
        if not self.waiting or name == 'NOTIFY_REPLY':
            return False
        if not self.is_asked:
            self.is_asked = self.file is not None and self.question(now)
        return self.is_asked

    def settle(self, name, now):
        """A deferred commit, where one is due, and the reply."""
        milliseconds, most = self.deferred
        self.since = (self.since or now) if self.waiting else None
        is_due = self.since is not None and (instant(now) < instant(self.since) or instant(self.since) + milliseconds <= instant(now))
        is_settled = name in DURABLE or name == 'STATFS'
        if is_settled or is_due or sum(done.record for done in self.waiting) > most:
            self.commit()
            self.send(self.is_failed)
        else:
            self.send(False)

    def commit(self):
        """All that waits becomes durable, or the power is cut: before the last write has its byte nothing of it is, and then all."""
        if self.is_failed:
            return
        if self.waiting:
            before, count = self.writes, self.waiting[0].writes
            self.waiting, self.since = [], None
            if self.cut and self.cut[0] <= before + count:
                self.lose(self.cut[0] - before, count)
                return
            self.writes += count
        self.durable = copy.deepcopy(self.server)

    def lose(self, write, count):
        """The power is cut within this write of so many."""
        self.writes += write
        self.is_failed = True
        bytes_kept = self.cut[1]
        if write == count and bytes_kept:
            self.durable = copy.deepcopy(self.server)
        elif write > OPENING or count > OPENING and write == OPENING and bytes_kept:
            self.durable.room.system.is_log_open = True

    def send(self, is_lost):
        """The kept replies go; where what they tell was lost, EIO does."""
        for request, unique, reply in self.kept:
            if not reply:
                continue
            reply = messages.error(unique, errno.EIO) if is_lost else reply
            if len(self.kept) > 1:
                self.lines.append('# the reply to %d' % unique)
            self.lines.append('told ' + messages.spelled(reply))
            self.learn(request, reply)
        self.kept = []

    def learn(self, request, reply):
        """The kernel knows the regular file that a reply tells of, and the server knows that."""
        is_entry = request is not None and request.name in ENTRIES and len(reply) >= 16 + 128
        if is_entry and int.from_bytes(reply[16 + 40 + 60:][:4], 'little') >> 12 == 0o10:
            self.file = int.from_bytes(reply[16:24], 'little')
            self.known.add(self.file)


def instant(time):
    """Milliseconds since 1970."""
    return time[0] * 1000 + time[1] // 1000000
