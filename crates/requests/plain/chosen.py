"""Requests chosen by a generator of numbers, as the model's tree stands: most of them can be done."""

import os
import random

import messages
from hand import FIFO, FILE, ROOT, SNAPSHOTS, START, node, within
from messages import ATIME, ATIME_NOW, GID, MODE, MTIME, MTIME_NOW, SIZE, UID
from nodes import number_of
from room import Room
from rows import Row
from server import Server
from tree import Refusal, cookie_of

NAMES = [b'a', b'b', b'c', b'dd', b'e' * 40, b'f' * 255]
TARGETS = [b'a', b'../b', b't' * 200, b't' * 1023, b't' * 1024]
SIZES = [0, 1, 100, 128, 129, 4095, 4096, 5000, 70000, 200000, 2 ** 36, 2 ** 36 + 1]
LENGTHS = [1, 5, 100, 129, 4096, 5000, 66000]
SNAPSHOT_NAMES = [b's', b't', b'u']
KINDS = {'LOOKUP': 6, 'GETATTR': 6, 'SETATTR': 8, 'READLINK': 2, 'SYMLINK': 3, 'MKNOD': 3, 'MKDIR': 6, 'UNLINK': 5, 'RMDIR': 3, 'RENAME': 6,
         'RENAME2': 3, 'LINK': 4, 'OPEN': 5, 'CREATE': 6, 'READ': 6, 'WRITE': 10, 'STATFS': 1, 'RELEASE': 4, 'READDIR': 3, 'READDIRPLUS': 3,
         'LSEEK': 4, 'FORGET': 3}


class Chooser:
    """A row under way. Where it has no removals, no file or link loses its last name."""

    def __init__(self, seed, has_removals, sizes):
        self.numbers, self.has_removals, self.sizes = random.Random(seed), has_removals, sizes
        self.owner, self.now, self.unique = (3, 4), START, 0
        self.server = Server(Room(*sizes), self.owner, self.now)
        self.sessions, self.seen = [[]], [ROOT, SNAPSHOTS]

    def row(self, title, length):
        """A row of so many requests."""
        while sum(len(session) for session in self.sessions) < length:
            if self.sessions[-1] and self.numbers.random() < 0.02:
                self.begin_again()
            self.step()
        return Row(title, self.sizes, self.owner, self.sessions)

    def begin_again(self):
        self.sessions.append([])
        self.now = (self.now[0] + 1000, self.now[1])
        self.server.mount(self.now)
        self.seen = [ROOT, SNAPSHOTS] + [self.server.node_of(thing) for thing in self.server.tree.things.values()]

    def step(self):
        """Asks one more request, if the one that is chosen may be asked."""
        kind = self.numbers.choices(list(KINDS), list(KINDS.values()))[0]
        fields = self.fields_of(kind)
        if fields is None or not self.may_ask(kind, fields):
            return
        if self.numbers.random() < 0.3:
            self.now = (self.now[0] + 1, self.now[1])
        self.unique += 2
        user, group = self.numbers.choice([0, 3, 9]), self.numbers.choice([0, 4])
        message = messages.asked(kind, self.unique, fields.pop('of'), user=user, group=group, **fields)
        self.server.answer(message, self.now)
        self.sessions[-1].append((self.now, message))
        tree = self.server.tree
        self.seen += [found for found in map(self.server.node_of, tree.things.values()) if found not in self.seen]

    # What is chosen

    def a_node(self, kind=None):
        """The node of an object of some kind, or another one."""
        things = [thing for thing in self.server.tree.things.values() if thing.links > 0 and kind in (None, thing.kind)]
        chance = self.numbers.random()
        if chance < 0.85 and things:
            return self.server.node_of(self.numbers.choice(things))
        if chance < 0.92:
            return self.numbers.choice(self.seen)
        if chance < 0.98 and self.server.snapshots:
            kept = self.numbers.choice(self.server.snapshots)
            return within(kept.identity, self.numbers.choice(list(kept.tree.things) + [9]))
        return node(self.numbers.randrange(3, 40), self.numbers.randrange(3))

    def a_name(self, of=None):
        """A name, and rather one that the directory of a node has."""
        thing = self.server.tree.things.get(number_of(of)) if of is not None else None
        if thing is not None and thing.names and self.numbers.random() < 0.8:
            return self.numbers.choice(sorted(thing.names))
        return self.numbers.choice(SNAPSHOT_NAMES if of == SNAPSHOTS else NAMES)

    def an_open_file(self):
        """A node and a handle by which it is open; None where nothing is open."""
        if not self.server.open:
            return None
        handle = self.numbers.choice(sorted(self.server.open))
        return self.server.node_of(self.server.open[handle]), handle

    def fields_of(self, kind):
        """The fields of a request, and its node."""
        pick = self.numbers.choice
        if kind in ('LOOKUP', 'UNLINK', 'RMDIR'):
            of = SNAPSHOTS if kind != 'UNLINK' and self.numbers.random() < 0.15 else self.a_node('dir')
            return {'of': of, 'name': self.a_name(of)}
        if kind in ('GETATTR', 'FORGET'):
            return {'of': self.numbers.choice(self.seen) if self.numbers.random() < 0.4 else self.a_node()}
        if kind == 'READLINK':
            return {'of': self.a_node('link')}
        if kind == 'SYMLINK':
            return {'of': self.a_node('dir'), 'name': self.a_name(), 'target': pick(TARGETS)}
        if kind in ('MKNOD', 'MKDIR'):
            of = SNAPSHOTS if kind == 'MKDIR' and self.numbers.random() < 0.15 else self.a_node('dir')
            mode = pick([FILE, 0o100600, FIFO]) if kind == 'MKNOD' else pick([0o755, 0o700, 0o2775])
            return {'of': of, 'name': pick(SNAPSHOT_NAMES) if of == SNAPSHOTS else self.a_name(), 'mode': mode}
        if kind in ('RENAME', 'RENAME2'):
            of, to = self.a_node('dir'), self.a_node('dir')
            flags = {'flags': pick([0, 1, 2])} if kind == 'RENAME2' else {}
            names = {'name': self.a_name(of), 'new_name': pick([self.a_name(), self.a_name(to)])}
            return {'of': of, 'new_parent': to, **names, **flags}
        if kind == 'LINK':
            return {'of': self.a_node('dir'), 'file': self.a_node('file'), 'name': self.a_name()}
        if kind in ('OPEN', 'LSEEK'):
            of = pick(self.seen) if self.numbers.random() < 0.2 else self.a_node('file')
            rest = {'flags': pick([0, 2])} if kind == 'OPEN' else {'offset': pick(SIZES), 'whence': pick([3, 4, 4, 0])}
            return {'of': of, **rest}
        if kind == 'CREATE':
            flags = os.O_CREAT | pick([0, os.O_EXCL])
            return {'of': self.a_node('dir'), 'name': self.a_name(), 'mode': pick([FILE, 0o100600]), 'flags': flags}
        if kind in ('READDIR', 'READDIRPLUS'):
            of = SNAPSHOTS if self.numbers.random() < 0.1 else self.a_node('dir')
            behind = pick([0, 0, 0, 1, 2, 3, cookie_of(self.a_name(of))])
            return {'of': of, 'offset': behind, 'size': pick([32, 100, 200, 500, 4096])}
        return {'SETATTR': self.settings, 'READ': self.reading, 'WRITE': self.writing, 'RELEASE': self.releasing,
                'STATFS': lambda: {'of': ROOT}}[kind]()

    def settings(self):
        of = self.numbers.choice(self.seen) if self.numbers.random() < 0.2 else self.a_node(self.numbers.choice([None, 'file', 'file']))
        valid = sum(bit for bit in (MODE, UID, GID, SIZE, ATIME, MTIME, ATIME_NOW, MTIME_NOW) if self.numbers.random() < 0.25)
        pick = self.numbers.choice
        return {'of': of, 'valid': valid, 'mode': pick([0o644, 0o2755, 0o100600]), 'uid': pick([3, 5]), 'gid': pick([4, 6]),
                'size': pick(SIZES), 'atime': 7, 'atime_ns': 8, 'mtime': 9, 'mtime_ns': 10}

    def reading(self):
        found = self.an_open_file()
        if found is None or self.numbers.random() < 0.1:
            return {'of': self.a_node(), 'handle': self.numbers.randrange(5), 'offset': self.numbers.choice(SIZES), 'size': 4096}
        size = self.numbers.choice(LENGTHS + [2 ** 17])
        return {'of': found[0], 'handle': found[1], 'offset': self.numbers.choice(SIZES + [4090]), 'size': size}

    def writing(self):
        found = self.an_open_file()
        if found is None:
            return None
        data = bytes([self.numbers.randrange(1, 256)]) * self.numbers.choice(LENGTHS)
        return {'of': found[0], 'handle': found[1], 'offset': self.numbers.choice(SIZES), 'size': len(data), 'bytes': data}

    def releasing(self):
        found = self.an_open_file()
        return {'of': found[0], 'handle': found[1] if self.numbers.random() < 0.9 else 40} if found else None

    # What may be asked

    def may_ask(self, kind, fields):
        """No Linux kernel asks some requests, and some are asked only where names go."""
        server, tree = self.server, self.server.tree
        if kind == 'LSEEK':
            removed = server.removed.get(fields['of'])
            return removed is None or removed.thing.kind == 'file'
        name = fields.get('new_name', fields.get('name'))
        of = fields.get('new_parent', fields['of'])
        if kind not in ('CREATE', 'UNLINK', 'RENAME', 'RENAME2') or not server.is_current(of):
            return True
        over = self.named(tree, number_of(of), name)
        if kind == 'CREATE':
            return over is None or fields['flags'] & os.O_EXCL
        if kind != 'UNLINK' and over is not None and over is self.named(tree, number_of(fields['of']), fields['name']):
            return False
        return self.has_removals or over is None or over.kind == 'dir' or over.links > 1

    @staticmethod
    def named(tree, number, name):
        """What has a name; None where nothing has."""
        try:
            return tree.look(number, name)[2]
        except Refusal:
            return None
