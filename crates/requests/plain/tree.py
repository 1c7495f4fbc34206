"""Objects by their numbers, with the owners and times that a server keeps, and what a name leads to."""

import collections
import errno
import hashlib

ROOT = 3
FIRST = 4
LONGEST_NAME, LONGEST_PATH = 255, 1023
BLOCK = 4096
INLINE = 128
KINDS = {'file': 0o100000, 'dir': 0o040000, 'link': 0o120000}
DIRECTORY_TYPES = {'file': 8, 'dir': 4, 'link': 10}


class Refusal(Exception):
    """A request fails with this error of Linux."""


def refuse(number):
    """Ends a request."""
    raise Refusal(number)


class Marks(collections.namedtuple('Marks', 'uid gid atime mtime ctime')):
    """Owner, group and times; a time is seconds and nanoseconds."""

    def written(self, now):
        """Its data changed."""
        return self._replace(mtime=now, ctime=now)

    def changed(self, now):
        """What is told of it changed."""
        return self._replace(ctime=now)


def made(uid, gid, now):
    """The marks of what is made."""
    return Marks(uid, gid, now, now, now)


class Thing:
    """A file, a directory or a symbolic link."""

    def __init__(self, kind, number, generation, mode, marks, target=b''):
        self.kind, self.number, self.generation, self.mode, self.marks = kind, number, generation, mode, marks
        self.links = 1
        # A file's bytes, by stored blocks.
        self.size, self.blocks = len(target), {}
        self.names, self.target = {}, target

    def stored_parts(self):
        """Stored bytes of what stands in the running tree, in parts of 512."""
        return 8 * len(self.blocks) if self.kind == 'file' else self.parts_of_size()

    def parts_of_size(self):
        """The room that its blocks would have, if all were stored."""
        return 8 * -(-self.size // BLOCK)

    def read(self, offset, count):
        """Bytes from an offset on, as far as there are."""
        out, end = bytearray(), min(offset + count, self.size)
        while offset < end:
            index, start = divmod(offset, BLOCK)
            part = bytes(self.blocks.get(index, bytes(BLOCK)))[start:start + end - offset]
            out += part
            offset += len(part)
        return bytes(out)

    def write(self, offset, data):
        """Puts bytes at an offset: the blocks that they touch are stored."""
        self.size = max(self.size, offset + len(data))
        for at, byte in enumerate(data, offset):
            self.blocks.setdefault(at // BLOCK, bytearray(BLOCK))[at % BLOCK] = byte
        self.keep_inline()

    def resize(self, size):
        """Cuts bytes off, or adds a hole."""
        for index in [index for index in self.blocks if index * BLOCK >= size]:
            del self.blocks[index]
        if size < self.size and size // BLOCK in self.blocks:
            self.blocks[size // BLOCK][size % BLOCK:] = bytes(BLOCK - size % BLOCK)
        self.size = size
        self.keep_inline()

    def keep_inline(self):
        """A few bytes stand in the inode: they count as a block, whatever they are."""
        if 0 < self.size <= INLINE:
            self.blocks.setdefault(0, bytearray(BLOCK))

    def place_of(self, offset, is_data):
        """The first place from an offset on that is stored, or that isn't; None where there is none."""
        while offset < self.size:
            if (offset // BLOCK in self.blocks) == is_data:
                return offset
            offset = (offset // BLOCK + 1) * BLOCK
        return None if is_data else self.size

    def listed(self):
        """Names with their cookies, in the order of these."""
        return sorted((cookie_of(name), name, number) for name, number in self.names.items())


def cookie_of(name):
    """The place of a name in listings: a part of its MD5."""
    return max(4, int.from_bytes(hashlib.md5(name).digest()[:8], 'big') // 4)


class Tree:
    """Objects by number. `first` are the marks of what wasn't touched."""

    def __init__(self, inodes, first):
        self.inodes, self.first = inodes, first
        self.generations = collections.Counter()
        self.things = {ROOT: Thing('dir', ROOT, 0, 0o755, first)}

    def fresh_number(self):
        """The least free number."""
        free = [number for number in range(FIRST, self.inodes) if number not in self.things]
        return free[0] if free else refuse(errno.ENOSPC)

    def make(self, kind, mode, marks, target=b''):
        """A new object, which has no name yet."""
        number = self.fresh_number()
        self.generations[number] += 1
        self.things[number] = Thing(kind, number, self.generations[number], mode, marks, target)
        return self.things[number]

    def standing(self, number):
        """What has a number, and a name."""
        thing = self.things.get(number)
        return thing if thing is not None and thing.links > 0 else refuse(errno.ESTALE)

    def test_name(self, number, name):
        """The tests of the text of a path from a number along names."""
        text = b'@%d/%s' % (number, name) if name else b'@%d' % number
        if len(text) > LONGEST_PATH:
            refuse(errno.ENAMETOOLONG)
        if text.endswith(b'/'):
            refuse(errno.EINVAL)
        if any(len(part) > LONGEST_NAME for part in text.split(b'/')):
            refuse(errno.ENAMETOOLONG)
        if b'..' in text.split(b'/')[1:]:
            refuse(errno.EINVAL)

    def test_new_name(self, number, name):
        """The same of a name that is to be made or taken away."""
        self.test_name(number, name)
        if not name or name.split(b'/')[-1] == b'.':
            refuse(errno.EINVAL)

    def look(self, number, name):
        """Where a name leads from a number: the directory, the name in it, and what has it, or None. A name isn't to have slashes;
        where it has, it goes on along its parts."""
        self.test_name(number, name)
        parts = [part for part in name.split(b'/') if part]
        thing, directory, last = self.standing(number), None, None
        if parts and thing.kind != 'dir':
            refuse(errno.ENOTDIR)
        for left, part in reversed(list(enumerate(reversed(parts)))):
            if part != b'.':
                directory, last = thing, part
                inner = directory.names.get(part)
                if inner is None:
                    return (directory, part, None) if left == 0 else refuse(errno.ENOENT)
                thing = self.things[inner]
            if left and thing.kind == 'link':
                refuse(errno.ELOOP)
            if left and thing.kind == 'file':
                refuse(errno.ENOTDIR)
        return directory, last, thing

    def find(self, number, name):
        """The same of what is there."""
        directory, last, thing = self.look(number, name)
        return (directory, last, thing) if thing is not None else refuse(errno.ENOENT)

    def is_below(self, thing, top):
        """Whether a directory is another one, or stands somewhere in it."""
        inner = [self.things[number] for number in top.names.values()]
        return thing is top or any(self.is_below(thing, other) for other in inner if other.kind == 'dir')

    def kept(self):
        """A tree of its own, without what has no name."""
        other = Tree(self.inodes, self.first)
        other.things = {number: copied(thing) for number, thing in self.things.items() if thing.links > 0}
        return other

    def mounted(self, first):
        """The same tree at its next mount."""
        other = self.kept()
        other.first = first
        for thing in other.things.values():
            thing.marks, thing.generation = first, 0
        return other


def copied(thing):
    """An object of its own with the same contents."""
    other = Thing(thing.kind, thing.number, thing.generation, thing.mode, thing.marks, thing.target)
    other.links, other.size, other.names = thing.links, thing.size, dict(thing.names)
    other.blocks = {index: bytearray(block) for index, block in thing.blocks.items()}
    return other
