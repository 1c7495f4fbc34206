"""Files, directories and symbolic links of the plain model.

Each object knows which blocks it takes on the disk, and which of them a consistency point has to
store anew: `blocks()` and `changed_blocks()`, each block by what it has and its index. `plan()` says
that a point is to store them, `settle()` that it has, and `give_up()` that it never will.
"""

import copy

BLOCK = 4096
ZEROS = bytes(BLOCK)
POINTERS = 1024
DIRECT = 16
INLINE = 128


def level(size):
    """How many steps lead from an inode to a block: none where the bytes stand in the inode, and more with each row of indirect blocks."""
    steps = 0 if size <= INLINE else 1
    while size > DIRECT * BLOCK * POINTERS ** (steps - 1) and steps > 0:
        steps += 1
    return steps


def over(indices, height):
    """The indirect blocks at this height that lead to these blocks, by their indices."""
    return {index // POINTERS ** height for index in indices}


def indirect_blocks(stored, steps):
    """The indirect blocks that have a pointer, by height and index."""
    return {(height, index) for height in range(1, steps) for index in over(stored, height)}


def blocks_of(data, indirect):
    """Blocks of data and indirect ones, by their indices."""
    return {('data', index) for index in data} | {('indirect', index) for index in indirect}


class Stored:
    """Which blocks of an object the newest root has, or the one to come, and how many steps lead to them."""

    def __init__(self, indices=(), steps=0):
        self.indices, self.steps = frozenset(indices), steps

    def stores_anew(self, stored, steps, changed):
        """What a point stores over these of an object that has so much: an indirect block stays where no pointer of it has changed."""
        changed = stored & changed
        moved = changed | stored ^ self.indices
        indirect = {(height, index) for height, index in indirect_blocks(stored, steps)
                    if height >= self.steps or index in over(moved, height)}
        return blocks_of(changed, indirect)


class File:
    """Bytes by blocks: one that `data` doesn't have is zeros, and only `stored` ones are stored."""

    kind = 'file'

    def __init__(self, mode):
        self.mode = mode
        self.size = 0
        self.data = {}
        self.stored = set()
        self.changed = set()
        self.base, self.planned = Stored(), None

    def copy(self):
        """An object of its own with the same contents."""
        other = copy.copy(self)
        other.data = dict(self.data)
        other.stored = set(self.stored)
        other.changed = set(self.changed)
        return other

    def read(self, offset, count):
        """The bytes from the offset on, as far as there are."""
        left = max(0, min(count, self.size - offset))
        out = bytearray()
        while left > 0:
            index, start = divmod(offset, BLOCK)
            taken = min(left, BLOCK - start)
            out += self.data.get(index, ZEROS)[start:start + taken]
            offset += taken
            left -= taken
        return bytes(out)

    def grow(self, size):
        """Zeros up to the size. Bytes that leave the inode move to block 0; none leave a hole."""
        if level(size) > 0 and level(self.size) == 0 and self.size > 0:
            self.stored.add(0)
            self.changed.add(0)
        self.size = max(self.size, size)

    def write(self, offset, data):
        """Puts bytes at an offset."""
        self.grow(max(self.size, offset + len(data)))
        while data:
            index, start = divmod(offset, BLOCK)
            part = data[:BLOCK - start]
            block = bytearray(self.data.get(index, ZEROS))
            block[start:start + len(part)] = part
            self.data[index] = bytes(block)
            if level(self.size) > 0:
                self.stored.add(index)
                self.changed.add(index)
            data = data[len(part):]
            offset += len(part)

    def resize(self, size):
        """Cuts off the last bytes, or adds zeros."""
        if size >= self.size:
            self.grow(size)
            return
        end = -(-size // BLOCK)
        for index in [index for index in self.data if index >= end]:
            del self.data[index]
        self.clear_behind(size)
        gone = {index for index in self.stored if index >= end or level(size) == 0}
        self.stored -= gone
        self.size = size

    def clear_behind(self, size):
        """Zeros behind the last byte, in the block that it stands in."""
        last, kept = divmod(size, BLOCK)
        if kept and last in self.data:
            self.data[last] = self.data[last][:kept] + bytes(BLOCK - kept)
        if kept and last in self.stored:
            self.changed.add(last)

    def told_blocks(self):
        """The blocks that `extent` tells as stored: bytes in the inode are block 0 there."""
        return {0} if 0 < self.size <= INLINE else self.stored

    def extent(self, offset):
        """How many blocks are stored, and the first places from the offset on in one that is and in one that isn't, or the end."""
        told, end = self.told_blocks(), -(-self.size // BLOCK)
        if offset >= self.size:
            return len(told), None, None
        first = offset // BLOCK
        data = min((index for index in told if index >= first), default=None)
        hole = next((index for index in range(first, end) if index not in told), end)
        return (len(told), None if data is None else max(offset, data * BLOCK), min(max(offset, hole * BLOCK), self.size))

    def blocks(self):
        return blocks_of(self.stored, indirect_blocks(self.stored, level(self.size)))

    def changed_blocks(self):
        return self.base.stores_anew(self.stored, level(self.size), self.changed)

    def plan(self):
        self.planned = (self.changed, self.base)
        self.changed, self.base = set(), Stored(self.stored, level(self.size))

    def settle(self):
        self.planned = None

    def give_up(self):
        if self.planned is not None:
            changed, self.base = self.planned
            self.changed |= changed
            self.settle()


class Directory:
    """Names with their numbers, and the blocks of records that they stand in."""

    kind = 'dir'

    def __init__(self, mode):
        self.mode = mode
        self.names = {}
        self.records = []
        self.changed = set()
        self.base, self.planned = Stored(), None

    def copy(self):
        """An object of its own with the same contents."""
        other = copy.copy(self)
        other.names = dict(self.names)
        other.records = [list(block) for block in self.records]
        other.changed = set(self.changed)
        return other

    def add(self, name, number):
        """Into the first block with room, else into a new last one."""
        self.names[name] = number
        for index, block in enumerate(self.records):
            if sum(5 + len(other) for other in block) + 5 + len(name) <= BLOCK:
                block.append(name)
                self.changed.add(index)
                return
        self.records.append([name])
        self.changed.add(len(self.records) - 1)

    def remove(self, name):
        """Takes a name away; empty blocks at the end go."""
        del self.names[name]
        for index, block in enumerate(self.records):
            if name in block:
                block.remove(name)
                self.changed.add(index)
        while self.records and not self.records[-1]:
            self.records.pop()

    def stored(self):
        """Its blocks, and how many steps lead to them."""
        return set(range(len(self.records))), level(BLOCK * len(self.records))

    def blocks(self):
        stored, steps = self.stored()
        return blocks_of(stored, indirect_blocks(stored, steps))

    def changed_blocks(self):
        return self.base.stores_anew(*self.stored(), self.changed)

    def plan(self):
        self.planned = (self.changed, self.base)
        self.changed, self.base = set(), Stored(*self.stored())

    def settle(self):
        self.planned = None

    def give_up(self):
        if self.planned is not None:
            changed, self.base = self.planned
            self.changed |= changed
            self.settle()


class Link:
    """A symbolic link, which never changes."""

    kind = 'link'
    mode = 0o777

    def __init__(self, text):
        self.text = text
        self.is_new = True
        self.is_planned = False

    def copy(self):
        """An object of its own with the same contents."""
        return copy.copy(self)

    def blocks(self):
        return blocks_of({0} if len(self.text) > INLINE else {}, {})

    def changed_blocks(self):
        return self.blocks() if self.is_new else set()

    def plan(self):
        self.is_planned, self.is_new = self.is_new, False

    def settle(self):
        self.is_planned = False

    def give_up(self):
        self.is_new |= self.is_planned
        self.settle()
