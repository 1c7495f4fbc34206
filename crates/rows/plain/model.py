"""A plain model of a mounted file system, for comparison with the program.

It is written from the rules in docs/COMMANDS.md and docs/DECISIONS.md, and apart from the
definitions of the crate `model`. A volume is a map from numbers to objects. Beside it stand
the open files, what the log holds (its length, whether its epoch is open, how many records and
their costs, which are what it pledges), and the blocks that are free under the newest root. A
consistency point stores what changed since that root, and empties the log.

Each block has a place on the disk. A place is free where neither the tree under the newest root nor a
snapshot has it.

A point is planned and then finished, at once or by slices that later commands write. From the plan
on the system runs over the root to come: what changed is what changed since, and records go to the
second epoch behind the newest root. What stands under that root is kept aside (`settled`): a cut,
or the end of a run, leaves it with the records of both epochs (`give_up`).

Every command tells how many device writes it makes, and what a cut within each of them leaves.

A cut may leave a sector that can't be read. Of all sectors only those of the two root slots are
told apart here: the newest root stands in one, and the other one may be unreadable. A mount takes
it for a slot without a root, and the next root goes there. Each root has a version: a system over a
root of version 1 is as any other, and its next root has the version that is written.
"""

import copy

from kept import Snapshot
from objects import BLOCK, DIRECT, Directory
from places import ENTRIES_OF_A_BLOCK, HEAD, is_of_map, places_to_come

ROOT = 3
FIRST = 4
DESCRIPTORS = 32
INODES_OF_A_BLOCK = 21
LOG_START = 9
SLOTS = (0, 8)
VERSION = 2
SLICE = 8
HEADROOM = 16
NUMBERS_OF_A_BLOCK = 8 * BLOCK
OF_A_ROOT = ['costs', 'kept_nameless', 'is_changed', 'records', 'log_end', 'is_log_open', 'is_beyond',
             'inode_blocks', 'changed_inodes', 'numbers', 'places', 'snapshots', 'free']


class Refusal(Exception):
    """What a command answers instead of being done."""


def refuse(name):
    """Ends a command with this answer."""
    raise Refusal(name)


def rounded_up(number, divisor):
    """The quotient, rounded up."""
    return -(-number // divisor)


class Step:
    """A write with which something comes into force, and what stands before and behind it."""

    def __init__(self, kind, write, before, after):
        self.kind = kind
        self.write = write
        self.before = before
        self.after = after


class System:
    """A mounted file system."""

    def __init__(self, blocks, inodes, half):
        self.block_count, self.inode_count, self.half = blocks, inodes, half
        self.volume = {ROOT: Directory(0o755)}
        self.descriptors = [None] * DESCRIPTORS
        self.log_end, self.is_log_open, self.is_beyond = LOG_START, False, False
        self.costs, self.kept_nameless, self.is_changed = 0, 0, False
        self.generation, self.records = 1, 0
        self.inode_blocks, self.changed_inodes, self.numbers = {0}, set(), None
        self.snapshots, self.places, self.free = [], {}, blocks - 2
        self.slot, self.is_other_lost = 0, False
        self.roots = [(VERSION, 1), None]
        self.settled, self.left = None, 0
        self.places, _ = self.stored_places(range(0, blocks, ENTRIES_OF_A_BLOCK))
        self.numbers = set(self.volume)
        self.free = self.free_blocks()
        self.begin_command()

    def copy(self):
        """A system of its own with the same contents, between two commands."""
        other = copy.copy(self)
        other.volume = {number: thing.copy() for number, thing in self.volume.items()}
        other.descriptors = list(self.descriptors)
        other.inode_blocks = set(self.inode_blocks)
        other.changed_inodes = set(self.changed_inodes)
        other.snapshots, other.places = list(self.snapshots), dict(self.places)
        other.roots = list(self.roots)
        other.begin_command()
        return other

    def begin_command(self):
        """Nothing is written yet."""
        self.writes = 0
        self.steps = []
        self.record = None

    # The volume

    def links(self, number):
        """How many names lead to a number."""
        directories = [thing for thing in self.volume.values() if thing.kind == 'dir']
        return sum(list(thing.names.values()).count(number) for thing in directories)

    def is_open(self, number):
        """Whether a descriptor has this file."""
        return number in [opened.number for opened in self.descriptors if opened is not None]

    def nameless(self):
        """The files without a name."""
        files = [number for number, thing in self.volume.items() if thing.kind == 'file']
        return [number for number in files if self.links(number) == 0]

    def drop(self, number):
        """Takes an object out of the volume."""
        del self.volume[number]
        self.changed_inodes.add(number)
        self.is_changed = True

    def lose_name(self, number):
        """Drops what has lost a name, where nothing holds it any more."""
        if self.volume[number].kind != 'file':
            self.drop(number)
        elif self.links(number) == 0 and not self.is_open(number):
            self.drop(number)

    def fresh_number(self):
        """The least free number."""
        for number in range(FIRST, self.inode_count):
            if number not in self.volume:
                return number
        return refuse('NONUMBER')

    def touch(self, *numbers):
        """The inodes of these numbers have changed."""
        self.changed_inodes |= set(numbers)

    def mount(self):
        """No file is open, and files without a name are gone."""
        self.descriptors = [None] * DESCRIPTORS
        for number in self.nameless():
            self.drop(number)

    # What is stored

    def inode_map_blocks(self):
        """Blocks of the inode map: none where its bits stand in its inode."""
        size = rounded_up(self.inode_count, 8)
        return {('inode map', index) for index in range(rounded_up(size, BLOCK) if size > 128 else 0)}

    def changed_map_blocks(self):
        """Those of them that a point stores: where a number is taken or free that wasn't under the newest root."""
        if self.numbers is None:
            return self.inode_map_blocks()
        changed = {('inode map', number // NUMBERS_OF_A_BLOCK) for number in self.numbers ^ set(self.volume)}
        return changed & self.inode_map_blocks()

    def inode_file_blocks(self, indices):
        """These blocks of the inode file, and the indirect one over them."""
        indirect = rounded_up(self.inode_count, INODES_OF_A_BLOCK) > DIRECT
        return {('inodes', index) for index in indices} | ({('over inodes', 0)} if indirect else set())

    def blocks(self):
        """All blocks of the tree but those of the block map."""
        inner = [(number, *block) for number, thing in self.volume.items() for block in thing.blocks()]
        stored = self.inode_blocks | self.changed_inode_blocks()
        return set(inner) | self.inode_file_blocks(stored) | self.inode_map_blocks()

    def changed_inode_blocks(self):
        """Blocks of the inode file that a point stores, by their indices."""
        return {0} | {number // INODES_OF_A_BLOCK for number in self.changed_inodes}

    def changed_blocks(self):
        """Blocks that a point stores, but for those of the block map."""
        inner = [(number, *block) for number, thing in self.volume.items()
                 for block in thing.changed_blocks()]
        return set(inner) | self.inode_file_blocks(self.changed_inode_blocks()) | self.changed_map_blocks()

    def taken_places(self):
        """The places that the tree under the newest root and the snapshots have."""
        return set(self.places.values()).union(*[kept.places for kept in self.snapshots])

    def free_blocks(self):
        """How many places are free."""
        return self.block_count - 2 - len(self.taken_places())

    def stored_places(self, entries, heads=(), taken=None):
        """The places of all blocks behind a point that also changes these entries of the block map.

        And how many blocks it writes, the root blocks of snapshots (`heads`) among them. Of `taken`
        places none is given out; they are those under the newest root.
        """
        taken = self.taken_places() if taken is None else taken
        blocks, changed = self.blocks(), self.changed_blocks()
        free = [place for place in range(2, self.block_count) if place not in taken]
        gone = [block for block in self.places
                if not is_of_map(block) and (block not in blocks or block in changed)]
        return places_to_come(self.places, changed.union(heads), gone, entries, free, self.block_count)

    # A consistency point and the log

    def point(self):
        """Stores what isn't under the newest root, if anything, and empties the log."""
        self.finish()
        if not self.is_covered():
            self.plan()
            self.finish()

    def take(self, name):
        """Keeps the tree under the newest root, which holds all, as a snapshot."""
        kept = Snapshot(name, self)
        self.plan(range(0, self.block_count, ENTRIES_OF_A_BLOCK), [HEAD])
        kept.places.add(self.places.pop(HEAD))
        self.snapshots = self.snapshots + [kept]
        self.finish()

    def delete(self, snapshot):
        """Drops a snapshot with what isn't under the newest root."""
        self.finish()
        self.plan(snapshot.places)
        self.snapshots = [kept for kept in self.snapshots if kept is not snapshot]
        self.finish()

    def restore(self, snapshot):
        """Goes back to the tree of a snapshot, but for its files without a name, from the newest root, which has all.

        Its blocks stay where they are, and none of the blocks of the tree before is written over.
        """
        before, taken = self.copy(), self.taken_places()
        self.volume = {number: thing.copy() for number, thing in snapshot.whole.items()}
        self.places, self.inode_blocks, self.numbers = dict(snapshot.tree), set(snapshot.inode_blocks), snapshot.numbers
        for number in snapshot.nameless:
            self.drop(number)
        self.plan(range(0, self.block_count, ENTRIES_OF_A_BLOCK), taken=taken)
        self.finish()
        self.steps[-1].before = before

    def plan(self, entries=(), heads=(), taken=None):
        """Plans a point of all that changed, and goes over to the root to come."""
        self.settled = {name: getattr(self, name) for name in OF_A_ROOT}
        self.places, self.left = self.stored_places(entries, heads, taken)
        assert self.left <= self.free, 'a point has no room'
        self.next_generation = self.generation + (2 if self.is_beyond else 1)
        self.inode_blocks = self.inode_blocks | self.changed_inode_blocks()
        self.changed_inodes, self.numbers = set(), set(self.volume)
        for thing in self.volume.values():
            thing.plan()
        self.kept_nameless = len(self.nameless())
        self.costs, self.is_changed, self.records = 0, False, 0
        self.log_end, self.is_log_open, self.is_beyond = LOG_START, False, False

    def write_slice(self):
        """Writes some of the planned blocks, and behind the last one the root."""
        if self.left <= SLICE:
            self.finish()
        else:
            self.left -= SLICE
            self.writes += SLICE

    def finish(self):
        """Writes what is left of a planned point, and then its root."""
        if self.settled is None:
            return
        self.writes += self.left + 1
        before = self.copy()
        self.settled, self.left = None, 0
        for thing in self.volume.values():
            thing.settle()
        self.free = self.free_blocks()
        self.generation = self.next_generation
        self.slot, self.is_other_lost = 1 - self.slot, False
        self.roots[self.slot] = (VERSION, self.generation)
        self.steps.append(Step('root', self.writes, before, self.copy()))

    def give_up(self):
        """Goes back to the newest root and all records, where a point is under way."""
        if self.settled is None:
            return
        settled = self.settled
        for name in ('costs', 'records'):
            setattr(self, name, settled[name] + getattr(self, name))
        for name in ('kept_nameless', 'inode_blocks', 'numbers', 'places', 'snapshots', 'free'):
            setattr(self, name, settled[name])
        self.changed_inodes |= settled['changed_inodes']
        self.is_changed |= settled['is_changed']
        for thing in self.volume.values():
            thing.give_up()
        if self.is_log_open:
            self.is_beyond = True
        else:
            for name in ('log_end', 'is_log_open', 'is_beyond'):
                setattr(self, name, settled[name])
        self.settled, self.left = None, 0

    def fixed(self):
        """Blocks that every point may store, whatever changed."""
        return rounded_up(self.block_count, 1024) + 4

    def has_room(self, asked):
        """Whether so many blocks are free beside all that a point may store."""
        return self.pledged() + self.fixed() + asked <= self.free

    def is_covered(self):
        """Whether the newest root has all that is."""
        return not (self.is_changed or self.costs or self.log_end > LOG_START)

    def make_room(self, asked):
        """Makes a point where so many blocks aren't left, and refuses where they aren't then."""
        if not self.has_room(asked):
            self.point()
            if not self.has_room(asked):
                refuse('ENOSPC')

    def step(self):
        """What a command that logs a record does first: a whole point, a slice, a plan, or nothing."""
        if self.is_beyond:
            self.point()
        elif self.settled is not None:
            self.write_slice()
        elif self.half - self.log_end < self.half // 16:
            self.plan()

    def log(self, length, cost, keep):
        """Appends a record whose body has this length, behind a point where it doesn't fit.

        It may cost a point so many blocks, and so many stay free behind it.
        """
        self.step()
        self.make_room(cost + keep)
        if self.log_end + 5 + length + 1 > self.half:
            self.point()
        if not self.is_log_open:
            self.writes += 3
            before = self.copy()
            self.is_log_open = True
            self.steps.append(Step('open', self.writes, before, self.copy()))
        self.writes += 2
        self.record = Step('record', self.writes, self.copy(), None)
        self.log_end += 5 + length
        self.records += 1
        self.costs += cost

    def pledged(self):
        """Blocks that a point may store for what isn't under the newest root yet."""
        costs, kept = self.costs, self.kept_nameless
        if self.settled is not None:
            costs, kept = self.settled['costs'] + costs, self.settled['kept_nameless']
        return costs + 4 * kept

    def reserved(self):
        """Blocks that no new data may have: what a point may store, and what stays for removals."""
        return self.pledged() + self.fixed() + HEADROOM

    def checked(self):
        """What a check says of it."""
        figures = (self.generation, len(self.snapshots), self.records, self.free)
        return b'ok generation %d snapshots %d records %d free %d' % figures

    def head_of_root(self, slot):
        """The first bytes of the root in a slot: its magic, version and generation. None where it has none that can be read."""
        if self.roots[slot] is None or self.is_other_lost and slot != self.slot:
            return None
        version, generation = self.roots[slot]
        return b'WAFLROOT' + version.to_bytes(4, 'little') + generation.to_bytes(8, 'little')

    def lost_slots(self):
        """The sectors of root slots that can't be read."""
        return [SLOTS[1 - self.slot]] if self.is_other_lost else []

    def cut(self, write, before, keep, kept_bytes):
        """What a cut within this write of the command leaves.

        `before` stood before the command. A sector stays by `keep`, and the one byte of an NVRAM
        write by `kept_bytes`.
        """
        standing, loses_slot = self.standing(write, before, keep, kept_bytes)
        left = standing.copy()
        left.give_up()
        left.is_other_lost |= loses_slot
        return left

    def standing(self, write, before, keep, kept_bytes):
        """What stood when what such a cut leaves came into force, and whether the slot without it is lost."""
        if self.record is not None and self.record.write == write:
            return (self if kept_bytes >= 1 else self.record.before), False
        standing = before
        for step in self.steps:
            if step.write < write:
                standing = step.after
            elif step.write == write:
                stays = kept_bytes >= 1 if step.kind == 'open' else mark_of(keep) == '1'
                loses_slot = step.kind == 'root' and mark_of(keep) == '2'
                return (step.after if stays else step.before), loses_slot
        return standing, False


def mark_of(keep):
    """What a cut does with the first sector since a sync: 0 drops it, 1 keeps it, 2 loses it."""
    return {'none': '0', 'all': '1'}.get(keep, keep[0])
