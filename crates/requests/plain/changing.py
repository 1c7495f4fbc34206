"""Requests that make names, move them or take them away."""

import errno
import os

import messages
from nodes import SNAPSHOTS_NODE, WITHIN, is_snapshots, number_of
from open_files import DESCRIPTORS, KEEP_CACHE, Removed
from room import path, word_of
from tree import KINDS, LONGEST_PATH, Refusal, made, refuse

MOST_NAMES, MOST_LINKS = 65536, 1000
NO_REPLACE = 1
SET_GROUP = 0o2000


def test_made(number, name):
    """The name of the folder of snapshots is taken."""
    if is_snapshots(number, name):
        refuse(errno.EEXIST)


def test_moved(number, name):
    """It is neither taken away nor given to anything else."""
    if is_snapshots(number, name):
        refuse(errno.EBUSY)


class Changing:
    """What a server does to the tree."""

    def place_for(self, number, name):
        """The directory in which a name is to be made, and the name: nothing has it."""
        self.tree.test_new_name(number, name)
        directory, name, thing = self.tree.look(number, name)
        if thing is not None:
            refuse(errno.EEXIST)
        if len(directory.names) >= MOST_NAMES:
            refuse(errno.ENOSPC)
        return directory, name

    def make(self, number, place, kind, request, mode, command, target=b''):
        """Makes an object for who asks, in the group that the directory hands on, if it does; `command` counts its room."""
        directory, name = place
        self.tree.fresh_number()
        command(path(directory, name))
        parent = self.tree.standing(number)
        inherits = parent.mode & SET_GROUP
        mode |= SET_GROUP if inherits and kind == 'dir' else 0
        thing = self.tree.make(kind, mode, made(request.uid, parent.marks.gid if inherits else request.gid, self.now), target)
        directory.names[name] = thing.number
        self.touch(number)
        return thing

    def touch(self, number):
        """The names in a directory changed."""
        directory = self.tree.standing(number)
        directory.marks = directory.marks.written(self.now)

    def make_directory(self, number, request):
        test_made(number, request.fields['name'])
        mode = request.fields['mode'] % 0o10000
        parent = self.tree.standing(number)
        kept = mode | parent.mode & SET_GROUP
        place = self.place_for(number, request.fields['name'])
        thing = self.make(number, place, 'dir', request, mode, lambda new: self.room.do('mkdir', new, '%04o' % kept))
        return self.entry(thing)

    def make_link(self, number, request):
        test_made(number, request.fields['name'])
        self.tree.standing(number)
        target = request.fields['target']
        if not target:
            refuse(errno.ENOENT)
        if len(target) > LONGEST_PATH:
            refuse(errno.ENAMETOOLONG)
        place = self.place_for(number, request.fields['name'])
        thing = self.make(number, place, 'link', request, 0o777, lambda new: self.room.do('symlink', word_of(target), new), target)
        return self.entry(thing)

    def make_node(self, number, request):
        if request.fields['mode'] & 0o170000 != KINDS['file']:
            refuse(errno.EPERM)
        thing, descriptor = self.make_open(number, request, True)
        told = self.entry(thing, thing.parts_of_size())
        self.close(descriptor)
        return told

    def create(self, number, request):
        is_exclusive = request.fields['flags'] & os.O_EXCL != 0
        thing, descriptor = self.make_open(number, request, is_exclusive)
        return self.entry(thing) + messages.opened(descriptor, KEEP_CACHE)

    def make_open(self, number, request, is_exclusive):
        """Makes a file, or takes the one that is there, and opens it."""
        test_made(number, request.fields['name'])
        self.tree.standing(number)
        name, mode = request.fields['name'], request.fields['mode'] % 0o10000
        self.tree.test_name(number, name)
        self.free_descriptor()
        _, _, thing = self.tree.look(number, name)
        if thing is not None:
            if is_exclusive:
                refuse(errno.EEXIST)
            return thing, self.open_thing(thing)
        place = self.place_for(number, name)
        thing = self.make(number, place, 'file', request, mode, lambda new: self.room.do('open', new, 'rwcx', '%04o' % mode))
        return thing, self.take_descriptor(thing)

    def link(self, number, request):
        node, name = request.fields['file'], request.fields['name']
        if node == SNAPSHOTS_NODE or node >= WITHIN:
            refuse(errno.EROFS)
        if not self.is_current(node):
            refuse(errno.ESTALE)
        test_made(number, name)
        self.tree.test_new_name(number, name)
        thing = self.tree.standing(number_of(node))
        if thing.kind != 'file':
            refuse(errno.EPERM)
        _, _, there = self.tree.look(number, name)
        if there is not None:
            refuse(errno.EEXIST)
        if thing.links >= MOST_LINKS:
            refuse(errno.EMLINK)
        directory, name = self.place_for(number, name)
        self.room.do('link', '@%d' % thing.number, path(directory, name))
        directory.names[name] = thing.number
        thing.links += 1
        thing.marks = thing.marks.changed(self.now)
        self.touch(number)
        return self.entry(thing)

    # Taking away

    def unlink(self, number, request):
        return self.remove(number, request.fields['name'], False)

    def remove_directory(self, number, request):
        return self.remove(number, request.fields['name'], True)

    def remove(self, number, name, is_directory):
        test_moved(number, name)
        directory, last, thing = self.tree.find(number, name)
        self.tree.test_new_name(number, name)
        if is_directory and thing.kind != 'dir':
            refuse(errno.ENOTDIR)
        if is_directory and thing.names:
            refuse(errno.ENOTEMPTY)
        if not is_directory and thing.kind == 'dir':
            refuse(errno.EPERM)
        self.lose(thing, lambda: self.room.do('rmdir' if is_directory else 'unlink', path(directory, last)))
        thing.marks = thing.marks.changed(self.now)
        del directory.names[last]
        self.touch(number)
        return b''

    def lose(self, thing, command):
        """A name of an object goes by a command, before which a file whose last one it is, is held. Of a file with other names that lost
        one by a rename POSIX asks no new time."""
        is_last = thing.links == 1
        held = self.hold(thing) if is_last and thing.kind == 'file' else None
        try:
            command()
        except Refusal:
            if held is not None:
                self.close(held)
            raise
        thing.links -= 1
        if is_last:
            thing.marks = thing.marks.changed(self.now)
            self.removed[self.node_of(thing)] = Removed(thing, held)
            if thing.kind != 'file' or held is None and not self.is_open(thing):
                del self.tree.things[thing.number]

    def hold(self, thing):
        """The descriptor by which a file is held; None where none is free."""
        return self.open_thing(thing) if len(self.open) < DESCRIPTORS else None

    def rename(self, number, request):
        fields = request.fields
        flags = fields.get('flags', 0)
        node = fields['new_parent']
        if node == SNAPSHOTS_NODE or node >= WITHIN:
            refuse(errno.EROFS)
        if not self.is_current(node):
            refuse(errno.ESTALE)
        if flags > NO_REPLACE:
            refuse(errno.EINVAL)
        to, name, new_name = number_of(node), fields['name'], fields['new_name']
        test_moved(number, name)
        test_moved(to, new_name)
        directory, last, thing = self.tree.find(number, name)
        new_directory, new_last, over = self.tree.look(to, new_name)
        self.tree.test_new_name(number, name)
        self.tree.test_new_name(to, new_name)
        if over is not None and flags == NO_REPLACE:
            refuse(errno.EEXIST)
        if over is thing:
            return b''
        self.test_rename(thing, directory, new_directory, over)
        words = ['renamenew' if flags == NO_REPLACE else 'rename', path(directory, last), path(new_directory, new_last)]
        if over is None:
            self.room.do(*words)
        else:
            self.lose(over, lambda: self.room.do(*words))
        del directory.names[last]
        new_directory.names[new_last] = thing.number
        thing.marks = thing.marks.changed(self.now)
        self.touch(number)
        self.touch(to)
        return b''

    def test_rename(self, thing, directory, new_directory, over):
        """Whether an object may get a place."""
        if thing.kind == 'dir' and self.tree.is_below(new_directory, thing):
            refuse(errno.EINVAL)
        if over is None:
            if new_directory is not directory and len(new_directory.names) >= MOST_NAMES:
                refuse(errno.ENOSPC)
            return
        if thing.kind == 'dir' and over.kind != 'dir':
            refuse(errno.ENOTDIR)
        if thing.kind != 'dir' and over.kind == 'dir':
            refuse(errno.EISDIR)
        if over.names:
            refuse(errno.ENOTEMPTY)
