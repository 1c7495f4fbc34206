"""Requests that look at an object of the running tree, or set its attributes."""

import errno

import messages
from listing import Part, listed_directory, no_attributes
from messages import ATIME, ATIME_NOW, GID, MODE, MTIME, MTIME_NOW, SIZE, UID
from nodes import ROOT_NODE, SNAPSHOTS_NODE, is_snapshots, missing, number_of, test_size
from tree import KINDS, ROOT, Refusal, refuse


class Looking:
    """What a server tells of objects."""

    def is_current(self, node):
        """Whether a number still has the generation that its node tells."""
        number, generation = number_of(node), node >> 32
        return number == ROOT or self.tree.generations[number] == generation

    def node_of(self, thing):
        return ROOT_NODE if thing.number == ROOT else (thing.generation << 32) + thing.number

    def attributes(self, thing, parts=None):
        """What is told of an object of the running tree."""
        parts = thing.stored_parts() if parts is None else parts
        return messages.attributes(thing.number, thing.size, parts, thing.marks, KINDS[thing.kind] + thing.mode, thing.links)

    def entry(self, thing, parts=None):
        """The entry of one; of a new one the room of its size is told."""
        return messages.entry(self.node_of(thing), thing.generation, self.attributes(thing, parts))

    def look_up(self, number, request):
        name = request.fields['name']
        if is_snapshots(number, name):
            return messages.entry(SNAPSHOTS_NODE, 0, self.snapshots_attributes())
        try:
            return self.entry(self.tree.find(number, name)[2])
        except Refusal as refusal:
            return missing(refusal)

    def get_attributes(self, number, request):
        return messages.told_attributes(self.attributes(self.tree.standing(number)))

    def read_link(self, number, request):
        thing = self.tree.standing(number)
        return thing.target if thing.kind == 'link' else refuse(errno.EINVAL)

    def set_attributes(self, number, request):
        fields, valid = request.fields, request.fields['valid']
        size = fields['size'] if valid & SIZE else None
        test_size(size)
        if request.node in self.removed:
            return self.of_removed(request)
        thing = self.tree.standing(number)
        if size is not None or valid & MODE:
            if thing.kind == 'link':
                refuse(errno.ELOOP)
            if size is not None and thing.kind == 'dir':
                refuse(errno.EISDIR)
            self.room.do('set', '@%d' % number, '%04o' % (fields['mode'] % 0o10000) if valid & MODE else '-', '-' if size is None else size)
        self.set_fields(thing, fields)
        return messages.told_attributes(self.attributes(thing))

    def set_fields(self, thing, fields):
        """Sets what is given."""
        valid, marks = fields['valid'], thing.marks.changed(self.now)
        if valid & MODE:
            thing.mode = fields['mode'] % 0o10000
        if valid & SIZE:
            thing.resize(fields['size'])
            marks = marks.written(self.now)
        if valid & UID:
            marks = marks._replace(uid=fields['uid'])
        if valid & GID:
            marks = marks._replace(gid=fields['gid'])
        if valid & ATIME:
            marks = marks._replace(atime=self.now if valid & ATIME_NOW else (fields['atime'], fields['atime_ns']))
        if valid & MTIME:
            marks = marks._replace(mtime=self.now if valid & MTIME_NOW else (fields['mtime'], fields['mtime_ns']))
        thing.marks = marks

    def list(self, number, request):
        """A part of a directory: `.` and `..` at the places 1 and 2, then names at their cookies."""
        part = Part(request)
        if not part.begin(number):
            return part.text
        thing = listed_directory(self.tree, number)
        names = [(cookie, name, self.tree.things[inner]) for cookie, name, inner in thing.listed()]
        return part.tell([(cookie, name, inner.number, inner.kind, no_attributes() if is_snapshots(number, name) else self.entry(inner))
                          for cookie, name, inner in names])
