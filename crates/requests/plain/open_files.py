"""Open files, and objects that have no name any more."""

import errno

import messages
from messages import SIZE
from nodes import GREATEST_FILE, GREATEST_OFFSET, test_size
from tree import Refusal, refuse

DESCRIPTORS = 65536
PART = 65536
KEEP_CACHE = 2
SEEK_DATA, SEEK_HOLE = 3, 4


class Removed:
    """What has no name any more, and the kernel knows: a file is held by a descriptor, and opened so many times by it."""

    def __init__(self, thing, held):
        self.thing, self.held, self.opens = thing, held, 0


class OpenFiles:
    """What a server does by descriptors."""

    def free_descriptor(self):
        """The least free descriptor."""
        free = next((number for number in range(DESCRIPTORS) if number not in self.open), None)
        return refuse(errno.EMFILE) if free is None else free

    def take_descriptor(self, thing):
        descriptor = self.free_descriptor()
        self.open[descriptor] = thing
        return descriptor

    def open_thing(self, thing):
        """Opens what has a name: the least free descriptor."""
        if thing.kind == 'link':
            refuse(errno.ELOOP)
        if thing.kind == 'dir':
            refuse(errno.EISDIR)
        reply = self.room.do('open', '@%d' % thing.number, 'rw')
        descriptor = self.take_descriptor(thing)
        assert reply == b'fd %d' % descriptor, reply
        return descriptor

    def is_open(self, thing):
        return thing in self.open.values()

    def close(self, descriptor):
        """Closes an open file, which goes where it has no name and nothing else has it open."""
        self.room.do('close', descriptor)
        thing = self.open.pop(descriptor)
        if thing.links == 0 and not self.is_open(thing):
            del self.tree.things[thing.number]

    def opened(self, handle):
        """The file that is open by a handle."""
        return self.open[handle] if handle in self.open else refuse(errno.EBADF)

    def open_file(self, number, request):
        self.free_descriptor()
        return messages.opened(self.open_thing(self.tree.standing(number)), KEEP_CACHE)

    def release(self, _number, request):
        handle = request.fields['handle']
        for removed in self.removed.values():
            if removed.held == handle:
                removed.opens = max(0, removed.opens - 1)
                return b''
        self.opened(handle)
        self.close(handle)
        return b''

    def read(self, _number, request):
        fields = request.fields
        if fields['size'] == 0 or fields['offset'] >= GREATEST_OFFSET:
            return b''
        return self.opened(fields['handle']).read(fields['offset'], fields['size'])

    def write(self, number, request):
        """Bytes are written in parts, each of which is done or not."""
        fields = request.fields
        handle, data, done = fields['handle'], fields['bytes'], 0
        try:
            while done < len(data):
                part, offset = data[done:done + PART], fields['offset'] + done
                if offset >= GREATEST_OFFSET:
                    refuse(errno.EFBIG)
                thing = self.opened(handle)
                if offset + len(part) > GREATEST_FILE:
                    refuse(errno.EFBIG)
                self.room.do('pwrite', handle, offset, part.hex())
                thing.write(offset, part)
                done += len(part)
        except Refusal:
            if done == 0:
                raise
        if done:
            written = self.tree.things.get(number, thing)
            written.marks = written.marks.written(self.now)
        return done.to_bytes(8, 'little')

    def seek(self, number, request):
        offset, whence = request.fields['offset'], request.fields['whence']
        if offset >= GREATEST_OFFSET:
            refuse(errno.ENXIO)
        if request.node in self.removed:
            return self.of_removed(request)
        thing = self.tree.standing(number)
        if thing.kind != 'file':
            refuse(errno.EISDIR if thing.kind == 'dir' else errno.ELOOP)
        if whence not in (SEEK_DATA, SEEK_HOLE):
            refuse(errno.EINVAL)
        place = thing.place_of(offset, whence == SEEK_DATA) if offset < thing.size else None
        return refuse(errno.ENXIO) if place is None else place.to_bytes(8, 'little')

    # What has no name any more

    def of_removed(self, request):
        """What is asked of a node that leads to nothing in the tree."""
        if request.name == 'RELEASE':
            return self.release(None, request)
        if request.name == 'SETATTR' and request.fields['valid'] & SIZE and request.fields['size'] >= GREATEST_OFFSET:
            refuse(errno.EFBIG)
        removed = self.removed.get(request.node)
        if removed is None:
            refuse(errno.ESTALE)
        table = {'GETATTR': self.tell_removed, 'SETATTR': self.set_removed, 'READLINK': self.read_removed_link, 'OPEN': self.open_removed,
                 'LSEEK': self.seek_removed}
        return table[request.name](removed, request) if request.name in table else refuse(errno.ESTALE)

    def tell_removed(self, removed, _request):
        return messages.told_attributes(self.attributes(removed.thing, removed.thing.parts_of_size()))

    def set_removed(self, removed, request):
        fields = request.fields
        if fields['valid'] & SIZE:
            if removed.held is None:
                refuse(errno.ESTALE)
            size = fields['size']
            test_size(size)
            self.room.do('ftruncate', removed.held, size)
        self.set_fields(removed.thing, fields)
        return self.tell_removed(removed, request)

    def read_removed_link(self, removed, _request):
        return removed.thing.target if removed.thing.kind == 'link' else refuse(errno.ESTALE)

    def open_removed(self, removed, _request):
        if removed.held is None:
            refuse(errno.ESTALE)
        removed.opens += 1
        return messages.opened(removed.held, KEEP_CACHE)

    def seek_removed(self, removed, request):
        """All of it counts as data."""
        offset, whence, size = request.fields['offset'], request.fields['whence'], removed.thing.size
        if removed.held is None:
            refuse(errno.ESTALE)
        if whence not in (SEEK_DATA, SEEK_HOLE):
            refuse(errno.EINVAL)
        if offset >= size:
            refuse(errno.ENXIO)
        return (offset if whence == SEEK_DATA else size).to_bytes(8, 'little')
