"""Requests in the folder of snapshots, and in snapshots."""

import errno
import os

import messages
from listing import Part, listed_directory, no_attributes
from nodes import GREATEST_OFFSET, SNAPSHOTS_NODE, WITHIN, missing, node_within, number_of
from open_files import KEEP_CACHE
from tree import KINDS, ROOT, Refusal, refuse

MOST_SNAPSHOTS = 30


class Snapshot:
    """A tree as it was taken."""

    def __init__(self, identity, name, tree):
        self.identity, self.name, self.tree = identity, name, tree


class Within:
    """What a server tells of snapshots."""

    def snapshots_attributes(self):
        return messages.attributes(SNAPSHOTS_NODE, 0, 0, self.tree.first, KINDS['dir'] + 0o755, 2)

    def named(self, name):
        """The snapshot of a name; None where there is none."""
        return next((kept for kept in self.snapshots if kept.name == name), None)

    def of_snapshots(self, request):
        """What is asked of the folder of snapshots."""
        name = request.fields.get('name')
        if request.name == 'LOOKUP':
            kept = self.named(name)
            return messages.no_entry() if kept is None else self.entry_within(kept, kept.tree.things[ROOT])
        if request.name == 'GETATTR':
            return messages.told_attributes(self.snapshots_attributes())
        if request.name == 'MKDIR':
            return self.take(name)
        if request.name == 'RMDIR':
            return self.delete(name)
        if request.name in ('READDIR', 'READDIRPLUS'):
            return self.list_snapshots(request)
        return refuse(errno.EROFS)

    def take(self, name):
        """Takes a snapshot. Each that is tried takes an id."""
        if self.named(name) is not None:
            refuse(errno.EEXIST)
        identity = self.next_identity
        self.next_identity += 1
        if not 0 < len(name) < 64 or any(not (chr(byte).isalnum() and byte < 128 or byte in b'._-') for byte in name):
            refuse(errno.EINVAL)
        if len(self.snapshots) >= MOST_SNAPSHOTS:
            refuse(errno.ENOSPC)
        self.room.do('snap', 'take', name)
        kept = Snapshot(identity, name, self.tree.kept())
        self.snapshots.append(kept)
        return self.entry_within(kept, kept.tree.things[ROOT])

    def delete(self, name):
        kept = self.named(name)
        if kept is None:
            refuse(errno.ENOENT)
        self.room.do('snap', 'delete', name)
        self.snapshots.remove(kept)
        return b''

    def list_snapshots(self, request):
        part = Part(request)
        if not part.begin(SNAPSHOTS_NODE):
            return part.text
        for kept in self.snapshots:
            if not part.add(kept.identity + 3, kept.name, node_within(kept, ROOT), 'dir', no_attributes()):
                break
        return part.text

    def of_snapshot(self, request):
        """What is asked of something in a snapshot."""
        identity, number = (request.node - WITHIN) >> 32, number_of(request.node)
        kept = next((kept for kept in self.snapshots if kept.identity == identity), None)
        if kept is None:
            refuse(errno.ESTALE)
        table = {'LOOKUP': self.look_within, 'GETATTR': self.tell_within, 'READLINK': self.read_link_within, 'OPEN': self.open_within,
                 'READ': self.read_within, 'READDIR': self.list_within, 'READDIRPLUS': self.list_within}
        if request.name == 'RELEASE':
            return b''
        if request.name == 'LSEEK':
            refuse(errno.EINVAL)
        return table[request.name](kept, number, request) if request.name in table else refuse(errno.EROFS)

    def attributes_within(self, kept, thing):
        return messages.attributes(node_within(kept, thing.number), thing.size, thing.parts_of_size(), self.tree.first,
                                   KINDS[thing.kind] + thing.mode, thing.links)

    def entry_within(self, kept, thing):
        return messages.entry(node_within(kept, thing.number), 0, self.attributes_within(kept, thing))

    def look_within(self, kept, number, request):
        try:
            return self.entry_within(kept, kept.tree.find(number, request.fields['name'])[2])
        except Refusal as refusal:
            return missing(refusal)

    def tell_within(self, kept, number, _request):
        return messages.told_attributes(self.attributes_within(kept, kept.tree.standing(number)))

    def read_link_within(self, kept, number, _request):
        thing = kept.tree.standing(number)
        return thing.target if thing.kind == 'link' else refuse(errno.EINVAL)

    def open_within(self, _kept, _number, request):
        """For reading alone."""
        return messages.opened(0, KEEP_CACHE) if request.fields['flags'] & os.O_ACCMODE == os.O_RDONLY else refuse(errno.EROFS)

    def read_within(self, kept, number, request):
        fields = request.fields
        if fields['size'] == 0 or fields['offset'] >= GREATEST_OFFSET:
            return b''
        thing = kept.tree.standing(number)
        if thing.kind != 'file':
            refuse(errno.EISDIR if thing.kind == 'dir' else errno.ELOOP)
        return thing.read(fields['offset'], fields['size'])

    def list_within(self, kept, number, request):
        part = Part(request)
        if not part.begin(node_within(kept, number)):
            return part.text
        thing = listed_directory(kept.tree, number)
        names = [(cookie, name, kept.tree.things[inner]) for cookie, name, inner in thing.listed()]
        return part.tell([(cookie, name, node_within(kept, inner.number), inner.kind, self.entry_within(kept, inner))
                          for cookie, name, inner in names])
