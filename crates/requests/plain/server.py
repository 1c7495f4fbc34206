"""The plain model of a server: what each request is answered, from linux/fuse.h, POSIX and the rules in docs/OPERATIONS.md.

A node is the number of an object with its generation in the upper half; 1 is the root, and 2 the folder of snapshots. What stands in a
snapshot has nodes with the highest bit, and the snapshot's id in the upper half.

When the last name of an object goes, the kernel may know it on. A file is then held open by a descriptor of the server's own, a link's
text is kept, and of each kind mode, owner and times are, until the kernel forgets the node.
"""

import errno

import messages
from changing import Changing
from looking import Looking
from nodes import SNAPSHOTS_NODE, WITHIN, number_of
from open_files import OpenFiles
from tree import Refusal, made, refuse
from within import Snapshot, Within

# What can be asked of an object that has no name any more, beside SETATTR and LSEEK, which first test what is asked.
OF_REMOVED = ('GETATTR', 'READLINK', 'OPEN')
# What of a kernel's offer is taken: several reads under way, writes above a page, listings with entries where the kernel likes, direct
# transfers and look-ups side by side, max_pages, and that the kernel keeps texts of links.
OFFERED = 0x1 | 0x20 | 0x2000 | 0x4000 | 0x8000 | 0x40000 | 0x400000 | 0x800000


class Server(Looking, Changing, OpenFiles, Within):
    """A mounted folder."""

    def __init__(self, room, owner, now):
        self.room, self.owner = room, owner
        self.tree, self.snapshots = room.tree(made(*owner, now)), []
        self.mount(now)

    def mount(self, now):
        """All that isn't in the image is forgotten."""
        self.room.mount()
        self.tree = self.tree.mounted(made(*self.owner, now))
        self.open, self.removed, self.now = {}, {}, now
        self.snapshots = [Snapshot(identity, kept.name, kept.tree) for identity, kept in enumerate(self.snapshots)]
        self.next_identity = len(self.snapshots)

    def answer(self, message, now):
        """The reply to a message; no bytes where it has none."""
        self.now = now
        request = messages.read(message)
        if request is None:
            unique = messages.unique_of(message)
            return b'' if unique is None else messages.error(unique, errno.EINVAL)
        try:
            body = self.body_of(request)
        except Refusal as refusal:
            return messages.error(request.unique, refusal.args[0])
        return b'' if request.name in messages.SILENT else messages.reply(request.unique, body)

    def body_of(self, request):
        """What stands in a reply behind its head."""
        of_any = {'INIT': self.init, 'DESTROY': self.done, 'INTERRUPT': self.done, 'FORGET': self.forget, 'BATCH_FORGET': self.forget_all,
                  'NOTIFY_REPLY': self.done, 'STATFS': self.space, 'OPENDIR': self.open_directory, 'RELEASEDIR': self.done}
        if request.name in of_any:
            return of_any[request.name](request)
        if request.name in (None, 'FSYNC', 'FSYNCDIR', 'FLUSH', 'ACCESS'):
            refuse(errno.ENOSYS)
        if request.node == SNAPSHOTS_NODE:
            return self.of_snapshots(request)
        if request.node >= WITHIN:
            return self.of_snapshot(request)
        is_kept = request.node in self.removed and request.name in OF_REMOVED
        if is_kept or not self.is_current(request.node):
            return self.of_removed(request)
        return self.of_running(request)

    def of_running(self, request):
        """What is asked of a node whose number wasn't given anew."""
        table = {'LOOKUP': self.look_up, 'GETATTR': self.get_attributes, 'SETATTR': self.set_attributes, 'READLINK': self.read_link,
                 'SYMLINK': self.make_link, 'MKNOD': self.make_node, 'MKDIR': self.make_directory, 'UNLINK': self.unlink,
                 'RMDIR': self.remove_directory, 'RENAME': self.rename, 'RENAME2': self.rename, 'LINK': self.link, 'OPEN': self.open_file,
                 'CREATE': self.create, 'READ': self.read, 'WRITE': self.write, 'RELEASE': self.release, 'READDIR': self.list,
                 'READDIRPLUS': self.list, 'LSEEK': self.seek}
        return table[request.name](number_of(request.node), request)

    # Requests of any node

    def init(self, request):
        fields = request.fields
        if fields['major'] != 7 or fields['minor'] < 31:
            refuse(errno.EPROTO)
        return messages.agreed(fields['max_readahead'], fields['flags'] & OFFERED)

    def done(self, _request):
        return b''

    def forget(self, request):
        self.forget_node(request.node)
        return b''

    def forget_all(self, request):
        for node, _ in request.fields['forgets']:
            self.forget_node(node)
        return b''

    def forget_node(self, node):
        """The kernel knows a node no longer, unless it has it open."""
        removed = self.removed.get(node)
        if removed is None or removed.opens:
            return
        del self.removed[node]
        if removed.held is not None:
            self.close(removed.held)

    def space(self, _request):
        blocks, free, reserved, inodes, taken = self.room.usage()
        return messages.usage(blocks, max(0, free - reserved), inodes, inodes - taken)

    def open_directory(self, _request):
        return messages.opened(0, 0)
