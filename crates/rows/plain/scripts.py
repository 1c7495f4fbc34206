"""Scripts of the plain model: all commands, and runs of them up to a cut."""

import calls
import descriptors
import snapshots
from model import ROOT, Refusal, refuse


def sync(system, _words):
    system.point()
    return b'ok'


def free_blocks(system, _words):
    numbers = (system.block_count, system.free, system.pledged())
    return b'blocks %d free %d pledged %d' % numbers


def usage(system, _words):
    numbers = (system.block_count, system.free, system.reserved(), system.inode_count - ROOT, len(system.volume))
    return b'usage blocks %d free %d reserved %d inodes %d taken %d' % numbers


COMMANDS = {
    b'list': calls.list_names,
    b'entries': calls.entries,
    b'stat': calls.stat,
    b'lstat': calls.stat,
    b'attr': calls.unkept,
    b'lattr': calls.unkept,
    b'readlink': calls.readlink,
    b'get': calls.get,
    b'extent': calls.extent,
    b'mkdir': calls.mkdir,
    b'rmdir': calls.rmdir,
    b'unlink': calls.unlink,
    b'link': calls.link,
    b'symlink': calls.symlink,
    b'rename': calls.rename,
    b'renamenew': calls.rename,
    b'chmod': calls.chmod,
    b'chown': calls.unkept,
    b'lchown': calls.unkept,
    b'utimens': calls.unkept,
    b'lutimens': calls.unkept,
    b'truncate': calls.truncate,
    b'set': calls.set_given,
    b'store': descriptors.store,
    b'sync': sync,
    b'df': free_blocks,
    b'statfs': usage,
    b'at': calls.unkept,
    b'as': calls.unkept,
    b'open': descriptors.open_file,
    b'openstat': descriptors.open_file,
    b'close': descriptors.close,
    b'read': descriptors.read,
    b'write': descriptors.write,
    b'pread': descriptors.read,
    b'pwrite': descriptors.write,
    b'lseek': descriptors.lseek,
    b'ftruncate': descriptors.ftruncate,
    b'fchmod': descriptors.fchmod,
    b'fchown': calls.unkept,
    b'futimens': calls.unkept,
    b'fstat': descriptors.fstat,
    b'fattr': calls.unkept,
    b'fsync': descriptors.fsync,
    b'snap': snapshots.snap,
    b'in': snapshots.within,
}


def step(system, line):
    """Does a line of a script: the reply. A refusal changes nothing; a point before it stays."""
    system.begin_command()
    words = line.split(b' ')
    try:
        return COMMANDS[words[0]](system, words)
    except Refusal as refusal:
        return b'err ' + refusal.args[0].encode()


def run(system, lines, cut=None, keep='none', kept_bytes=0):
    """Mounts a copy and does the lines, until the power is cut: the replies, and what is left.

    A point that is under way at the end isn't finished.
    """
    system = system.copy()
    system.mount()
    replies = []
    writes = 0
    for line in lines:
        before = system.copy() if cut is not None else None
        reply = step(system, line)
        if cut is not None and writes < cut <= writes + system.writes:
            left = system.cut(cut - writes, before, keep, kept_bytes)
            return replies + [b'cut'], left
        writes += system.writes
        replies.append(reply)
    system.give_up()
    return replies, system
