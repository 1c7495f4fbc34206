"""Rows of requests that no kernel sends, or seldom: written by hand, and spelled here."""

import os

import messages
from hand import DATA, FIFO, FILE, HOLE, ROOT, SNAPSHOTS, WITHIN, Hand, node, within
from messages import ATIME, ATIME_NOW, GID, MODE, MTIME, MTIME_NOW, SIZE, UID
from removals_by_hand import held_files, refused_removals, set_without_name
from snapshots_by_hand import directory_below_it, file_below_it, name_elsewhere, name_of_the_folder, numbers_in_snapshots
from tree import cookie_of


def no_requests():
    row = Hand('hand.requests', 'messages that are no requests')
    whole = messages.asked('GETATTR', 2, ROOT)
    for count in (1, 4, 39):
        row.put(whole[:count])
    row.unique = 2
    row.cut('GETATTR', ROOT, length=1)
    row.cut('GETATTR', ROOT, length=-1)
    row.cut('GETATTR', ROOT, less=1)
    row.cut('GETATTR', ROOT, more=b'\0')
    row.cut('GETATTR', ROOT, less=16)
    row.cut('LOOKUP', ROOT, name=b'name', less=1)
    row.cut('LOOKUP', ROOT, name=b'', less=1)
    row.cut('LOOKUP', ROOT, name=b'two', more=b'names\0')
    row.cut('MKDIR', ROOT, name=b'folder', mode=0o755, less=1)
    row.cut('SYMLINK', ROOT, name=b'link', target=b'text', less=1)
    row.cut('SYMLINK', ROOT, name=b'link', target=b'', less=1)
    row.cut('RENAME', ROOT, new_parent=ROOT, name=b'a', new_name=b'b', less=3)
    row.make(b'file')
    row.cut('WRITE', node(4), size=5, bytes=b'four')
    row.cut('WRITE', node(4), size=3, bytes=b'four')
    row.cut('WRITE', node(4), size=2 ** 32 - 1, bytes=b'four')
    row.write(node(4), 0, b'four')
    row.cut('READ', node(4), size=4, more=b'more')
    row.cut('SETATTR', ROOT, valid=MODE, mode=0o700, less=4)
    row.cut('FORGET', ROOT, lookups=1, less=1)
    row.cut('BATCH_FORGET', ROOT, count=2, forgets=[(node(4), 1)])
    row.cut('BATCH_FORGET', ROOT, count=0, forgets=[(node(4), 1)])
    row.cut('BATCH_FORGET', ROOT, count=2 ** 32 - 1)
    row.cut('INTERRUPT', 0, unique=2, less=8)
    row.cut('INIT', 0, major=7, minor=45, less=4)
    row.cut('STATFS', ROOT, more=b'\0')
    for opcode in (0, 7, 19, 37, 63, 4096, 2 ** 32 - 1):
        row.put(messages.HEAD.pack(40, opcode, row.next(), ROOT, 0, 0, 0, 0))
    row.put(messages.HEAD.pack(43, 53, row.next(), 99, 0, 0, 0, 7) + b'any')
    row.look(ROOT, b'folder', b'link', b'file')
    row.ask('GETATTR', ROOT)
    return row


def first_and_last():
    row = Hand('hand.requests', 'the first request and the last', owner=(1000, 100))
    row.ask('INIT', 0, major=8, minor=0, max_readahead=4096, flags=2 ** 32 - 1)
    row.ask('INIT', 0, major=6, minor=40)
    row.ask('INIT', 0, major=7, minor=30, max_readahead=4096, flags=2 ** 32 - 1)
    row.ask('INIT', 0, major=7, minor=31, max_readahead=4096, flags=2 ** 32 - 1)
    row.ask('INIT', 0, major=7, minor=99, max_readahead=0, flags=0)
    row.ask('INIT', 0, major=7, minor=45, max_readahead=131072, flags=0x73fffffb, rest=bytes(48))
    row.ask('GETATTR', ROOT)
    row.ask('GETATTR', SNAPSHOTS)
    row.ask('DESTROY', 0)
    row.ask('GETATTR', ROOT, flags=1, handle=7)
    row.ask('OPENDIR', 99)
    row.ask('RELEASEDIR', 99, handle=4)
    row.ask('OPENDIR', 0, flags=os.O_RDWR)
    for name in ('FSYNC', 'FSYNCDIR', 'FLUSH', 'ACCESS', 'GETXATTR', 'FALLOCATE', 'STATX'):
        row.ask(name, 99)
    row.ask('INTERRUPT', 0, unique=4)
    row.ask('STATFS', 99)
    row.ask('FORGET', ROOT, lookups=2 ** 64 - 1)
    row.ask('BATCH_FORGET', 0)
    row.ask('BATCH_FORGET', 0, count=3, forgets=[(ROOT, 1), (99, 2), (WITHIN, 0)])
    row.ask('GETATTR', ROOT)
    return row


def odd_names():
    row = Hand('hand.requests', 'names that no kernel sends')
    row.ask('MKDIR', ROOT, name=b'd', mode=0o755)
    row.make(b'f', of=node(4))
    row.ask('SYMLINK', ROOT, name=b'l', target=b'd')
    row.look(ROOT, b'd/f', b'd//f', b'd/./f', b'./d', b'd/missing', b'missing/f', b'd/f/g', b'l/f', b'd/', b'/', b'/d', b'd/..', b'..',
             b'.', b'', b'@4/f', b'n' * 255, b'n' * 256, b'd/' + b'n' * 256, b'd/' * 600 + b'f', b'./' * 508 + b'd', b'./' * 510 + b'd')
    row.look(node(4), b'', b'.', b'f')
    row.look(node(5), b'', b'.', b'x')
    row.look(node(6), b'', b'x')
    for name in (b'', b'.', b'..', b'd/', b'd/.', b'd/..', b'n' * 256, b'd/e', b'f/e', b'd/f/e', b'd'):
        row.ask('MKDIR', ROOT, name=name, mode=0o755)
    row.make(b'd/g')
    row.make(b'')
    row.make(b'.')
    row.ask('MKNOD', ROOT, name=b'', mode=FILE)
    row.ask('SYMLINK', ROOT, name=b'', target=b't')
    row.ask('SYMLINK', ROOT, name=b'x', target=b'')
    row.ask('LINK', ROOT, file=node(5), name=b'')
    row.ask('LINK', ROOT, file=node(5), name=b'd/h')
    for name in (b'', b'.', b'..', b'missing', b'd/missing', b'd/h'):
        row.ask('UNLINK', ROOT, name=name)
    for name in (b'', b'.', b'd/.', b'd/e'):
        row.ask('RMDIR', ROOT, name=name)
    row.ask('RENAME', ROOT, new_parent=ROOT, name=b'', new_name=b'x')
    row.ask('RENAME', ROOT, new_parent=ROOT, name=b'd', new_name=b'')
    row.ask('RENAME', ROOT, new_parent=ROOT, name=b'd', new_name=b'd/inner')
    row.ask('RENAME', ROOT, new_parent=ROOT, name=b'l', new_name=b'd/l')
    row.ask('READDIRPLUS', node(4), size=4096)
    row.go(3)
    row.ask('RENAME2', ROOT, new_parent=ROOT, flags=2, name=b'd', new_name=b'e')
    row.ask('RENAME2', ROOT, new_parent=ROOT, flags=1, name=b'd', new_name=b'e')
    row.ask('RENAME2', ROOT, new_parent=ROOT, flags=0, name=b'e', new_name=b'd')
    row.ask('GETATTR', node(4))
    row.ask('GETATTR', ROOT)
    return row


def asked_of(row, of, other=ROOT):
    """One request of each kind, of a node."""
    row.look(of, b'd')
    row.ask('GETATTR', of)
    row.ask('SETATTR', of, valid=UID | MTIME, uid=5, mtime=6)
    row.ask('SETATTR', of, valid=MODE | SIZE, mode=0o600, size=1)
    row.ask('READLINK', of)
    row.ask('SYMLINK', of, name=b'new', target=b't')
    row.ask('MKNOD', of, name=b'new', mode=FILE)
    row.ask('MKDIR', of, name=b'new dir', mode=0o700)
    row.ask('UNLINK', of, name=b'd')
    row.ask('RMDIR', of, name=b'd')
    row.ask('RENAME', of, new_parent=other, name=b'd', new_name=b'e')
    row.ask('RENAME', other, new_parent=of, name=b'd', new_name=b'e')
    row.ask('LINK', of, file=other, name=b'new')
    row.ask('LINK', other, file=of, name=b'new')
    row.ask('OPEN', of, flags=os.O_RDONLY)
    row.ask('OPEN', of, flags=os.O_RDWR)
    row.make(b'new', of=of)
    row.ask('READ', of, handle=77, size=9)
    row.ask('WRITE', of, handle=77, size=1, bytes=b'x')
    row.ask('RELEASE', of, handle=77)
    row.ask('READDIR', of, size=1024)
    row.ask('READDIRPLUS', of, size=1024)
    row.ask('LSEEK', of, whence=DATA)


def nodes_of_nothing():
    row = Hand('hand.requests', 'nodes that lead nowhere')
    row.ask('MKDIR', ROOT, name=b'd', mode=0o755)
    asked_of(row, 0)
    asked_of(row, node(4, 2))
    row.ask('GETATTR', node(4, 0))
    row.ask('GETATTR', node(9, 0))
    row.ask('GETATTR', node(31, 0))
    row.ask('GETATTR', node(32, 0))
    row.ask('GETATTR', 2 ** 32 - 1)
    row.ask('GETATTR', WITHIN - 1)
    row.ask('GETATTR', 2 ** 64 - 1)
    row.ask('GETATTR', node(3, 0))
    row.ask('GETATTR', node(3, 9))
    row.look(node(3, 1), b'd')
    row.ask('SETATTR', node(9, 0), valid=UID, uid=7)
    row.ask('RMDIR', ROOT, name=b'd')
    row.ask('GETATTR', node(4))
    row.ask('MKDIR', ROOT, name=b'e', mode=0o755)
    row.ask('GETATTR', node(4))
    row.ask('SETATTR', node(4), valid=MODE, mode=0o700)
    row.ask('SETATTR', node(4), valid=SIZE, size=0)
    row.ask('GETATTR', node(4))
    row.look(node(4), b'd')
    row.ask('READDIR', node(4), size=1024)
    row.ask('GETATTR', node(4, 2))
    row.ask('BATCH_FORGET', 0, count=2, forgets=[(node(4, 2), 1), (node(4), 1)])
    row.ask('GETATTR', node(4))
    row.ask('SETATTR', node(4), valid=UID, uid=1)
    row.ask('GETATTR', node(4, 2))
    row.again()
    row.ask('GETATTR', node(4, 2))
    row.ask('GETATTR', node(4, 0))
    return row


def folder_of_snapshots():
    row = Hand('hand.requests', 'requests in the folder of snapshots', sizes=(256, 32), owner=(1, 2))
    row.ask('MKDIR', ROOT, name=b'd', mode=0o755)
    row.look(ROOT, b'.snapshot')
    row.look(node(4), b'.snapshot')
    asked_of(row, SNAPSHOTS)
    row.go(9)
    for name in (b'', b'.', b'..', b'two words', b'a/b', b'n' * 64, b'n' * 63, b'a', b'a'):
        row.ask('MKDIR', SNAPSHOTS, name=name, mode=0o700)
    row.look(SNAPSHOTS, b'a', b'b', b'', b'n' * 63)
    row.ask('READDIR', SNAPSHOTS, size=4096)
    row.ask('READDIRPLUS', SNAPSHOTS, size=4096)
    for behind in (0, 1, 2, 9):
        row.ask('READDIR', SNAPSHOTS, size=64, offset=behind)
    row.ask('READDIRPLUS', SNAPSHOTS, size=400, offset=2)
    row.ask('READDIR', SNAPSHOTS, size=4096, offset=2 ** 63)
    row.ask('RMDIR', SNAPSHOTS, name=b'missing')
    row.ask('RMDIR', SNAPSHOTS, name=b'n' * 63)
    row.ask('MKDIR', SNAPSHOTS, name=b'n' * 63, mode=0)
    row.ask('READDIR', SNAPSHOTS, size=4096)
    row.again()
    row.ask('READDIR', SNAPSHOTS, size=4096)
    row.look(SNAPSHOTS, b'a', b'n' * 63)
    return row


def in_a_snapshot():
    row = Hand('hand.requests', 'requests in a snapshot', sizes=(256, 32))
    row.ask('MKDIR', ROOT, name=b'd', mode=0o751)
    row.make(b'f')
    row.write(node(5), 0, b'bytes of then' * 700)
    row.ask('SYMLINK', node(4), name=b'l', target=b'../f')
    row.ask('LINK', node(4), file=node(5), name=b'second')
    row.ask('MKDIR', SNAPSHOTS, name=b's', mode=0o755)
    row.write(node(5), 0, b'other bytes')
    asked_of(row, within(0))
    asked_of(row, within(0, 5), node(4))
    row.ask('READDIRPLUS', ROOT, size=1024)
    return row


def read_in_a_snapshot():
    row = Hand('hand.requests', 'reading in a snapshot', sizes=(256, 32), owner=(3, 3))
    row.ask('MKDIR', ROOT, name=b'd', mode=0o751)
    row.make(b'f')
    row.write(node(5), 0, b'bytes of then' * 700)
    row.ask('SYMLINK', node(4), name=b'l', target=b'../f')
    row.ask('LINK', node(4), file=node(5), name=b'second')
    row.ask('MKDIR', SNAPSHOTS, name=b's', mode=0o755)
    row.write(node(5), 0, b'other bytes')
    asked_of(row, within(1))
    row.look(within(0), b'd', b'f', b'missing', b'd/l', b'n' * 256)
    row.look(within(0, 4), b'l', b'second')
    row.ask('GETATTR', within(0, 9))
    row.ask('GETATTR', within(0, 2 ** 32 - 1))
    row.ask('READLINK', within(0, 6))
    row.ask('READLINK', within(0, 4))
    row.ask('READ', within(0, 5), size=20)
    row.ask('READ', within(0, 5), offset=9090, size=4096)
    row.ask('READ', within(0, 5), offset=2 ** 63, size=4096)
    row.ask('READ', within(0, 4), size=1)
    row.ask('READ', within(0, 6), size=1)
    row.ask('READ', within(0, 9), size=1)
    row.ask('OPEN', within(0, 5), flags=os.O_WRONLY)
    row.ask('READDIRPLUS', within(0), size=4096, offset=2)
    row.ask('READDIRPLUS', within(0, 4), size=4096, offset=2)
    row.ask('READDIR', within(0, 5), size=4096, offset=2)
    return row


def handles():
    row = Hand('hand.requests', 'handles')
    for name in (b'a', b'b', b'c'):
        row.make(name, user=3, group=4)
    row.write(node(5), 1, b'0123456789')
    row.ask('RELEASE', node(4), handle=0)
    row.ask('RELEASE', node(4), handle=0)
    row.ask('OPEN', node(6), flags=os.O_RDONLY)
    row.ask('OPEN', node(6), flags=os.O_WRONLY | os.O_APPEND)
    row.ask('MKNOD', ROOT, name=b'd', mode=0o100604, user=5, group=6)
    row.ask('MKNOD', ROOT, name=b'd', mode=FILE)
    row.ask('MKNOD', ROOT, name=b'e', mode=FIFO)
    row.ask('MKNOD', ROOT, name=b'e', mode=0o644)
    row.make(b'e')
    row.make(b'a')
    row.ask('MKDIR', ROOT, name=b'f', mode=0o755)
    row.ask('SYMLINK', ROOT, name=b'l', target=b'a')
    for name in (b'f', b'l'):
        row.ask('CREATE', ROOT, name=name, mode=FILE, flags=os.O_RDWR | os.O_CREAT)
        row.make(name)
    row.ask('OPEN', node(9))
    row.ask('OPEN', node(10))
    for handle in (0, 1, 4, 5, 65535, 65536, 2 ** 32 - 1, 2 ** 32, 2 ** 32 + 1, 2 ** 64 - 1):
        row.ask('READ', node(5), handle=handle, offset=3, size=4)
    row.ask('READ', node(5), handle=1, offset=3, size=4096)
    row.ask('READ', node(5), handle=1, offset=10, size=4096)
    row.ask('READ', node(5), handle=1, offset=2 ** 63 - 1, size=4096)
    row.ask('READ', node(5), handle=1, offset=2 ** 63, size=4096)
    row.ask('READ', node(5), handle=99, offset=0, size=0)
    row.go(5)
    row.write(node(5), 99, b'x')
    row.write(node(5), 2 ** 32 + 1, b'x')
    row.write(node(5), 1, b'x', offset=2 ** 36)
    row.write(node(5), 1, b'x', offset=2 ** 63)
    row.write(node(5), 1, b'xy', offset=2 ** 64 - 1)
    row.write(node(5), 1, b'y' * 65536 + b'zz', offset=2 ** 36 - 65537)
    row.ask('GETATTR', node(5))
    row.go(5)
    row.write(node(5), 1, b'y' * 65536 + b'zz', offset=2 ** 36 - 65536)
    row.ask('GETATTR', node(5))
    row.ask('READ', node(5), handle=1, offset=2 ** 36 - 100, size=4096)
    row.ask('RELEASE', node(5), handle=2 ** 32 + 1)
    row.again()
    row.ask('READ', node(5, 0), handle=1, size=4)
    row.ask('OPEN', node(5, 0))
    row.ask('READ', node(5, 0), handle=0, size=4)
    return row


def listings():
    row = Hand('hand.requests', 'listings in parts')
    names = [b'a', b'eight888', b'nine99999', b'n' * 255, b'sixteen16sixteen', b'z']
    for name in names:
        row.ask('MKDIR', ROOT, name=name, mode=0o755)
    row.make(b'file')
    row.ask('SYMLINK', ROOT, name=b'link', target=b'to')
    row.ask('OPENDIR', ROOT)
    names = sorted(names + [b'file', b'link'], key=cookie_of)
    for size in (4096, 512, 96, 64, 32):
        row.ask('READDIR', ROOT, size=size)
    row.ask('READDIR', ROOT, size=4096, offset=1)
    for name in [b''] + names:
        behind = cookie_of(name) if name else 2
        row.ask('READDIR', ROOT, size=128, offset=behind)
    for size in (8192, 1024, 400, 320):
        row.ask('READDIRPLUS', ROOT, size=size)
    for name in [b''] + names:
        behind = cookie_of(name) if name else 2
        row.ask('READDIRPLUS', ROOT, size=500, offset=behind)
    row.ask('READDIR', ROOT, size=4096, offset=cookie_of(names[2]) - 1)
    row.ask('READDIR', ROOT, size=4096, offset=cookie_of(names[2]) + 1)
    row.ask('READDIR', ROOT, size=31, offset=2)
    row.ask('READDIRPLUS', ROOT, size=159, offset=2)
    row.ask('READDIR', ROOT, size=4096, offset=2 ** 63 - 1)
    row.ask('READDIR', ROOT, size=4096, offset=2 ** 63)
    row.ask('READDIR', ROOT, size=4096, offset=2 ** 64 - 1)
    row.ask('READDIR', node(4), size=4096)
    row.ask('READDIRPLUS', node(10), size=4096)
    row.ask('READDIR', node(11), size=4096)
    return row


def attributes():
    row = Hand('hand.requests', 'attributes set together', owner=(8, 9))
    row.make(b'f', user=10, group=11)
    row.ask('MKDIR', ROOT, name=b'd', mode=0o7777, user=10, group=11)
    row.ask('SYMLINK', ROOT, name=b'l', target=b't' * 5000)
    row.ask('SYMLINK', ROOT, name=b'l', target=b't' * 1000)
    every = dict(mode=0o106741, uid=20, gid=21, size=5000, atime=22, atime_ns=23, mtime=24, mtime_ns=25)
    for valid in (0, MODE, UID, GID, SIZE, ATIME, MTIME, ATIME | ATIME_NOW, MTIME | MTIME_NOW, ATIME_NOW | MTIME_NOW,
                  SIZE | MTIME, MODE | SIZE | UID | GID | ATIME | MTIME, 2 ** 6 | 2 ** 9 | 2 ** 10 | 2 ** 11):
        row.go(4)
        row.ask('SETATTR', node(4), valid=valid, ctime=99, ctime_ns=98, handle=1, **every)
    row.go(4)
    for size in (0, 1, 128, 129, 4096, 2 ** 36, 2 ** 36 + 1, 2 ** 63 - 1, 2 ** 63, 2 ** 64 - 1, 129, 128):
        row.ask('SETATTR', node(4), valid=SIZE, size=size)
    row.ask('SETATTR', node(4), valid=MODE | SIZE, mode=0o600, size=2 ** 36 + 1)
    row.ask('SETATTR', node(4), valid=UID | SIZE, uid=1, size=2 ** 63)
    row.ask('GETATTR', node(4))
    row.ask('SETATTR', node(5), valid=MODE, mode=0o040700)
    row.ask('SETATTR', node(5), valid=SIZE, size=0)
    row.ask('SETATTR', node(5), valid=MODE | SIZE | UID, mode=0, size=0, uid=3)
    row.ask('SETATTR', node(6), valid=MODE, mode=0o700)
    row.ask('SETATTR', node(6), valid=SIZE, size=1)
    row.ask('SETATTR', node(6), valid=UID | ATIME, uid=2 ** 32 - 1, atime=2 ** 63, atime_ns=999999999)
    row.ask('SETATTR', ROOT, valid=MODE | GID, mode=0o2755, gid=30)
    row.go(4)
    row.ask('MKDIR', ROOT, name=b'inherits', mode=0o750, user=31, group=32)
    row.make(b'file', user=31, group=32)
    row.ask('SYMLINK', ROOT, name=b'k', target=b't', user=31, group=32)
    row.ask('GETATTR', ROOT)
    row.again()
    row.look(ROOT, b'f', b'd', b'l', b'inherits')
    row.ask('MKDIR', ROOT, name=b'more', mode=0o755, user=31, group=32)
    return row


def transfers():
    row = Hand('hand.requests', 'the greatest transfers, and one that has room in part', sizes=(512, 32))
    row.make(b'f')
    row.go(1)
    row.write(node(4), 0, b'a' * 1000000 + b'b' * 48576)
    row.ask('GETATTR', node(4))
    row.ask('READ', node(4), size=1048576)
    row.ask('READ', node(4), offset=999990, size=1048576)
    row.ask('SETATTR', node(4), valid=SIZE, size=3000000)
    row.ask('READ', node(4), offset=1048570, size=1048576)
    row.ask('READ', node(4), offset=2000000, size=1048576)
    row.make(b'g')
    row.go(1)
    row.write(node(5), 1, b'c' * 1048576)
    row.ask('GETATTR', node(5))
    row.go(1)
    row.write(node(5), 1, b'd' * 65536)
    row.write(node(5), 1, b'd' * 65536, offset=1000000)
    row.ask('GETATTR', node(5))
    row.ask('STATFS', ROOT)
    return row


def numbers_run_out():
    row = Hand('hand.requests', 'numbers run out')
    for index in range(28):
        row.ask('MKNOD', ROOT, name=b'n%d' % index, mode=FILE)
    for kind in ('MKDIR', 'SYMLINK', 'CREATE'):
        row.ask(kind, ROOT, mode=FILE, name=b'more', **({'target': b't'} if kind == 'SYMLINK' else {}))
    row.ask('LINK', ROOT, file=node(9), name=b'more')
    row.ask('STATFS', ROOT)
    row.look(ROOT, b'n5', b'n28')
    return row


def seeks():
    row = Hand('hand.requests', 'seeks')
    row.make(b'f')
    row.write(node(4), 0, b'x', offset=4096)
    row.ask('SETATTR', node(4), valid=SIZE, size=9000)
    for offset in (0, 4095, 4096, 8191, 8192, 8999, 9000, 2 ** 63 - 1, 2 ** 63, 2 ** 64 - 1):
        row.ask('LSEEK', node(4), offset=offset, whence=DATA)
        row.ask('LSEEK', node(4), offset=offset, whence=HOLE, handle=99)
    for whence in (0, 1, 2, 5, 2 ** 32 - 1):
        row.ask('LSEEK', node(4), whence=whence)
    row.ask('LSEEK', node(4), offset=9000, whence=0)
    row.ask('SETATTR', node(4), valid=SIZE, size=0)
    row.ask('LSEEK', node(4), whence=DATA)
    row.ask('LSEEK', node(4), whence=HOLE)
    row.ask('SETATTR', node(4), valid=SIZE, size=100)
    row.ask('LSEEK', node(4), whence=HOLE)
    row.ask('SYMLINK', ROOT, name=b'l', target=b'f')
    for number in (1, 2, 5):
        row.ask('LSEEK', ROOT if number == 1 else node(number, 0) if number == 2 else node(number), whence=DATA)
    return row


WRITTEN = [no_requests, first_and_last, odd_names, nodes_of_nothing, folder_of_snapshots, in_a_snapshot, read_in_a_snapshot,
           handles, transfers, numbers_run_out, listings, attributes, seeks,
           name_of_the_folder, name_elsewhere, directory_below_it, file_below_it, numbers_in_snapshots,
           held_files, set_without_name, refused_removals]


def rows_by_hand(file):
    """The rows of a file."""
    return [row.row() for row in (write() for write in WRITTEN) if row.file == file]
