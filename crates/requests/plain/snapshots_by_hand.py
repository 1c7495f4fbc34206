"""Rows about the folder of snapshots that no kernel sends, or seldom."""

import os

from hand import FIFO, FILE, ROOT, SNAPSHOTS, Hand, node, within
from tree import cookie_of

NAME = b'.snapshot'


def made_there(row, of=ROOT):
    """Each request that makes a name asks for the one of the folder of snapshots."""
    row.ask('MKDIR', of, name=NAME, mode=0o755)
    row.make(NAME, of=of)
    row.ask('CREATE', of, name=NAME, mode=FILE, flags=os.O_RDWR | os.O_CREAT)
    row.ask('MKNOD', of, name=NAME, mode=FILE)
    row.ask('MKNOD', of, name=NAME, mode=FIFO)
    for target in (b'd', b'', b't' * 2000):
        row.ask('SYMLINK', of, name=NAME, target=target)


def taken_there(row, of=ROOT):
    """Each that takes one away or moves it, of and onto that name."""
    row.ask('UNLINK', of, name=NAME)
    row.ask('RMDIR', of, name=NAME)
    row.ask('RENAME', of, new_parent=of, name=NAME, new_name=b'x')
    row.ask('RENAME', of, new_parent=of, name=b'd', new_name=NAME)
    row.ask('RENAME', of, new_parent=of, name=NAME, new_name=NAME)
    for flags in (0, 1, 2, 3, 4):
        row.ask('RENAME2', of, new_parent=of, flags=flags, name=NAME, new_name=b'x')
        row.ask('RENAME2', of, new_parent=of, flags=flags, name=b'f', new_name=NAME)


def name_of_the_folder():
    row = Hand('hand.requests', 'the name of the folder of snapshots', sizes=(256, 32), owner=(7, 8))
    row.ask('MKDIR', ROOT, name=b'd', mode=0o755)
    row.make(b'f')
    row.look(ROOT, NAME)
    row.go(5)
    made_there(row)
    made_there(row, node(3, 9))
    for file in (node(5), node(4), ROOT, node(9, 0), node(5, 2), SNAPSHOTS, within(0)):
        row.ask('LINK', ROOT, file=file, name=NAME)
    taken_there(row)
    taken_there(row, node(3, 9))
    row.ask('RENAME', ROOT, new_parent=node(4), name=NAME, new_name=b'x')
    row.ask('RENAME', ROOT, new_parent=node(4), name=NAME, new_name=NAME)
    row.ask('RENAME', node(4), new_parent=ROOT, name=b'missing', new_name=NAME)
    row.ask('RENAME', ROOT, new_parent=ROOT, name=b'missing', new_name=NAME)
    row.ask('RENAME', ROOT, new_parent=ROOT, name=NAME, new_name=b'n' * 256)
    row.ask('RENAME', ROOT, new_parent=ROOT, name=b'', new_name=NAME)
    row.ask('RENAME', ROOT, new_parent=node(4), name=NAME, new_name=b'.')
    row.ask('RENAME', ROOT, new_parent=node(5), name=NAME, new_name=b'x')
    for to in (SNAPSHOTS, within(0), node(4, 2)):
        row.ask('RENAME', ROOT, new_parent=to, name=NAME, new_name=b'x')
        row.ask('RENAME2', ROOT, new_parent=to, flags=2, name=NAME, new_name=b'x')
        row.ask('RENAME', to, new_parent=ROOT, name=b'd', new_name=NAME)
    row.ask('READDIRPLUS', ROOT, size=4096)
    row.ask('GETATTR', ROOT)
    row.ask('GETATTR', node(5))
    row.ask('STATFS', ROOT)
    return row


def name_elsewhere():
    row = Hand('hand.requests', 'the same name elsewhere', sizes=(256, 32))
    row.ask('MKDIR', ROOT, name=b'd', mode=0o755)
    row.make(b'f')
    row.look(node(4), NAME)
    row.ask('MKDIR', node(4), name=NAME, mode=0o700)
    row.look(node(4), NAME)
    row.ask('READDIRPLUS', node(4), size=1024)
    row.ask('RENAME', node(4), new_parent=ROOT, name=NAME, new_name=NAME)
    row.ask('RENAME', node(4), new_parent=ROOT, name=NAME, new_name=b'moved')
    row.ask('RENAME', ROOT, new_parent=node(4), name=b'moved', new_name=NAME)
    row.ask('RMDIR', node(4), name=NAME)
    row.ask('LINK', node(4), file=node(5), name=NAME)
    row.ask('RENAME', node(4), new_parent=ROOT, name=NAME, new_name=NAME)
    row.ask('UNLINK', node(4), name=NAME)
    row.ask('SYMLINK', node(4), name=NAME, target=b't')
    for name in (b'.snapsho', b'.snapshots', b'snapshot', b'.Snapshot'):
        row.ask('MKDIR', ROOT, name=name, mode=0o755)
        row.ask('RMDIR', ROOT, name=name)
    row.ask('MKDIR', SNAPSHOTS, name=NAME, mode=0o755)
    row.look(SNAPSHOTS, NAME)
    row.look(within(0), NAME)
    row.look(within(0, 4), NAME)
    row.ask('MKDIR', within(0), name=NAME, mode=0o755)
    row.ask('RMDIR', within(0), name=NAME)
    row.ask('RENAME', within(0), new_parent=ROOT, name=NAME, new_name=b'x')
    row.ask('READDIRPLUS', within(0, 4), size=1024)
    row.ask('RENAME', SNAPSHOTS, new_parent=ROOT, name=NAME, new_name=NAME)
    row.ask('RMDIR', SNAPSHOTS, name=NAME)
    row.look(SNAPSHOTS, NAME)
    return row


def directory_below_it():
    row = Hand('hand.requests', 'a directory of the image has the name of the folder of snapshots', sizes=(256, 32), owner=(5, 6),
               before=['mkdir /.snapshot 0750', 'mkdir /.snapshot/in 0700', 'mkdir /d', 'mkdir /d/.snapshot', 'open /f rwcx', 'close 0'])
    row.look(ROOT, NAME, b'd', b'f')
    row.look(node(6, 0), NAME)
    row.ask('GETATTR', node(4, 0))
    row.look(node(4, 0), b'in')
    row.ask('READDIR', ROOT, size=4096)
    row.ask('READDIRPLUS', ROOT, size=4096)
    row.ask('READDIRPLUS', node(3, 9), size=4096)
    row.ask('READDIRPLUS', node(6, 0), size=4096)
    row.ask('READDIRPLUS', node(4, 0), size=4096)
    place = cookie_of(NAME)
    for size in (168, 167, 168 + 152, 168 + 151):
        row.ask('READDIRPLUS', ROOT, size=size, offset=place - 1)
    row.ask('READDIRPLUS', ROOT, size=4096, offset=place)
    row.ask('READDIR', ROOT, size=40, offset=place - 1)
    row.go(5)
    made_there(row)
    row.ask('LINK', ROOT, file=node(8, 0), name=NAME)
    taken_there(row)
    row.ask('RENAME', node(6, 0), new_parent=ROOT, name=NAME, new_name=NAME)
    row.ask('RENAME', ROOT, new_parent=node(4, 0), name=b'd', new_name=b'in')
    row.ask('GETATTR', ROOT)
    row.ask('MKDIR', SNAPSHOTS, name=b's', mode=0o755)
    row.look(within(0), NAME)
    row.look(within(0, 4), b'in')
    row.ask('READDIR', within(0), size=4096)
    row.ask('READDIRPLUS', within(0), size=4096)
    row.ask('STATFS', ROOT)
    row.again()
    row.ask('READDIRPLUS', ROOT, size=4096)
    row.look(ROOT, NAME)
    row.ask('RMDIR', ROOT, name=NAME)
    return row


def file_below_it():
    row = Hand('hand.requests', 'a file of the image has the name of the folder of snapshots', owner=(5, 6),
               before=['open /.snapshot rwcx 0640', 'pwrite 0 0 68656c6c6f', 'link /.snapshot /other', 'close 0'])
    row.look(ROOT, NAME, b'other')
    row.ask('READDIR', ROOT, size=4096)
    row.ask('READDIRPLUS', ROOT, size=4096)
    row.go(5)
    made_there(row)
    row.ask('LINK', ROOT, file=node(4, 0), name=NAME)
    row.ask('RENAME', ROOT, new_parent=ROOT, name=b'other', new_name=NAME)
    row.ask('RENAME', ROOT, new_parent=ROOT, name=NAME, new_name=b'other')
    row.ask('UNLINK', ROOT, name=NAME)
    row.ask('OPEN', node(4, 0), flags=os.O_RDWR)
    row.ask('READ', node(4, 0), handle=0, size=9)
    row.write(node(4, 0), 0, b'b' * 200)
    row.ask('UNLINK', ROOT, name=b'other')
    row.ask('GETATTR', node(4, 0))
    row.ask('RELEASE', node(4, 0), handle=0)
    row.ask('UNLINK', ROOT, name=NAME)
    row.ask('READDIRPLUS', ROOT, size=4096)
    row.ask('STATFS', ROOT)
    return row


def numbers_in_snapshots():
    row = Hand('hand.requests', 'the numbers of directories in snapshots', sizes=(256, 32))
    row.ask('MKDIR', ROOT, name=b'd', mode=0o755)
    row.ask('MKDIR', node(4), name=b'e', mode=0o755)
    row.make(b'f')
    for name in (b'a', b'b', b'c'):
        row.ask('MKDIR', SNAPSHOTS, name=name, mode=0o755)
    row.ask('RMDIR', SNAPSHOTS, name=b'b')
    for of in (within(0), within(2), within(0, 4), within(2, 4), within(2, 5), within(1), within(0, 6), within(0, 9)):
        row.ask('GETATTR', of)
        row.ask('READDIR', of, size=4096)
        row.ask('READDIRPLUS', of, size=4096)
    for size in (31, 32, 63, 64, 96):
        row.ask('READDIR', within(2, 4), size=size)
    for size in (159, 160, 319, 320, 480):
        row.ask('READDIRPLUS', within(2, 4), size=size)
    for behind in (1, 2, cookie_of(b'e'), 2 ** 63):
        row.ask('READDIR', within(2, 4), size=4096, offset=behind)
    row.again()
    row.ask('READDIR', within(1), size=4096)
    row.ask('READDIR', within(1, 4), size=4096)
    row.ask('READDIRPLUS', within(1, 4), size=4096)
    row.ask('READDIR', within(2), size=4096)
    return row
