"""Small programs that run in a mounted folder, for the recorder: each is one row, whose parts are the sessions between two mounts.

`now.go(SECONDS)` moves the clock on; by then the server has answered all that was sent.
"""

import ctypes
import errno
import os
import stat

from calling import LIBC, RENAME_EXCHANGE, RENAME_NOREPLACE, make, names, refused, renameat2, whole
from removals import removed_open, removed_opened_again, removed_others, replaced

USER, GROUP = 1000, 1000


class Program:
    """A row: the file that it stands in, its title, the image's blocks and inodes, its sessions, and the commands before these."""

    def __init__(self, file, title, sizes, *sessions, before=()):
        self.file, self.title, self.sizes, self.sessions, self.before = file, title, sizes, sessions, before


# Files


def write_and_read(now):
    descriptor = os.open('note', os.O_RDWR | os.O_CREAT | os.O_EXCL, 0o640)
    os.write(descriptor, b'hello, kernel\n')
    now.go(1)
    os.pwrite(descriptor, b'HELLO', 0)
    assert os.fstat(descriptor).st_size == 14
    now.go(1)
    os.pwrite(descriptor, b'end', 300)
    os.fsync(descriptor)
    os.close(descriptor)
    refused(errno.EEXIST, os.open, 'note', os.O_RDWR | os.O_CREAT | os.O_EXCL)
    now.go(1)
    descriptor = os.open('note', os.O_WRONLY | os.O_APPEND)
    os.write(descriptor, b'!')
    os.close(descriptor)
    os.truncate('note', 305)
    now.go(1)
    make('empty')
    make('note', b'anew')
    assert whole('note')[:8] == b'anewO, k'


def read_again(_now):
    assert whole('note')[300:304] == b'end!'
    assert whole('empty') == b''
    assert os.stat('note').st_mode == 0o100640
    descriptor = os.open('note', os.O_WRONLY | os.O_TRUNC)
    os.write(descriptor, b'short')
    os.close(descriptor)


# Directories


def directories(now):
    os.mkdir('a', 0o750)
    os.mkdir('a/b')
    now.go(5)
    os.mkdir('a/b/c', 0o700)
    make('a/b/file', b'1')
    assert [name for name, _ in names('a/b')] == ['c', 'file']
    refused(errno.ENOTEMPTY, os.rmdir, 'a/b')
    refused(errno.EEXIST, os.mkdir, 'a')
    now.go(5)
    os.rmdir('a/b/c')
    refused(errno.ENOENT, os.rmdir, 'a/b/c')
    assert names('a') == [('b', 5)]
    os.mkdir('a/again')
    assert os.stat('a/again').st_ino == 6
    refused(errno.ENOTDIR, os.rmdir, 'a/b/file')
    now.go(5)
    held = os.open('a/again', os.O_RDONLY | os.O_DIRECTORY)
    os.rmdir('a/again')
    now.go(5)
    assert os.fstat(held).st_nlink == 0
    assert os.stat('a').st_mtime == os.fstat(held).st_ctime
    os.close(held)


def directories_again(_now):
    assert names() == [('a', 4)]
    assert [name for name, _ in names('a/b')] == ['file']
    assert os.stat('a').st_mode == 0o40750


# Names


def renames(now):
    os.mkdir('from')
    os.mkdir('to')
    make('from/file', b'bytes')
    now.go(2)
    os.rename('from/file', 'from/other')
    now.go(2)
    os.rename('from/other', 'to/file')
    os.mkdir('from/directory')
    now.go(2)
    os.rename('from/directory', 'to/directory')
    refused(errno.EEXIST, renameat2, 'to/directory', 'from', RENAME_NOREPLACE)
    renameat2('to/directory', 'moved', RENAME_NOREPLACE)
    refused(errno.EINVAL, renameat2, 'moved', 'from', RENAME_EXCHANGE)
    refused(errno.ENOTEMPTY, os.rename, 'moved', 'to')
    now.go(2)
    os.rename('moved', 'from')
    refused(errno.ENOENT, os.stat, 'moved')
    refused(errno.EISDIR, os.rename, 'to/file', 'from')
    assert whole('to/file') == b'bytes'
    now.go(2)
    os.rename('to', 'from/to')
    assert names('from') == [('to', 5)]
    assert os.stat('from/to/file').st_ctime < os.stat('from/to').st_ctime


def links(now):
    make('file', b'one file')
    now.go(3)
    os.link('file', 'other')
    os.mkdir('d')
    os.link('other', 'd/third')
    assert os.stat('file').st_nlink == 3
    now.go(3)
    os.unlink('other')
    assert os.stat('d/third').st_nlink == 2
    os.symlink('d/third', 'link')
    os.symlink('x' * 200, 'd/long')
    os.symlink('nowhere', 'hanging')
    assert os.readlink('link') == 'd/third' and whole('link') == b'one file'
    assert len(os.readlink('d/long')) == 200
    refused(errno.ENOENT, os.stat, 'hanging')
    now.go(3)
    refused(errno.EPERM, os.link, 'link', 'second', follow_symlinks=False)
    refused(errno.ENAMETOOLONG, os.symlink, 'y' * 1024, 'longer')
    refused(errno.EEXIST, os.symlink, 'z', 'file')
    os.chown('link', USER, GROUP, follow_symlinks=False)
    os.utime('link', (1000, 2000), follow_symlinks=False)
    assert os.lstat('link').st_uid == USER
    os.symlink('y' * 1023, 'longest')


def links_again(_now):
    assert names('d') == [('long', 7), ('third', 4)]
    assert len(os.readlink('longest')) == 1023
    assert os.lstat('link').st_uid == 0
    assert whole('link') == b'one file'


# Marks


def marks(now):
    make('file', mode=0o600)
    now.go(10)
    os.chmod('file', 0o4755)
    os.chown('file', USER, -1)
    now.go(10)
    os.utime('file', ns=(1700000000123456789, 1600000000987654321))
    assert os.stat('file').st_mtime_ns == 1600000000987654321
    now.go(10)
    os.utime('file')
    os.mkdir('team')
    os.chown('team', -1, GROUP)
    os.chmod('team', 0o2777)
    now.go(10)
    os.setegid(2000)
    os.seteuid(USER)
    os.mkdir('team/inner', 0o755)
    make('team/inner/file', b'x')
    os.symlink('to', 'team/link')
    refused(errno.EPERM, os.chmod, 'team', 0o700)
    refused(errno.EACCES, make, 'denied')
    os.seteuid(0)
    os.setegid(0)
    assert os.stat('team/inner').st_gid == GROUP and os.stat('team/inner').st_mode == 0o42755
    assert os.stat('team/inner/file').st_uid == USER
    now.go(10)
    descriptor = os.open('team/inner/file', os.O_RDWR)
    os.fchmod(descriptor, 0o6775)
    os.fchown(descriptor, 5, 6)
    os.ftruncate(descriptor, 3)
    os.utime(descriptor, (3, 4))
    os.close(descriptor)


def marks_again(_now):
    found = os.stat('team/inner/file')
    assert (found.st_uid, found.st_gid, found.st_size) == (0, 0, 3)
    assert stat.S_IMODE(os.stat('file').st_mode) == 0o755
    assert names('team') == [('inner', 6), ('link', 8)]


# Holes and sizes


def holes(now):
    descriptor = os.open('sparse', os.O_RDWR | os.O_CREAT)
    os.ftruncate(descriptor, 40000)
    assert os.fstat(descriptor).st_blocks == 0
    now.go(1)
    os.pwrite(descriptor, b'data', 8192)
    os.pwrite(descriptor, b'more', 24574)
    assert os.fstat(descriptor).st_blocks == 24
    assert os.lseek(descriptor, 0, os.SEEK_DATA) == 8192
    assert os.lseek(descriptor, 8192, os.SEEK_HOLE) == 12288
    assert os.lseek(descriptor, 12288, os.SEEK_DATA) == 20480
    assert os.lseek(descriptor, 21000, os.SEEK_HOLE) == 28672
    refused(errno.ENXIO, os.lseek, descriptor, 28672, os.SEEK_DATA)
    assert os.lseek(descriptor, 28672, os.SEEK_HOLE) == 28672
    refused(errno.ENXIO, os.lseek, descriptor, 40000, os.SEEK_HOLE)
    now.go(1)
    os.ftruncate(descriptor, 8194)
    os.ftruncate(descriptor, 9000)
    assert os.pread(descriptor, 10, 8190) == b'\0\0da\0\0\0\0\0\0'
    assert os.lseek(descriptor, 8200, os.SEEK_HOLE) == 9000
    os.ftruncate(descriptor, 100)
    assert os.fstat(descriptor).st_blocks == 8
    os.ftruncate(descriptor, 0)
    os.ftruncate(descriptor, 5000)
    assert os.fstat(descriptor).st_blocks == 0
    refused(errno.EFBIG, os.ftruncate, descriptor, 2 ** 36 + 1)
    os.ftruncate(descriptor, 2 ** 36)
    assert os.lseek(descriptor, 2 ** 36 - 1, os.SEEK_HOLE) == 2 ** 36 - 1
    assert os.pwrite(descriptor, b'zz', 2 ** 36 - 1) == 1
    refused(errno.EFBIG, os.pwrite, descriptor, b'z', 2 ** 36)
    os.close(descriptor)


def holes_again(_now):
    found = os.stat('sparse')
    assert (found.st_size, found.st_blocks) == (2 ** 36, 8)
    descriptor = os.open('sparse', os.O_RDONLY)
    assert os.pread(descriptor, 4096, 2 ** 36 - 3) == b'\0\0z'
    assert os.lseek(descriptor, 0, os.SEEK_DATA) == 2 ** 36 - 4096
    os.close(descriptor)


def large(now):
    descriptor = os.open('large', os.O_RDWR | os.O_CREAT)
    os.write(descriptor, b'a' * 70000 + b'b' * 80000)
    now.go(1)
    os.pwrite(descriptor, b'c' * 5000, 65000)
    os.close(descriptor)


def large_again(now):
    data = whole('large')
    assert data == b'a' * 65000 + b'c' * 5000 + b'b' * 80000
    now.go(1)
    os.truncate('large', 65537)
    descriptor = os.open('large', os.O_RDWR)
    assert os.pread(descriptor, 4096, 65530) == b'c' * 7
    os.close(descriptor)


# Refusals


def refusals(now):
    refused(errno.ENOENT, os.stat, 'missing')
    refused(errno.ENOENT, os.unlink, 'missing')
    refused(errno.ENAMETOOLONG, os.mkdir, 'n' * 256)
    os.mkdir('n' * 255)
    refused(errno.ENAMETOOLONG, os.stat, 'm' * 1000)
    refused(errno.EPERM, os.mkfifo, 'fifo')
    refused(errno.EPERM, os.mknod, 'device', 0o600 | stat.S_IFCHR, os.makedev(1, 3))
    os.mknod('node', 0o604 | stat.S_IFREG)
    refused(errno.ENOTSUP, os.setxattr, 'node', 'user.a', b'b')
    refused(errno.ENOTSUP, os.listxattr, 'node')
    descriptor = os.open('node', os.O_RDWR)
    assert LIBC.fallocate(descriptor, 3, ctypes.c_long(0), ctypes.c_long(4096)) == -1 and ctypes.get_errno() == errno.ENOTSUP
    os.close(descriptor)
    now.go(1)
    refused(errno.ENOTSUP, os.open, '.', os.O_TMPFILE | os.O_RDWR)
    refused(errno.EISDIR, os.unlink, 'n' * 255)
    refused(errno.EISDIR, os.open, 'n' * 255, os.O_RDWR)
    refused(errno.ENOTDIR, os.stat, 'node/below')
    refused(errno.EEXIST, os.symlink, 'x', 'node')
    refused(errno.EEXIST, os.link, 'node', 'n' * 255)
    os.access('node', os.R_OK)
    assert len(names()) == 2


# Snapshots


def snapshots(now):
    os.mkdir('d')
    make('d/file', b'as it was', 0o600)
    os.symlink('d/file', 'link')
    now.go(60)
    os.mkdir('.snapshot/first')
    refused(errno.EEXIST, os.mkdir, '.snapshot/first')
    refused(errno.EINVAL, os.mkdir, '.snapshot/two words')
    descriptor = os.open('d/file', os.O_WRONLY)
    os.pwrite(descriptor, b'is', 3)
    os.close(descriptor)
    os.mkdir('later')
    now.go(60)
    os.mkdir('.snapshot/second')
    assert [name for name, _ in names('.snapshot')] == ['first', 'second']
    assert [name for name, _ in names('.snapshot/first')] == ['d', 'link']
    assert whole('.snapshot/first/d/file') == b'as it was'
    assert whole('.snapshot/second/d/file') == b'as is was'
    assert os.readlink('.snapshot/first/link') == 'd/file'
    assert os.stat('.snapshot/first/d/file').st_mode == 0o100600
    refused(errno.EROFS, os.mkdir, '.snapshot/first/new')
    refused(errno.EROFS, os.chmod, '.snapshot/first/d', 0o700)
    refused(errno.EROFS, os.open, '.snapshot/first/d/file', os.O_RDWR)
    refused(errno.EROFS, make, '.snapshot/file')
    os.rmdir('.snapshot/first')
    refused(errno.ENOENT, os.rmdir, '.snapshot/first')
    os.mkdir('.snapshot/first')
    assert [name for name, _ in names('.snapshot/first')] == ['d', 'later', 'link']


def snapshots_again(_now):
    assert [name for name, _ in names('.snapshot')] == ['first', 'second']
    assert [name for name, _ in names('.snapshot/second')] == ['d', 'later', 'link']
    held = os.open('.snapshot/second/d', os.O_RDONLY | os.O_DIRECTORY)
    os.rmdir('.snapshot/second')
    refused(errno.ESTALE, os.listdir, held)
    os.close(held)


def snapshots_name(now):
    os.mkdir('d')
    os.mkdir('d/.snapshot')
    make('file')
    now.go(60)
    refused(errno.EBUSY, os.rename, 'd', '.snapshot')
    refused(errno.EBUSY, os.rename, '.snapshot', 'moved')
    refused(errno.EBUSY, os.rename, '.snapshot', 'd/.snapshot')
    refused(errno.EBUSY, os.rename, 'd/.snapshot', '.snapshot')
    refused(errno.EBUSY, renameat2, '.snapshot', 'moved', RENAME_NOREPLACE)
    refused(errno.EINVAL, renameat2, '.snapshot', 'd', RENAME_EXCHANGE)
    refused(errno.EEXIST, renameat2, 'd', '.snapshot', RENAME_NOREPLACE)
    refused(errno.EISDIR, os.rename, 'file', '.snapshot')
    refused(errno.EROFS, os.rename, 'd', '.snapshot/d')
    refused(errno.EBUSY, os.rmdir, '.snapshot')
    refused(errno.EISDIR, os.unlink, '.snapshot')
    refused(errno.EEXIST, os.mkdir, '.snapshot')
    refused(errno.EEXIST, os.link, 'file', '.snapshot')
    refused(errno.EEXIST, os.symlink, 'd', '.snapshot')
    refused(errno.EISDIR, make, '.snapshot')
    os.mkdir('.snapshot/s')
    os.rename('d/.snapshot', 'moved')
    assert [name for name, _ in names()] == ['d', 'file', 'moved']
    assert names('.snapshot/s/d') == [('.snapshot', os.stat('.snapshot/s/d/.snapshot').st_ino)]


def snapshots_name_of_another(now):
    listed = names()
    assert [name for name, _ in listed] == ['.snapshot', 'd']
    # A listing with attributes told nothing of it: it is looked up.
    assert os.stat('.snapshot').st_ino == 2 and names('.snapshot') == []
    os.mkdir('.snapshot/s')
    now.go(60)
    refused(errno.EBUSY, os.rename, 'd', '.snapshot')
    refused(errno.EBUSY, os.rmdir, '.snapshot')
    assert names() == listed
    assert [name for name, _ in names('.snapshot')] == ['s']
    assert [name for name, _ in names('.snapshot/s/.snapshot')] == ['in']


# Room


def full(now):
    space = os.statvfs('.')
    assert (space.f_blocks, space.f_files) == (64, 29)
    make('first', b'f' * 20000)
    now.go(1)
    space = os.statvfs('.')
    descriptor = os.open('filling', os.O_RDWR | os.O_CREAT)
    written = 0
    try:
        while True:
            written += os.pwrite(descriptor, b'g' * 16384, written)
    except OSError as error:
        assert error.errno == errno.ENOSPC
    refused(errno.ENOSPC, os.mkdir, 'd')
    assert os.statvfs('.').f_bavail < 24
    os.ftruncate(descriptor, 4096)
    os.close(descriptor)
    os.mkdir('d')
    assert os.statvfs('.').f_ffree == 25


def full_again(_now):
    assert os.stat('filling').st_size == 4096
    os.mkdir('.snapshot/s')
    os.statvfs('.')
    os.truncate('first', 0)
    os.statvfs('.')
    os.rmdir('.snapshot/s')
    os.statvfs('.')


RECORDED, REMOVED = 'recorded.requests', 'removed.requests'
PROGRAMS = [
    Program(RECORDED, 'a file is made, written and read', (128, 32), write_and_read, read_again),
    Program(RECORDED, 'directories come and go', (128, 32), directories, directories_again),
    Program(RECORDED, 'names are moved', (128, 32), renames),
    Program(RECORDED, 'names and links', (128, 32), links, links_again),
    Program(RECORDED, 'modes, owners and times', (128, 32), marks, marks_again),
    Program(RECORDED, 'holes and sizes', (128, 32), holes, holes_again),
    Program(RECORDED, 'transfers of several parts', (256, 32), large, large_again),
    Program(RECORDED, 'what is refused', (128, 32), refusals),
    Program(RECORDED, 'snapshots', (256, 32), snapshots, snapshots_again),
    Program(RECORDED, 'the folder of snapshots keeps its name', (256, 32), snapshots_name),
    Program(RECORDED, 'the image has that name too', (256, 32), snapshots_name_of_another,
            before=['mkdir /.snapshot 0700', 'mkdir /.snapshot/in', 'mkdir /d']),
    Program(RECORDED, 'the disk fills', (64, 32), full, full_again),
    Program(REMOVED, 'a file loses its last name while it is open', (128, 32), removed_open),
    Program(REMOVED, 'a file without a name is opened', (128, 32), removed_opened_again),
    Program(REMOVED, 'names are taken from others', (128, 32), replaced),
    Program(REMOVED, 'links and directories without a name', (128, 32), removed_others),
]
