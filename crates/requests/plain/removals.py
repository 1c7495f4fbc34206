"""Programs for the recorder that take names away from what goes on."""

import errno
import os

from calling import make, names, refused, whole


def removed_open(now):
    descriptor = os.open('file', os.O_RDWR | os.O_CREAT)
    os.write(descriptor, b'still there')
    second = os.open('file', os.O_RDONLY)
    now.go(2)
    os.unlink('file')
    now.go(2)
    found = os.fstat(descriptor)
    assert (found.st_nlink, found.st_size) == (0, 11)
    os.pwrite(descriptor, b'STILL', 0)
    assert os.fstat(descriptor).st_mtime > found.st_ctime > found.st_mtime
    assert os.pread(second, 20, 0) == b'STILL there'
    os.close(second)
    now.go(2)
    os.fchmod(descriptor, 0o600)
    os.ftruncate(descriptor, 10000)
    assert os.fstat(descriptor).st_size == 10000
    assert os.lseek(descriptor, 5000, os.SEEK_DATA) == 5000
    assert os.lseek(descriptor, 5000, os.SEEK_HOLE) == 10000
    refused(errno.ENXIO, os.lseek, descriptor, 10000, os.SEEK_DATA)
    refused(errno.ENOENT, os.stat, 'file')
    make('file', b'another')
    assert os.stat('file').st_ino == 5
    os.close(descriptor)
    now.go(2)
    make('third')
    assert os.stat('third').st_ino == 4
    os.unlink('third')
    now.go(2)
    os.unlink('file')


def removed_opened_again(now):
    make('file', b'bytes of a file')
    path = os.open('file', os.O_PATH)
    now.go(2)
    os.unlink('file')
    descriptor = os.open('/proc/self/fd/%d' % path, os.O_RDWR)
    assert os.read(descriptor, 5) == b'bytes'
    os.pwrite(descriptor, b'FILE', 11)
    second = os.open('/proc/self/fd/%d' % path, os.O_RDONLY)
    os.close(descriptor)
    now.go(2)
    assert os.pread(second, 4, 11) == b'FILE'
    os.ftruncate(os.open('/proc/self/fd/%d' % path, os.O_WRONLY), 3)
    os.close(second)
    os.chmod('/proc/self/fd/%d' % path, 0o400)
    make('new')
    assert os.stat('new').st_ino == 5
    os.close(path)


def replaced(now):
    make('old', b'old bytes')
    make('new', b'new bytes')
    descriptor = os.open('old', os.O_RDONLY)
    now.go(2)
    os.rename('new', 'old')
    assert os.fstat(descriptor).st_nlink == 0 and os.pread(descriptor, 9, 0) == b'old bytes'
    assert whole('old') == b'new bytes'
    os.close(descriptor)
    now.go(2)
    os.mkdir('d')
    make('d/over', b'x')
    os.link('d/over', 'd/second')
    now.go(2)
    os.rename('old', 'd/over')
    assert os.stat('d/second').st_nlink == 1
    now.go(2)
    os.symlink('t', 'd/link')
    os.rename('d/over', 'd/link')
    now.go(2)
    assert [name for name, _ in names('d')] == ['link', 'second']
    os.rename('d/link', 'd/second')
    now.go(2)
    assert len(names('d')) == 1
    make('last')


def removed_others(now):
    os.symlink('a text', 'link')
    os.mkdir('directory', 0o711)
    os.link(make_named('file'), 'file2')
    link = os.open('link', os.O_PATH | os.O_NOFOLLOW)
    directory = os.open('directory', os.O_RDONLY)
    now.go(2)
    os.unlink('link')
    os.rmdir('directory')
    assert os.readlink('', dir_fd=link) == 'a text'
    assert os.fstat(link).st_nlink == 0
    now.go(2)
    os.fchmod(directory, 0o700)
    assert os.fstat(directory).st_mode == 0o40700
    os.mkdir('another')
    os.symlink('another text', 'link')
    assert os.readlink('', dir_fd=link) == 'a text'
    os.close(link)
    os.close(directory)
    os.unlink('file')
    now.go(2)
    assert os.stat('file2').st_nlink == 1
    os.unlink('file2')
    now.go(2)
    os.symlink('t', 'last')
    assert os.lstat('last').st_ino == 6


def make_named(name):
    """A new file: its name."""
    make(name, b'two names')
    return name
