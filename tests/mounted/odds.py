"""odds.py FOLDER: files without names, maps, what a rename replaces while it is open, and what is refused on purpose."""

import ctypes
import mmap
import os
import socket
import stat
import sys

from expecting import end, outcome, same

folder = sys.argv[1]
libc = ctypes.CDLL(None, use_errno=True)
HERE = -100
NO_REPLACE, EXCHANGE = 1, 2


def write_file(name, data=b''):
    """Makes a file, or gives it other bytes."""
    path = f'{folder}/{name}'
    with open(path, 'wb') as file:
        file.write(data)
    return path


def rename_with(flags, old, new):
    """renameat2."""
    if libc.renameat2(HERE, old.encode(), HERE, new.encode(), flags) != 0:
        number = ctypes.get_errno()
        raise OSError(number, os.strerror(number))


def without_names():
    """A hundred open files without names."""
    files = []
    for at in range(100):
        path = f'{folder}/nameless{at}'
        fd = os.open(path, os.O_CREAT | os.O_RDWR, 0o644)
        os.write(fd, b'%d' % at * 100)
        os.unlink(path)
        files.append(fd)
    for at, fd in enumerate(files):
        data = b'%d' % at * 100
        same(f'bytes of file {at}', os.pread(fd, 1000, 0), data)
        os.pwrite(fd, b'more', len(data))
        same(f'fsync of file {at}', outcome(os.fsync, fd), 'done')
        found = os.fstat(fd)
        same(f'links and size of file {at}', (found.st_nlink, found.st_size), (0, len(data) + 4))
        os.ftruncate(fd, 5)
        same(f'bytes of file {at} behind a cut', os.pread(fd, 1000, 0), data[:5])
    for fd in files:
        os.close(fd)


def replaced_while_open():
    """A file that a rename replaces stays for who has it open."""
    old = write_file('old', b'old bytes')
    fd = os.open(old, os.O_RDWR)
    os.rename(write_file('new', b'new bytes'), old)
    same('bytes of the replaced file', os.pread(fd, 100, 0), b'old bytes')
    same('links of the replaced file', os.fstat(fd).st_nlink, 0)
    same('bytes by the name', open(old, 'rb').read(), b'new bytes')
    os.close(fd)
    os.unlink(old)


def maps():
    """A shared map writes into the file, with the file's size behind a cut."""
    path = f'{folder}/mapped'
    fd = os.open(path, os.O_CREAT | os.O_RDWR, 0o644)
    os.ftruncate(fd, 10000)
    with mmap.mmap(fd, 10000) as view:
        view[5000:5005] = b'hello'
        view.flush()
        same('bytes by read', os.pread(fd, 5, 5000), b'hello')
        os.pwrite(fd, b'there', 6000)
        same('bytes by the map', view[6000:6005], b'there')
    os.close(fd)
    with open(path, 'rb') as file:
        same('bytes by another descriptor', file.read()[5000:5005], b'hello')
    os.unlink(path)


def links():
    """Names of one file, and texts of links."""
    path = write_file('first', b'x')
    os.link(path, f'{folder}/second')
    same('links', os.stat(path).st_nlink, 2)
    same('one number', os.stat(path).st_ino, os.stat(f'{folder}/second').st_ino)
    os.unlink(path)
    same('links behind an unlink', os.stat(f'{folder}/second').st_nlink, 1)
    text = 't' * 1023
    os.symlink(text, f'{folder}/text')
    same('the longest text', os.readlink(f'{folder}/text'), text)
    same('size of a link', os.lstat(f'{folder}/text').st_size, 1023)
    # Where directories aren't counted, it is always 1, as on btrfs.
    same('links of a directory', directory_links() in ([2, 3, 2], [1, 1, 1]), True)
    os.unlink(f'{folder}/second')
    os.unlink(f'{folder}/text')


def directory_links():
    """Links of an empty directory, of one with a directory in it, and behind its removal."""
    path = f'{folder}/linked'
    os.mkdir(path)
    counts = [os.stat(path).st_nlink]
    os.mkdir(f'{path}/below')
    counts.append(os.stat(path).st_nlink)
    os.rmdir(f'{path}/below')
    counts.append(os.stat(path).st_nlink)
    os.rmdir(path)
    return counts


def as_posix_refuses():
    """Errors that any file system gives."""
    file = write_file('plain', b'x')
    directory = f'{folder}/full'
    os.makedirs(f'{directory}/below', exist_ok=True)
    same('rmdir of a full directory', outcome(os.rmdir, directory), 'ENOTEMPTY')
    same('unlink of a directory', outcome(os.unlink, directory), 'EISDIR')
    same('rmdir of a file', outcome(os.rmdir, file), 'ENOTDIR')
    same('mkdir of a name that is there', outcome(os.mkdir, file), 'EEXIST')
    same('a name below a file', outcome(os.stat, f'{file}/x'), 'ENOTDIR')
    same('a directory into itself', outcome(os.rename, directory, f'{directory}/below/x'), 'EINVAL')
    same('a file over a directory', outcome(os.rename, file, directory), 'EISDIR')
    same('a directory over a file', outcome(os.rename, directory, file), 'ENOTDIR')
    same('a directory over a full one', outcome(rename_over_full), 'ENOTEMPTY')
    same('a name of 255 bytes', outcome(write_file, 'n' * 255), 'done')
    same('a name of 256 bytes', outcome(write_file, 'n' * 256), 'ENAMETOOLONG')
    same('open to write of a directory', outcome(os.open, directory, os.O_WRONLY), 'EISDIR')
    same('exclusive create of a name that is there', outcome(os.open, file, os.O_CREAT | os.O_EXCL | os.O_WRONLY), 'EEXIST')
    same('a rename that replaces nothing', outcome(rename_with, NO_REPLACE, file, f'{folder}/{"n" * 255}'), 'EEXIST')
    same('the same to a free name', outcome(rename_with, NO_REPLACE, file, f'{folder}/free'), 'done')
    same('a name that is no UTF-8', outcome(os.mkdir, folder.encode() + b'/\xff\xfe'), 'done')
    same('a second name for a directory', outcome(os.link, directory, f'{folder}/more'), 'EPERM')
    link_to_itself = f'{folder}/loop'
    os.symlink('loop', link_to_itself)
    same('a link to itself', outcome(os.stat, link_to_itself), 'ELOOP')
    same('open of a link with O_NOFOLLOW', outcome(os.open, link_to_itself, os.O_RDONLY | os.O_NOFOLLOW), 'ELOOP')
    for name in ('n' * 255, 'free', 'loop'):
        os.unlink(f'{folder}/{name}')
    os.rmdir(folder.encode() + b'/\xff\xfe')
    os.rmdir(f'{directory}/below')
    os.rmdir(directory)


def rename_over_full():
    """Moves a directory over one that has a name."""
    os.makedirs(f'{folder}/from', exist_ok=True)
    try:
        os.rename(f'{folder}/from', f'{folder}/full')
    finally:
        os.rmdir(f'{folder}/from')


def refused_on_purpose():
    """What this file system doesn't have, as docs/OPERATIONS.md says."""
    file = write_file('refused', b'x')
    link = f'{folder}/symbolic'
    os.symlink('refused', link)
    other = write_file('other')

    def bind_socket():
        with socket.socket(socket.AF_UNIX) as made:
            made.bind(f'{folder}/socket')

    same('FIFO', outcome(os.mkfifo, f'{folder}/fifo'), 'EPERM')
    same('device', outcome(os.mknod, f'{folder}/device', 0o600 | stat.S_IFCHR, os.makedev(1, 3)), 'EPERM')
    same('socket', outcome(bind_socket), 'EPERM')
    same('hard link to a symbolic link', outcome(os.link, link, f'{folder}/hard', follow_symlinks=False), 'EPERM')
    same('setxattr', outcome(os.setxattr, file, 'user.name', b'value'), 'ENOTSUP')
    same('getxattr', outcome(os.getxattr, file, 'user.name'), 'ENOTSUP')
    same('listxattr', outcome(os.listxattr, file), 'ENOTSUP')
    same('exchange', outcome(rename_with, EXCHANGE, file, other), 'EINVAL')
    same('text of 1,024 bytes', outcome(os.symlink, 't' * 1024, f'{folder}/long'), 'ENAMETOOLONG')
    fd = os.open(file, os.O_RDWR)
    same('a size of 64 GiB', outcome(os.ftruncate, fd, 2**36), 'done')
    same('a size above 64 GiB', outcome(os.ftruncate, fd, 2**36 + 1), 'EFBIG')
    same('a byte behind 64 GiB', outcome(os.pwrite, fd, b'x', 2**36), 'EFBIG')
    same('fallocate with a hole', outcome(punch_hole, fd), 'ENOTSUP')
    same('posix_fallocate', outcome(os.posix_fallocate, fd, 0, 10000), 'done')
    same('a file that never has a name', outcome(os.open, folder, os.O_TMPFILE | os.O_RDWR), 'ENOTSUP')
    os.close(fd)
    made = 1
    while made < 1100 and outcome(os.link, file, f'{folder}/linked{made}') == 'done':
        made += 1
    same('names of one file', made, 1000)
    same('one more', outcome(os.link, file, f'{folder}/linked{made}'), 'EMLINK')
    for at in range(1, made):
        os.unlink(f'{folder}/linked{at}')
    for path in (file, link, other):
        os.unlink(path)


def punch_hole(fd):
    """fallocate, to have a hole."""
    libc.fallocate.argtypes = [ctypes.c_int, ctypes.c_int, ctypes.c_long, ctypes.c_long]
    if libc.fallocate(fd, 3, 0, 4096) != 0:
        number = ctypes.get_errno()
        raise OSError(number, os.strerror(number))


without_names()
replaced_while_open()
maps()
links()
as_posix_refuses()
refused_on_purpose()
end()
