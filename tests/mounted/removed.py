"""removed.py FOLDER: what was removed while it was open, or was somebody's current directory, works on, without names and links; also once
its number came again."""

import os
import stat
import sys

from expecting import end, outcome, same

folder = os.path.abspath(sys.argv[1])


def use_numbers():
    """Makes and leaves a few objects, which get the numbers that are free."""
    for at in range(8):
        os.mkdir(f'{folder}/again{at}')
        with open(f'{folder}/again.file{at}', 'w', encoding='ascii') as file:
            file.write('again')


def free_numbers():
    """Removes them."""
    for at in range(8):
        os.rmdir(f'{folder}/again{at}')
        os.unlink(f'{folder}/again.file{at}')


def expect_no_directory(what, fd):
    """What an open directory does that was removed."""
    found = os.fstat(fd)
    same(f'{what}: kind', stat.S_ISDIR(found.st_mode), True)
    same(f'{what}: links', found.st_nlink, 0)
    same(f'{what}: fchmod', outcome(os.fchmod, fd, 0o711), 'done')
    same(f'{what}: mode', os.fstat(fd).st_mode & 0o7777, 0o711)
    same(f'{what}: futimens', outcome(os.utime, fd, (5, 6)), 'done')
    same(f'{what}: time', os.fstat(fd).st_mtime, 6)
    same(f'{what}: names', os.listdir(fd), [])
    same(f'{what}: create', outcome(os.open, 'name', os.O_CREAT | os.O_WRONLY, dir_fd=fd), 'ENOENT')
    same(f'{what}: mkdir', outcome(os.mkdir, 'name', dir_fd=fd), 'ENOENT')
    same(f'{what}: look', outcome(os.stat, 'name', dir_fd=fd), 'ENOENT')
    same(f'{what}: fsync', outcome(os.fsync, fd), 'done')


def open_directory():
    """An open directory is removed, or replaced by another one."""
    name = f'{folder}/directory'
    os.mkdir(name)
    fd = os.open(name, os.O_DIRECTORY)
    os.rmdir(name)
    expect_no_directory('removed directory', fd)
    use_numbers()
    expect_no_directory('removed directory, its number given again', fd)
    free_numbers()
    os.close(fd)
    os.mkdir(name)
    os.mkdir(f'{folder}/other')
    fd = os.open(name, os.O_DIRECTORY)
    os.rename(f'{folder}/other', name)
    expect_no_directory('replaced directory', fd)
    os.close(fd)
    os.rmdir(name)


def current_directory():
    """Somebody's current directory is removed."""
    name = f'{folder}/current'
    os.mkdir(name)
    os.chdir(name)
    os.rmdir(name)
    use_numbers()
    same('current directory: links', os.stat('.').st_nlink, 0)
    same('current directory: names', os.listdir('.'), [])
    same('current directory: create', outcome(os.open, 'name', os.O_CREAT | os.O_WRONLY), 'ENOENT')
    same('current directory: its path', outcome(os.getcwd), 'ENOENT')
    same('current directory: the one above', outcome(os.stat, '..'), 'done')
    if outcome(os.stat, '..') == 'done':
        same('current directory: number of the one above', os.stat('..').st_ino, os.stat(folder).st_ino)
    os.chdir(folder)
    free_numbers()


def open_file():
    """An open file's last name goes."""
    name = f'{folder}/file'
    fd = os.open(name, os.O_CREAT | os.O_RDWR, 0o640)
    os.write(fd, b'x' * 10000)
    os.unlink(name)
    use_numbers()
    found = os.fstat(fd)
    same('removed file: links and size', (found.st_nlink, found.st_size), (0, 10000))
    same('removed file: bytes', os.pread(fd, 20000, 0), b'x' * 10000)
    same('removed file: write', os.pwrite(fd, b'yy', 9999), 2)
    same('removed file: size', os.fstat(fd).st_size, 10001)
    same('removed file: fchmod', outcome(os.fchmod, fd, 0o600), 'done')
    same('removed file: mode', os.fstat(fd).st_mode & 0o7777, 0o600)
    same('removed file: cut', outcome(os.ftruncate, fd, 5), 'done')
    same('removed file: size behind the cut', os.fstat(fd).st_size, 5)
    for whence, wanted in {os.SEEK_DATA: 0, os.SEEK_HOLE: 5}.items():
        said = outcome(os.lseek, fd, 0, whence)
        same(f'removed file: lseek {whence}', said, 'done')
        if said == 'done':
            same(f'removed file: place of lseek {whence}', os.lseek(fd, 0, whence), wanted)
    os.utime(fd, (5, 6))
    os.pwrite(fd, b'x', 0)
    same('removed file: a write moves its time', os.fstat(fd).st_mtime > 6, True)
    path = f'/proc/self/fd/{fd}'
    again = outcome(os.open, path, os.O_RDWR)
    same('removed file: opened once more', again, 'done')
    if again == 'done':
        other = os.open(path, os.O_RDWR)
        os.close(fd)
        same('removed file: bytes by that, once the first is closed', os.pread(other, 100, 0), b'xxxxx')
        fd = os.open(path.replace(str(fd), str(other)), os.O_RDWR)
        os.close(other)
        same('removed file: and by one more', (os.pwrite(fd, b'y', 5), os.fstat(fd).st_size), (1, 6))
    os.close(fd)
    free_numbers()


def by_path_descriptor():
    """A file and a link are removed that are open with O_PATH."""
    file, link = f'{folder}/file', f'{folder}/link'
    with open(file, 'wb') as made:
        made.write(b'12345')
    os.symlink('text of the link', link)
    at_file = os.open(file, os.O_PATH)
    at_link = os.open(link, os.O_PATH | os.O_NOFOLLOW)
    os.unlink(file)
    os.unlink(link)
    use_numbers()
    found = os.fstat(at_file)
    same('removed file with O_PATH: links and size', (found.st_nlink, found.st_size), (0, 5))
    found = os.fstat(at_link)
    same('removed link with O_PATH: kind and links', (stat.S_ISLNK(found.st_mode), found.st_nlink), (True, 0))
    same('removed link with O_PATH: readlink', outcome(os.readlink, '', dir_fd=at_link), 'done')
    if outcome(os.readlink, '', dir_fd=at_link) == 'done':
        same('removed link with O_PATH: text', os.readlink('', dir_fd=at_link), 'text of the link')
    again = f'/proc/self/fd/{at_file}'
    same('removed file with O_PATH: open', outcome(os.open, again, os.O_RDONLY), 'done')
    os.close(at_file)
    os.close(at_link)
    free_numbers()


open_directory()
current_directory()
open_file()
by_path_descriptor()
end()
