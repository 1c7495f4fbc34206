"""holes.py FOLDER: how much of a file is stored, and where data and holes are, told to stat, lseek, du, cp and tar."""

import os
import subprocess
import sys

from expecting import end, holds, outcome, same

folder = sys.argv[1]
MIB = 1024 * 1024


def stored(path):
    """The bytes that are stored of a file."""
    return os.stat(path).st_blocks * 512


def make(name, size, parts):
    """A file of this size with parts of data at these places."""
    path = f'{folder}/{name}'
    fd = os.open(path, os.O_CREAT | os.O_TRUNC | os.O_RDWR, 0o644)
    os.ftruncate(fd, size)
    for at, data in parts:
        os.pwrite(fd, data, at)
    os.fsync(fd)
    os.close(fd)
    return path


def seek(path, at, whence):
    """Where lseek leads, or the name of its error."""
    fd = os.open(path, os.O_RDONLY)
    try:
        said = outcome(os.lseek, fd, at, whence)
        return os.lseek(fd, at, whence) if said == 'done' else said
    finally:
        os.close(fd)


hole = make('hole', 1024 * MIB, [])
holds(f'a hole of 1 GiB has few bytes stored: {stored(hole)}', stored(hole) <= 65536)
said = subprocess.run(['du', '-k', hole], capture_output=True, text=True, check=True).stdout
holds(f'du of it: {said}', int(said.split()[0]) <= 64)
small = make('small', 6, [(0, b'sixsix')])
holds(f'6 bytes are stored in one block: {stored(small)}', 512 <= stored(small) <= 4096)
full = make('full', 0, [(0, os.urandom(MIB))])
holds(f'1 MiB is stored: {stored(full)}', MIB <= stored(full) <= MIB + 65536)
os.truncate(full, 4096)
holds(f'4,096 bytes of it: {stored(full)}', 4096 <= stored(full) <= 65536)

one = make('one', 2 * MIB, [(MIB, b'd' * 4096)])
holds(f'one block of 2 MiB: {stored(one)}', 4096 <= stored(one) <= 65536)
same('data from 0', seek(one, 0, os.SEEK_DATA), MIB)
same('data from amid it', seek(one, MIB + 5, os.SEEK_DATA), MIB + 5)
same('data behind all', seek(one, MIB + 4096, os.SEEK_DATA), 'ENXIO')
same('hole from 0', seek(one, 0, os.SEEK_HOLE), 0)
same('hole from amid one', seek(one, 5, os.SEEK_HOLE), 5)
same('hole from data', seek(one, MIB, os.SEEK_HOLE), MIB + 4096)
same('data at the end', seek(one, 2 * MIB, os.SEEK_DATA), 'ENXIO')
same('hole at the end', seek(one, 2 * MIB, os.SEEK_HOLE), 'ENXIO')
same('hole of a file of data', seek(full, 0, os.SEEK_HOLE), 4096)
same('data of a hole', seek(hole, 0, os.SEEK_DATA), 'ENXIO')
same('hole of a hole, far', seek(hole, 1000 * MIB, os.SEEK_HOLE), 1000 * MIB)
far = make('far', 0, [(40000 * MIB, b'end')])
same('data from 0, far', seek(far, 0, os.SEEK_DATA), 40000 * MIB)

# By the page cache alone, before a sync.
fd = os.open(f'{folder}/fresh', os.O_CREAT | os.O_RDWR, 0o644)
os.pwrite(fd, b'x', 3 * 4096)
same('data of a file written just now', os.lseek(fd, 0, os.SEEK_DATA), 3 * 4096)
same('its hole', os.lseek(fd, 3 * 4096, os.SEEK_HOLE), 3 * 4096 + 1)
os.close(fd)

for sparse in ('auto', 'always'):
    copy = f'{folder}/copy.{sparse}'
    subprocess.run(['cp', f'--sparse={sparse}', hole, copy], check=True)
    holds(f'cp --sparse={sparse} of 1 GiB: {stored(copy)}', stored(copy) <= 65536)
    same('size of the copy', os.stat(copy).st_size, 1024 * MIB)
    subprocess.run(['cp', f'--sparse={sparse}', one, copy], check=True)
    subprocess.run(['cmp', one, copy], check=True)
    holds(f'cp --sparse={sparse} of one block: {stored(copy)}', stored(copy) <= 65536)
archive = f'{folder}/archive.tar'
subprocess.run(['tar', '-S', '-cf', archive, '-C', folder, 'hole', 'one', 'small'], check=True)
holds(f'tar -S: {os.stat(archive).st_size} bytes', os.stat(archive).st_size <= 65536)
os.mkdir(f'{folder}/out')
subprocess.run(['tar', '-S', '-xf', archive, '-C', f'{folder}/out'], check=True)
subprocess.run(['cmp', one, f'{folder}/out/one'], check=True)
same('size of what tar brought', os.stat(f'{folder}/out/hole').st_size, 1024 * MIB)
holds(f'what tar brought: {stored(f"{folder}/out/hole")}', stored(f'{folder}/out/hole') <= 65536)
end()
