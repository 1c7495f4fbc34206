"""space.py FOLDER: free blocks and free inodes go down with what is made, and up with what is removed."""

import os
import sys

from expecting import end, holds, same

folder = sys.argv[1]
BLOCKS = 2048


def free():
    """Free blocks and free inodes, as bytes in blocks of 4,096."""
    found = os.statvfs(folder)
    return found.f_bfree * found.f_frsize // 4096, found.f_ffree


place = f'{folder}/space'
os.mkdir(place)
first = os.statvfs(folder)
same('longest name', first.f_namemax, 255)
holds(f'free blocks {first.f_bfree} of {first.f_blocks}', 0 < first.f_bfree <= first.f_blocks)
holds(f'free inodes {first.f_ffree} of {first.f_files}', 0 < first.f_ffree < first.f_files)
blocks, inodes = free()

for at in range(100):
    os.close(os.open(f'{place}/{at}', os.O_CREAT | os.O_WRONLY, 0o644))
same('inodes that 100 files take', inodes - free()[1], 100)
with open(f'{place}/large', 'wb') as file:
    for _ in range(BLOCKS // 256):
        file.write(os.urandom(256 * 4096))
    file.flush()
    os.fsync(file.fileno())
    taken = blocks - free()[0]
    holds(f'blocks that {BLOCKS} of bytes take: {taken}', BLOCKS <= taken <= BLOCKS + 200)
    os.unlink(f'{place}/large')
    taken = blocks - free()[0]
    holds(f'blocks of an open file without a name: {taken}', BLOCKS <= taken <= BLOCKS + 200)
left = blocks - free()[0]
holds(f'blocks taken once it is closed: {left}', left <= 200)
for at in range(100):
    os.unlink(f'{place}/{at}')
same('inodes taken once all are removed', inodes - free()[1], 0)
os.symlink('text', f'{place}/link')
os.mkdir(f'{place}/directory')
same('inodes of a link and a directory', inodes - free()[1], 2)
os.unlink(f'{place}/link')
os.rmdir(f'{place}/directory')
same('inodes taken at the end', inodes - free()[1], 0)
same('blocks in all', os.statvfs(folder).f_blocks, first.f_blocks)
os.rmdir(place)
end()
