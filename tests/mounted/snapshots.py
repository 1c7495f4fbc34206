"""snapshots.py ROOT: snapshots by mkdir and rmdir in .snapshot of the served folder ROOT, amid writes; what is in one stays."""

import os
import subprocess
import sys
import threading

from expecting import end, outcome, same

root = sys.argv[1]
place = f'{root}/kept'
snapshots = f'{root}/.snapshot'


def write(name, data):
    """Gives a file these bytes."""
    with open(f'{place}/{name}', 'wb') as file:
        file.write(data)


def read(path):
    """The bytes of a file."""
    with open(path, 'rb') as file:
        return file.read()


os.mkdir(place)
same('.snapshot in the listing', '.snapshot' in os.listdir(root), False)
same('names in .snapshot', os.listdir(snapshots), [])
write('file', b'first')
os.mkdir(f'{place}/below')
os.symlink('file', f'{place}/link')
os.link(f'{place}/file', f'{place}/below/second')
os.chmod(f'{place}/file', 0o640)
os.mkdir(f'{snapshots}/one')
same('names in .snapshot', os.listdir(snapshots), ['one'])
kept = f'{snapshots}/one/kept'

write('file', b'changed')
os.unlink(f'{place}/link')
os.rename(f'{place}/below', f'{place}/elsewhere')
same('names in the snapshot', sorted(os.listdir(kept)), ['below', 'file', 'link'])
same('bytes in the snapshot', read(f'{kept}/file'), b'first')
same('bytes by another name', read(f'{kept}/below/second'), b'first')
same('a link in the snapshot', os.readlink(f'{kept}/link'), 'file')
same('bytes through the link', read(f'{kept}/link'), b'first')
found = os.stat(f'{kept}/file')
same('mode, links and size', (f'{found.st_mode & 0o7777:o}', found.st_nlink, found.st_size), ('640', 2, 5))
same('bytes in the running tree', read(f'{place}/file'), b'changed')

for what, call in {
    'open to write': lambda: os.open(f'{kept}/file', os.O_WRONLY),
    'create': lambda: os.open(f'{kept}/new', os.O_CREAT | os.O_WRONLY),
    'unlink': lambda: os.unlink(f'{kept}/file'),
    'mkdir': lambda: os.mkdir(f'{kept}/new'),
    'rmdir': lambda: os.rmdir(f'{kept}/below'),
    'chmod': lambda: os.chmod(f'{kept}/file', 0o600),
    'truncate': lambda: os.truncate(f'{kept}/file', 0),
    'utime': lambda: os.utime(f'{kept}/file'),
    'rename': lambda: os.rename(f'{kept}/file', f'{kept}/other'),
    'symlink': lambda: os.symlink('text', f'{kept}/text'),
    'a file in .snapshot': lambda: os.open(f'{snapshots}/file', os.O_CREAT | os.O_WRONLY),
}.items():
    same(f'{what} in a snapshot', outcome(call), 'EROFS')
# As between two file systems, or as on one that can't be written.
for what, call in {
    'rename out of a snapshot': lambda: os.rename(f'{kept}/file', f'{place}/out'),
    'link out of a snapshot': lambda: os.link(f'{kept}/file', f'{place}/out'),
    'rename into a snapshot': lambda: os.rename(f'{place}/file', f'{kept}/in'),
}.items():
    same(what, outcome(call) in ('EROFS', 'EXDEV'), True)
same('a snapshot of that name', outcome(os.mkdir, f'{snapshots}/one'), 'EEXIST')

# The folder of snapshots keeps its name.
os.mkdir(f'{root}/other')
for what, wanted, call in [
    ('a directory onto .snapshot', 'EBUSY', lambda: os.rename(f'{root}/other', snapshots)),
    ('.snapshot to another name', 'EBUSY', lambda: os.rename(snapshots, f'{root}/moved')),
    ('rmdir of .snapshot', 'EBUSY', lambda: os.rmdir(snapshots)),
    ('mkdir of .snapshot', 'EEXIST', lambda: os.mkdir(snapshots)),
    ('a link named .snapshot', 'EEXIST', lambda: os.symlink('text', snapshots)),
]:
    same(what, outcome(call), wanted)
os.rmdir(f'{root}/other')
same('names in .snapshot behind that', os.listdir(snapshots), ['one'])
with os.scandir(kept) as names:
    same('numbers in a listing of a snapshot', [name.name for name in names if name.inode() != name.stat(follow_symlinks=False).st_ino], [])
same('rmdir of a snapshot that is not there', outcome(os.rmdir, f'{snapshots}/two'), 'ENOENT')

# What is open in a snapshot that goes.
fd = os.open(f'{kept}/file', os.O_RDONLY)
os.rmdir(f'{snapshots}/one')
same('a deleted snapshot', outcome(os.stat, kept), 'ENOENT')
same('names in .snapshot', os.listdir(snapshots), [])
os.close(fd)
os.mkdir(f'{snapshots}/one')
same('the name taken again', read(f'{kept}/file'), b'changed')
os.rmdir(f'{snapshots}/one')

# Amid writes: a snapshot has each writer's files as they were at one moment, the second never ahead of the first.
stop = threading.Event()


def keep_writing():
    """Writes a count into one file and then into another one."""
    count = 0
    while not stop.is_set():
        count += 1
        for name in ('first', 'second'):
            write(f'{name}.new', b'%d' % count)
            os.rename(f'{place}/{name}.new', f'{place}/{name}')


for name in ('first', 'second'):
    write(name, b'0')
writer = threading.Thread(target=keep_writing)
writer.start()
for at in range(20):
    os.mkdir(f'{snapshots}/amid{at}')
stop.set()
writer.join()
last = 0
for at in range(20):
    first, second = (int(read(f'{snapshots}/amid{at}/kept/{name}')) for name in ('first', 'second'))
    same(f'counts of snapshot {at}: {first} and {second}', first - second in (0, 1) and first >= last, True)
    last = first
for at in range(20):
    os.rmdir(f'{snapshots}/amid{at}')

# As a source of backups.
os.mkdir(f'{place}/tree')
for at in range(50):
    write(f'tree/name{at}', os.urandom(3000))
os.mkdir(f'{snapshots}/backup')
archive = f'{root}/backup.tar'
subprocess.run(['tar', '-cf', archive, '-C', f'{snapshots}/backup', 'kept'], check=True)
same('tar -d of a snapshot', subprocess.run(['tar', '-df', archive, '-C', f'{snapshots}/backup'], check=False).returncode, 0)
subprocess.run(['cp', '-a', f'{snapshots}/backup/kept', f'{root}/copy'], check=True)
same('diff of a copy', subprocess.run(['diff', '-r', f'{snapshots}/backup/kept', f'{root}/copy'], check=False).returncode, 0)
same('find in a snapshot', subprocess.run(['find', f'{snapshots}/backup', '-name', 'name4*'], capture_output=True, check=True).stdout.count(b'\n'), 11)
os.rmdir(f'{snapshots}/backup')
subprocess.run(['rm', '-r', place, f'{root}/copy', archive], check=True)
end()
