"""times.py FOLDER: owners and times as calls move and set them, while the folder is mounted. As root, where others may use the folder."""

import os
import sys
import time

from expecting import as_user, end, holds, outcome, same

folder = sys.argv[1]
path = f'{folder}/file'


def moved(what, call, target, names):
    """Has it done, and sees which times of the target it moves to now: of m and c."""
    before = os.lstat(target)
    time.sleep(0.02)
    call()
    after = os.lstat(target)
    found = ''.join(name for name in 'mc' if getattr(after, f'st_{name}time_ns') > getattr(before, f'st_{name}time_ns'))
    same(f'times that {what} moves', found, names)


def write():
    """Writes into the file."""
    with open(path, 'r+b') as file:
        file.write(b'new')


begun = time.time()
with open(path, 'wb') as made:
    made.write(b'bytes')
found = os.stat(path)
holds('a new file has the time of now', begun - 1 <= found.st_mtime <= time.time() + 1)
moved('write', write, path, 'mc')
moved('truncate', lambda: os.truncate(path, 2), path, 'mc')
moved('chmod', lambda: os.chmod(path, 0o600), path, 'c')
moved('chown', lambda: os.chown(path, 1, 2), path, 'c')
moved('link', lambda: os.link(path, f'{folder}/second'), path, 'c')
moved('rename', lambda: os.rename(f'{folder}/second', f'{folder}/third'), path, 'c')
moved('unlink of another name', lambda: os.unlink(f'{folder}/third'), path, 'c')
moved('read', lambda: open(path, 'rb').read(), path, '')
moved('create in a directory', lambda: open(f'{folder}/new', 'wb').close(), folder, 'mc')
moved('rename in a directory', lambda: os.rename(f'{folder}/new', f'{folder}/newer'), folder, 'mc')
moved('unlink in a directory', lambda: os.unlink(f'{folder}/newer'), folder, 'mc')
moved('mkdir in a directory', lambda: os.mkdir(f'{folder}/below'), folder, 'mc')
moved('rmdir in a directory', lambda: os.rmdir(f'{folder}/below'), folder, 'mc')
moved('write to a file in a directory', write, folder, '')

os.utime(path, ns=(1_234_567_890, 987_654_321_123_456_789))
found = os.stat(path)
same('times that are set, to the nanosecond', (found.st_atime_ns, found.st_mtime_ns), (1_234_567_890, 987_654_321_123_456_789))
same('owner and group that are set', (found.st_uid, found.st_gid), (1, 2))
os.symlink('file', f'{folder}/link')
os.utime(f'{folder}/link', ns=(1, 2), follow_symlinks=False)
same('times of a link', os.lstat(f'{folder}/link').st_mtime_ns, 2)
os.chown(f'{folder}/link', 3, 4, follow_symlinks=False)
same('owner of a link', os.lstat(f'{folder}/link').st_uid, 3)

same('chown by another user', as_user(lambda: os.chown(path, 65534, 65534)), 'EPERM')
same('chmod by another user', as_user(lambda: os.chmod(path, 0o777)), 'EPERM')
same('utime by another user', as_user(lambda: os.utime(path, (1, 1))), 'EPERM')
same('open by another user', as_user(lambda: os.open(path, os.O_RDONLY)), 'EACCES')
os.chmod(path, 0o644)
same('open by another user, who may read', as_user(lambda: os.open(path, os.O_RDONLY)), 'done')
same('open to write by another user', as_user(lambda: os.open(path, os.O_WRONLY)), 'EACCES')
os.chmod(folder, 0o1777)
same('unlink by another user, in a sticky directory', as_user(lambda: os.unlink(path)), 'EPERM')
same('create by another user', as_user(lambda: os.close(os.open(f'{folder}/theirs', os.O_CREAT | os.O_WRONLY))), 'done')
same('its owner', os.stat(f'{folder}/theirs').st_uid, 65534)
same('unlink of their own', as_user(lambda: os.unlink(f'{folder}/theirs')), 'done')
for name in ('file', 'link'):
    same(f'unlink of {name}', outcome(os.unlink, f'{folder}/{name}'), 'done')
end()
