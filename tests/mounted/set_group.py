"""set_group.py FOLDER: what is made in a directory with the set-group bit gets the directory's group, and a directory the bit too. As root,
where others may use the folder."""

import os
import stat
import sys

from expecting import as_user, end, same

folder = sys.argv[1]
directory = f'{folder}/directory'
GROUP = 1234

os.umask(0)
os.mkdir(directory, 0o777)
with open(f'{directory}/before', 'wb'):
    pass
same('group of a file without the bit', os.stat(f'{directory}/before').st_gid, os.getegid())
os.chown(directory, 0, GROUP)
os.chmod(directory, 0o2777)
same('mode of the directory', f'{os.stat(directory).st_mode & 0o7777:o}', '2777')

with open(f'{directory}/file', 'wb'):
    pass
os.mkdir(f'{directory}/below', 0o755)
os.symlink('text', f'{directory}/link')
os.mknod(f'{directory}/node', 0o644 | stat.S_IFREG)
for name in ('file', 'below', 'link', 'node'):
    same(f'group of {name}', os.lstat(f'{directory}/{name}').st_gid, GROUP)
same('mode of below', f'{os.stat(f"{directory}/below").st_mode & 0o7777:o}', '2755')
os.mkdir(f'{directory}/below/further', 0o700)
same('group of further', os.stat(f'{directory}/below/further').st_gid, GROUP)
same('mode of further', f'{os.stat(f"{directory}/below/further").st_mode & 0o7777:o}', '2700')
os.link(f'{directory}/before', f'{directory}/second')
same('group of a second name', os.stat(f'{directory}/second').st_gid, os.getegid())
os.rename(f'{directory}/before', f'{directory}/below/moved')
same('group of a moved file', os.stat(f'{directory}/below/moved').st_gid, os.getegid())


def make_with_bit():
    """Makes a file with the set-group bit."""
    os.close(os.open(f'{directory}/theirs', os.O_CREAT | os.O_EXCL | os.O_WRONLY, 0o2775))


same('create by another user', as_user(make_with_bit), 'done')
found = os.stat(f'{directory}/theirs')
same('owner and group of their file', (found.st_uid, found.st_gid), (65534, GROUP))
same('mode of their file, as they are not of that group', f'{found.st_mode & 0o7777:o}', '775')
same('chmod by another user', as_user(lambda: os.chmod(f'{directory}/theirs', 0o2775)), 'done')
same('mode behind that', f'{os.stat(f"{directory}/theirs").st_mode & 0o7777:o}', '775')
same('mkdir by another user', as_user(lambda: os.mkdir(f'{directory}/their_directory', 0o755)), 'done')
found = os.stat(f'{directory}/their_directory')
same('group and mode of their directory', (found.st_gid, f'{found.st_mode & 0o7777:o}'), (GROUP, '2755'))
end()
