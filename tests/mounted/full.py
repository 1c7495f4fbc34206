"""full.py LAUNCHER WORK: a full image, and one without a free inode: writers are refused, and once something is removed writes go on."""

import os
import sys

from expecting import end, holds, outcome, same
from serving import Served

launcher, work = sys.argv[1], sys.argv[2]


def create(path):
    """Makes a file."""
    os.close(os.open(path, os.O_CREAT | os.O_EXCL | os.O_WRONLY, 0o644))


served = Served(launcher, work, 'full', ['--blocks', '8M', '--inodes', '128', '--half', '128k'])
folder = served.folder
served.start()

# Blocks.
with open(f'{folder}/kept', 'wb') as file:
    file.write(b'kept' * 1000)
names = []
said = 'done'
while said == 'done' and len(names) < 100:
    names.append(f'{folder}/large{len(names)}')
    with open(names[-1], 'wb', buffering=0) as file:
        for _ in range(8):
            said = outcome(file.write, os.urandom(65536))
            if said != 'done':
                break
same('a write to a full image', said, 'ENOSPC')
holds(f'files that had room: {len(names)}', 8 <= len(names) <= 16)
with open(f'{folder}/kept', 'rb') as file:
    same('bytes of a file that was there', file.read(), b'kept' * 1000)
for name in names:
    same('unlink in a full image', outcome(os.unlink, name), 'done')
data = os.urandom(4 * 1024 * 1024)
with open(f'{folder}/again', 'wb', buffering=0) as file:
    same('bytes that have room again', file.write(data), len(data))
with open(f'{folder}/again', 'rb') as file:
    same('they are read', file.read() == data, True)
os.unlink(f'{folder}/again')

# Inodes.
made = 0
while outcome(os.mkdir, f'{folder}/directory{made}') == 'done' and made < 200:
    made += 1
same('mkdir without a free inode', outcome(os.mkdir, f'{folder}/more'), 'ENOSPC')
same('create without a free inode', outcome(create, f'{folder}/more'), 'ENOSPC')
same('symlink without a free inode', outcome(os.symlink, 'text', f'{folder}/more'), 'ENOSPC')
same('free inodes', os.statvfs(folder).f_ffree, 0)
same('a second name needs none', outcome(os.link, f'{folder}/kept', f'{folder}/second'), 'done')
os.rmdir(f'{folder}/directory0')
same('create behind a removal', outcome(create, f'{folder}/more'), 'done')
served.stop()
served.check()
served.start()
same('names behind a new mount', len(os.listdir(folder)), made - 1 + 3)
served.stop()
end()
