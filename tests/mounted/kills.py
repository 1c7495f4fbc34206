"""kills.py LAUNCHER WORK KILLS: three writers, amid whose work the server is killed again and again; behind each new mount each writer's
files are what was answered, and of the call under way nothing, all, or of a write a beginning. The image is checked each time."""

import os
import random
import sys
import threading
import time

from modelled import Modelled
from serving import Served

NAMES = 40


class Writer:
    """One that changes the files of a directory of its own."""

    def __init__(self, folder, seed):
        self.random = random.Random(seed)
        self.model = Modelled(folder)
        self.error = None

    def work(self):
        """Changes files until a call fails."""
        try:
            os.makedirs(self.model.folder, exist_ok=True)
            while True:
                self.change()
        except OSError as error:
            self.error = error

    def change(self):
        """One random change."""
        kind = self.random.random()
        name = f'name{self.random.randrange(NAMES)}'
        have = list(self.model.files)
        if have and kind < 0.2:
            self.model.unlink(self.random.choice(have))
        elif have and kind < 0.4:
            old = self.random.choice(have)
            if old != name:
                self.model.rename(old, name)
        elif have and kind < 0.5:
            old = self.random.choice(have)
            self.model.truncate(old, self.random.randrange(len(self.model.files[old]) + 1000))
        elif name in self.model.files:
            fd = os.open(self.model.path(name), os.O_RDWR)
            try:
                at = self.random.randrange(len(self.model.files[name]) + 1)
                self.model.write(fd, name, at, self.random.randbytes(self.random.randrange(1, 20000)))
            finally:
                os.close(fd)
        else:
            os.close(self.model.create(name))


launcher, work, kills = sys.argv[1], sys.argv[2], int(sys.argv[3])
served = Served(launcher, work, 'kills', ['--blocks', '64M', '--inodes', '4k', '--half', '256k'])
writers = [Writer(f'{served.folder}/writer{at}', at) for at in range(3)]
times = random.Random(7)
lost = 0
served.start()
for round_number in range(kills):
    threads = [threading.Thread(target=writer.work) for writer in writers]
    for thread in threads:
        thread.start()
    time.sleep(times.uniform(0.1, 1.0))
    if not all(thread.is_alive() for thread in threads):
        sys.exit(f'a call failed while the server was there: {[writer.error for writer in writers]}')
    served.kill()
    for thread in threads:
        thread.join()
    served.check()
    served.start()
    for writer in writers:
        if not os.path.isdir(writer.model.folder) and not writer.model.files:
            continue
        differs = writer.model.differs()
        if differs:
            lost += 1
            print(f'kill {round_number}: {writer.model.folder} differs: {differs}')
served.stop()
served.check()
print(f'{kills} kills, {sum(writer.model.answered for writer in writers)} changes answered, {lost} lost')
sys.exit(lost != 0)
