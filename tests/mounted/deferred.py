"""deferred.py LAUNCHER WORK KILLS: a folder that is served deferred, whose server is killed again and again amid the calls of four clients.
Behind each new mount what a client finds is the calls that it made up to some moment, in their order: at least those before the last fsync or
close that was answered to it, and none that it didn't make. Then the bounds of one client alone: a silent client's last call is durable
within twice the bound, and all is behind umount; long before the bound a kill loses it, so that it is known that calls wait at all. The
image is checked each time."""

import os
import random
import sys
import threading
import time

from serving import Served

CLIENTS = 4
NAMES = 30
BOUND = 0.5
SIZES = ['--blocks', '64M', '--inodes', '4k', '--half', '256k']


class Client:
    """One that changes names of a directory of its own; it keeps what the directory had behind each call."""

    def __init__(self, folder, seed):
        self.random = random.Random(seed)
        self.folder = folder
        self.open = {}
        # What each name has, a text or None for a directory.
        self.names = {}
        self.error = None
        self.forget()

    def forget(self):
        """Takes what stands there as the beginning."""
        self.behind = [dict(self.names)]
        self.durable = 0
        self.answered = 0
        self.open = {}

    def path(self, name):
        """Where a name is."""
        return f'{self.folder}/{name}'

    def work(self):
        """Makes calls until one fails."""
        try:
            while True:
                getattr(self, self.random.choice(('mkdir', 'create', 'write', 'write', 'write', 'rename', 'remove', 'truncate', 'close', 'sync')))()
        except OSError as error:
            self.error = error

    def does(self, names, call):
        """A call behind which the directory has these names."""
        self.behind.append(names)
        call()
        self.names = names
        self.answered += 1

    def fresh(self):
        """A name that nothing has, if there is one."""
        left = [name for name in (f'name{at}' for at in range(NAMES)) if name not in self.names]
        return self.random.choice(left) if left else None

    def mkdir(self):
        """A new directory."""
        name = self.fresh()
        if name:
            self.does({**self.names, name: None}, lambda: os.mkdir(self.path(name)))

    def create(self):
        """A new file, which stays open."""
        name = self.fresh()
        if name and len(self.open) < 4:
            def make():
                self.open[name] = os.open(self.path(name), os.O_CREAT | os.O_EXCL | os.O_RDWR)
            self.does({**self.names, name: b''}, make)

    def write(self):
        """A few bytes, which the kernel asks for at once."""
        if not self.open:
            return
        name = self.random.choice(list(self.open))
        at = self.random.randrange(2000)
        data = self.random.randbytes(self.random.randrange(1, 1000))
        old = self.names[name].ljust(at, b'\0')
        names = {**self.names, name: old[:at] + data + old[at + len(data):]}
        self.does(names, lambda: os.pwrite(self.open[name], data, at))

    def rename(self):
        """Another name."""
        new = self.fresh()
        if new and self.names:
            old = self.random.choice(list(self.names))
            names = dict(self.names)
            names[new] = names.pop(old)
            self.does(names, lambda: os.rename(self.path(old), self.path(new)))
            if old in self.open:
                self.open[new] = self.open.pop(old)

    def remove(self):
        """A name less."""
        closed = [name for name in self.names if name not in self.open]
        if len(closed) > NAMES // 2:
            name = self.random.choice(closed)
            names = dict(self.names)
            call = os.rmdir if names.pop(name) is None else os.unlink
            self.does(names, lambda: call(self.path(name)))

    def truncate(self):
        """Another size."""
        files = [name for name, data in self.names.items() if data is not None]
        if files:
            name = self.random.choice(files)
            size = self.random.randrange(3000)
            self.does({**self.names, name: self.names[name][:size].ljust(size, b'\0')}, lambda: os.truncate(self.path(name), size))

    def close(self):
        """A close, behind which all is durable."""
        if len(self.open) > 2:
            os.close(self.open.pop(self.random.choice(list(self.open))))
            self.durable = self.answered

    def sync(self):
        """An fsync of a file, or of the directory."""
        if self.random.random() < 0.8:
            return
        if self.open and self.random.random() < 0.5:
            os.fsync(self.random.choice(list(self.open.values())))
        else:
            directory = os.open(self.folder, os.O_RDONLY | os.O_DIRECTORY)
            os.fsync(directory)
            os.close(directory)
        self.durable = self.answered

    def let_go(self):
        """Closes what a killed server left open."""
        for fd in self.open.values():
            try:
                os.close(fd)
            except OSError:
                pass

    def found(self):
        """What the directory has."""
        names = {}
        for entry in os.scandir(self.folder):
            if entry.is_dir():
                names[entry.name] = None
            else:
                with open(entry.path, 'rb') as file:
                    names[entry.name] = file.read()
        return names

    def agree(self):
        """How many answered calls are lost; None where what is there isn't behind any of them, or is behind too few."""
        found = self.found()
        for behind in range(len(self.behind) - 1, self.durable - 1, -1):
            if self.behind[behind] == found:
                self.names = found
                return max(self.answered - behind, 0)
        return None


def many(launcher, work, kills):
    """Clients amid whose calls the server is killed."""
    served = Served(launcher, work, 'deferred', SIZES, ['--deferred=200'])
    clients = [Client(f'{served.folder}/client{at}', at) for at in range(CLIENTS)]
    times = random.Random(7)
    served.start()
    for client in clients:
        os.mkdir(client.folder)
    sync_root(served.folder)
    answered = lost = 0
    for at in range(kills):
        threads = [threading.Thread(target=client.work) for client in clients]
        for thread in threads:
            thread.start()
        time.sleep(times.uniform(0.1, 1.0))
        if not all(thread.is_alive() for thread in threads):
            sys.exit(f'a call failed while the server was there: {[client.error for client in clients]}')
        served.kill()
        for thread in threads:
            thread.join()
        for client in clients:
            client.let_go()
        served.check()
        served.start()
        for client in clients:
            less = client.agree()
            if less is None:
                sys.exit(f'kill {at}: {client.folder} has what no {client.durable} to {len(client.behind) - 1} of its calls leave: {client.found()}')
            answered += client.answered
            lost += less
            client.forget()
    served.stop()
    served.check()
    return f'{kills} kills, {answered} calls answered, {lost} lost of the last ones'


def sync_root(folder):
    """Makes durable what was done."""
    directory = os.open(folder, os.O_RDONLY | os.O_DIRECTORY)
    os.fsync(directory)
    os.close(directory)


def alone(launcher, work):
    """One client, and when its calls are durable."""
    served = Served(launcher, work, 'silent', SIZES, [f'--deferred={int(BOUND * 1000)}'])
    served.start()
    for at in range(4):
        # From another moment of the bound each time.
        time.sleep(at * BOUND / 4)
        os.mkdir(f'{served.folder}/silent{at}')
        time.sleep(2 * BOUND)
        served.kill()
        served.start()
        if not os.path.isdir(f'{served.folder}/silent{at}'):
            sys.exit('a silent client\'s last call is lost behind twice the bound')
    os.mkdir(f'{served.folder}/unmounted')
    served.stop()
    served.options = ['--deferred=60000']
    served.start()
    if not os.path.isdir(f'{served.folder}/unmounted'):
        sys.exit('a call before umount is lost')
    with open(f'{served.folder}/closed', 'wb') as file:
        file.write(b'closed')
    os.mkdir(f'{served.folder}/waits')
    served.kill()
    served.start()
    with open(f'{served.folder}/closed', 'rb') as file:
        if file.read() != b'closed':
            sys.exit('a file that was closed lost its bytes')
    if os.path.exists(f'{served.folder}/waits'):
        sys.exit('a call was durable long before the bound, so nothing is known of those that wait')
    served.stop()
    served.check()


print(many(sys.argv[1], sys.argv[2], int(sys.argv[3])))
alone(sys.argv[1], sys.argv[2])
