"""numbers_again.py FOLDER [SECONDS]: a call that races with another process's unlink, create or rename reaches the file that had the
name, or no file: never one that got its number since, and no error comes but that there is no such name."""

import collections
import multiprocessing
import os
import sys
import time

from expecting import end, outcome, same

folder = sys.argv[1]
seconds = float(sys.argv[2]) if len(sys.argv) > 2 else 2.0


def make(path, data=b'', mode=0o644):
    """Makes a file."""
    fd = os.open(path, os.O_CREAT | os.O_EXCL | os.O_WRONLY, mode)
    os.write(fd, data)
    os.close(fd)


def beside(calls, work):
    """Calls each of the calls again and again in a process of its own while the work is done; returns how often each ended how."""
    stop = multiprocessing.Event()
    told = multiprocessing.Queue()

    def call_again(what, call):
        ends = collections.Counter()
        while not stop.is_set():
            ends[outcome(call)] += 1
        told.put((what, ends))

    processes = [multiprocessing.Process(target=call_again, args=each) for each in calls.items()]
    for process in processes:
        process.start()
    deadline = time.monotonic() + seconds
    while time.monotonic() < deadline:
        work()
    stop.set()
    all_ends = dict(told.get() for _ in processes)
    for process in processes:
        process.join()
    return all_ends


def only(all_ends, allowed):
    """No call ended otherwise."""
    for what, ends in all_ends.items():
        same(what, {end: count for end, count in ends.items() if end not in allowed}, {})


def open_and_close(path, flags=os.O_RDONLY):
    """Opens a path, and closes it."""
    os.close(os.open(path, flags))


def removed_and_made():
    """A file is removed, and another one made, which gets its number: its mode and size stay."""
    old, new = f'{folder}/old', f'{folder}/new'
    changed = collections.Counter()

    def work():
        make(old)
        os.unlink(old)
        make(new, b'x' * 1000, 0o600)
        time.sleep(0.0005)
        found = os.stat(new)
        changed[f'mode {found.st_mode & 0o7777:o}'] += found.st_mode & 0o7777 != 0o600
        changed[f'size {found.st_size}'] += found.st_size != 1000
        os.unlink(new)

    all_ends = beside({
        'chmod of a removed file': lambda: os.chmod(old, 0o777),
        'truncate of a removed file': lambda: os.truncate(old, 7),
        'stat of a removed file': lambda: os.stat(old),
        'open of a removed file': lambda: open_and_close(old),
    }, work)
    only(all_ends, {'done', 'ENOENT'})
    same('new files that a call for a removed one changed', {what: count for what, count in changed.items() if count}, {})


def replaced():
    """A name that a rename replaces is always there."""
    name, new = f'{folder}/name', f'{folder}/new'
    make(name, b'0' * 5000)
    torn = multiprocessing.Value('i', 0)
    at = 0

    def read_whole():
        fd = os.open(name, os.O_RDONLY)
        data = os.read(fd, 10000)
        os.close(fd)
        if len(data) != 5000 or len(set(data)) != 1:
            torn.value += 1

    def work():
        nonlocal at
        at += 1
        make(new, b'%d' % (at % 10) * 5000)
        os.rename(new, name)

    all_ends = beside({
        'open and read of a replaced name': read_whole,
        'stat of a replaced name': lambda: os.stat(name),
        'chmod of a replaced name': lambda: os.chmod(name, 0o600 + at % 8),
        'utime of a replaced name': lambda: os.utime(name, (1, 1)),
        'open to append to a replaced name': lambda: open_and_close(name, os.O_WRONLY | os.O_APPEND),
    }, work)
    only(all_ends, {'done'})
    same('reads that were no whole file', torn.value, 0)
    only(beside({'truncate of a replaced name': lambda: os.truncate(name, 5000)}, work), {'done'})
    os.unlink(name)


def directories():
    """A directory is made and removed, and files get its number meanwhile."""
    name, file = f'{folder}/directory', f'{folder}/file'

    def work():
        outcome(os.mkdir, name)
        outcome(os.rmdir, name)
        make(file)
        os.unlink(file)

    all_ends = beside({
        'mkdir beside rmdir': lambda: os.mkdir(name),
        'rmdir beside mkdir': lambda: os.rmdir(name),
        'stat of a removed directory': lambda: os.stat(name),
        'listing of a removed directory': lambda: os.listdir(name),
        'open of a removed directory': lambda: open_and_close(name, os.O_DIRECTORY),
        'chmod of a removed directory': lambda: os.chmod(name, 0o755),
        'create in a removed directory': lambda: os.unlink(f'{name}/nothing'),
    }, work)
    only(all_ends, {'done', 'ENOENT', 'EEXIST'})
    outcome(os.rmdir, name)


def kinds():
    """One name is a file, a directory and a link by turns."""
    name = f'{folder}/kind'
    for at in range(300):
        make(name, b'%d' % at * 50)
        with open(name, 'rb') as file:
            same('a file of a number that came again', file.read(), b'%d' % at * 50)
        os.unlink(name)
        os.mkdir(name)
        same('a directory of a number that came again', os.listdir(name), [])
        os.rmdir(name)
        os.symlink(f'text {at}', name)
        same('a link of a number that came again', os.readlink(name), f'text {at}')
        os.unlink(name)


removed_and_made()
replaced()
directories()
kinds()
end()
