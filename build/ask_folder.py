"""ask_folder.py SERVER DEVICE MILLISECONDS: beside the process SERVER, which serves a folder deferred: where programs fall silent, asks for
the folder's free space, by which all is durable that was answered before; so the last call doesn't wait for the next one. Ends when the
server does. DEVICE is the number of the folder's device, MAJOR:MINOR, as /proc/self/mountinfo has it.

While requests come, the server itself sees that so many milliseconds have passed, and no more has to be asked: that space costs a
consistency point. So it looks twice in that time whether the server has read anything, and asks once where it had and then hasn't: a call is
durable within twice the time.

It asks by the device's number, where the kernel has the call for it, and so keeps no mount in use: umount finds the folder free at any
time."""

import ctypes
import os
import platform
import select
import sys

# Shorter pauses aren't made.
LEAST_MILLISECONDS = 5
# What a server reads for one such question: the head of a request of FUSE.
QUESTION_BYTES = 40
# The number of ustat(2) where the kernel has it.
USTAT = {'x86_64': 136, 'i686': 62}.get(platform.machine())


def bytes_read(counters):
    """How many bytes the server has read until now, of requests and of its files; None where that isn't told."""
    try:
        return int(os.pread(counters, 100, 0).split()[1])
    except (OSError, TypeError, IndexError):
        return None


def ask(device):
    """Asks for the free space."""
    major, minor = map(int, device.split(':'))
    room = ctypes.create_string_buffer(256)
    number = ctypes.c_uint(os.makedev(major, minor) & 0xffffffff)
    if USTAT is None or ctypes.CDLL(None).syscall(USTAT, number, room) != 0:
        ask_mounts(device)


def ask_mounts(device):
    """The same by the folder's path, wherever it is seen."""
    with open('/proc/self/mountinfo', encoding='utf-8', errors='surrogateescape') as mounts:
        fields = [line.split(' ') for line in mounts]
    for place in [each[4] for each in fields if each[2] == device]:
        for spelled, char in ((r'\040', ' '), (r'\011', '\t'), (r'\012', '\n'), (r'\134', '\\')):
            place = place.replace(spelled, char)
        try:
            os.statvfs(place)
        except OSError:
            pass


def main():
    server, device, milliseconds = sys.argv[1:]
    pause = max(int(milliseconds) // 2, LEAST_MILLISECONDS)
    try:
        ended = os.pidfd_open(int(server))
    except ProcessLookupError:
        return
    try:
        counters = os.open(f'/proc/{server}/io', os.O_RDONLY)
    except OSError:
        counters = None
    ending = select.poll()
    ending.register(ended, select.POLLIN)
    # What it had read at the last look, with the question that was asked then, and whether more came behind the last question.
    before, waits = 0, True
    while not ending.poll(pause):
        now = bytes_read(counters)
        if now is not None and now != before:
            before, waits = now, True
        elif now is None or waits:
            ask(device)
            before, waits = before + QUESTION_BYTES, False


main()
