"""What the tests share: each difference is told, and the test goes on to its end."""

import errno
import os
import sys

differences = 0


def same(what, got, wanted):
    """Tells of a difference."""
    global differences
    if got != wanted:
        differences += 1
        print(f'{what}: {got!r}, and not {wanted!r}')


def holds(what, is_so):
    """Tells of what doesn't hold."""
    same(what, bool(is_so), True)


def outcome(call, *words, **named):
    """The name of the error that the call ends with, or `done`."""
    try:
        call(*words, **named)
        return 'done'
    except OSError as error:
        return errno.errorcode.get(error.errno, str(error.errno))


def as_user(call, uid=65534, gid=65534):
    """What the call prints, run by another user in a process of its own, of which only that group is."""
    read_end, write_end = os.pipe()
    child = os.fork()
    if child == 0:
        os.setgroups([])
        os.setresgid(gid, gid, gid)
        os.setresuid(uid, uid, uid)
        os.umask(0)
        os.write(write_end, outcome(call).encode())
        os._exit(0)
    os.close(write_end)
    os.waitpid(child, 0)
    with os.fdopen(read_end) as said:
        return said.read()


def end():
    """Ends the test."""
    sys.exit(differences != 0)
