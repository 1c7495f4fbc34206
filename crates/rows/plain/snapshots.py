"""The commands of the plain model on snapshots."""

import re

import calls
from model import DESCRIPTORS, refuse

MOST_SNAPSHOTS = 30
READING = {b'list': calls.list_names, b'entries': calls.entries, b'stat': calls.stat,
           b'lstat': calls.stat, b'attr': calls.unkept, b'lattr': calls.unkept, b'readlink': calls.readlink,
           b'get': calls.get}


def snap(system, words):
    """`snap take`, `snap delete`, `snap restore` and `snap list`."""
    if words[1] == b'list':
        return b' '.join([b'snaps'] + [calls.word_of(kept.name) for kept in system.snapshots])
    name = calls.text_of(words[2])
    if words[1] == b'take':
        take(system, name)
    elif words[1] == b'restore':
        restore(system, named(system, name))
    else:
        system.delete(named(system, name))
    return b'ok'


def take(system, name):
    """Tests a name, stores all, and keeps it."""
    if not re.fullmatch(rb'[A-Za-z0-9._-]{1,63}', name):
        refuse('BADNAME')
    if name in [kept.name for kept in system.snapshots]:
        refuse('SNAPEXISTS')
    if len(system.snapshots) >= MOST_SNAPSHOTS:
        refuse('SNAPFULL')
    settle_with_room(system, 0)
    system.take(name)


def restore(system, kept):
    """Goes back to the tree of a snapshot, where no file is open."""
    if system.descriptors != [None] * DESCRIPTORS:
        refuse('EBUSY')
    settle_with_room(system, len(kept.nameless))
    system.restore(kept)


def settle_with_room(system, dropped):
    """Puts all under the newest root, where there is room for the point behind that, which drops so many files."""
    asked = system.fixed() + 1 + 4 * dropped
    system.make_room(asked)
    system.point()


def named(system, name):
    """The snapshot of a name."""
    for kept in system.snapshots:
        if kept.name == name:
            return kept
    return refuse('NOSNAP')


def within(system, words):
    """A call on the tree of a snapshot."""
    kept = named(system, calls.text_of(words[1]))
    if words[2] not in READING:
        refuse('EROFS')
    view = system.copy()
    view.volume, view.descriptors = kept.volume, [None] * DESCRIPTORS
    return READING[words[2]](view, words[2:])
