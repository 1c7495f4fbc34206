"""The commands of the plain model that go by a path.

Each has its tests in order, and then what it changes. It takes the system and its words, and
gives the reply; a refusal is raised.
"""

import hashlib
import re

from model import refuse
from objects import Directory, Link
from paths import find, resolve, test_link_text, test_new_text, test_text

GREATEST_FILE = 68719476736
MOST_BYTES = 65536
MOST_LINKS = 1000
MOST_NAMES = 65536
MOST_ENTRIES = 1024


# Words and replies


def text_of(word):
    """The bytes that a text word stands for."""
    if word == b'%':
        return b''
    return re.sub(rb'%(..)', lambda found: bytes([int(found.group(1), 16)]), word, flags=re.S)


def word_of(text):
    """The text word of some bytes."""
    if text == b'':
        return b'%'
    return re.sub(rb'[^!-$&-~]', lambda found: b'%%%02x' % found.group()[0], text)


def shown_data(data):
    return b'data ' + (data.hex() or '-').encode()


def figures_of(system, number):
    """Number, kind, mode, links and size of an object."""
    thing = system.volume[number]
    links, size = 1, 0
    if thing.kind == 'link':
        size = len(thing.text)
    if thing.kind == 'file':
        links, size = system.links(number), thing.size
    return number, thing.kind.encode(), thing.mode, links, size


def shown_stat(system, number):
    """What `stat`, `lstat` and `fstat` tell."""
    return b'stat ' + shown_figures(system, number)


def shown_figures(system, number):
    """The same without its first word."""
    return b'number %d kind %s mode %04o links %d size %d' % figures_of(system, number)


def unkept(_system, _words):
    """What is about owners or times. No image that is known here keeps any, whatever the path and the numbers are."""
    return refuse('ENOTSUP')


# Calls that read by a path


def stat(system, words):
    text = text_of(words[1])
    test_text(text)
    return shown_stat(system, find(system, text, words[0] == b'stat').number)


def readlink(system, words):
    text = text_of(words[1])
    test_text(text)
    thing = system.volume[find(system, text, False).number]
    if thing.kind != 'link':
        refuse('EINVAL')
    return b'text ' + word_of(thing.text)


def list_names(system, words):
    text = text_of(words[1])
    test_text(text)
    thing = system.volume[find(system, text, True).number]
    if thing.kind != 'dir':
        refuse('ENOTDIR')
    return b' '.join([b'names'] + [word_of(name) for name in sorted(thing.names)])


def cookie_of(name):
    """Which place a name has among those of a directory that is told in parts."""
    return max(4, int.from_bytes(hashlib.md5(name).digest()[:8], 'big') // 4)


def entries(system, words):
    text, after, count = text_of(words[1]), int(words[2]), int(words[3])
    test_text(text)
    if after < 0 or count == 0 or count > MOST_ENTRIES:
        refuse('EINVAL')
    thing = system.volume[find(system, text, True).number]
    if thing.kind != 'dir':
        refuse('ENOTDIR')
    behind = sorted((cookie_of(name), name) for name in thing.names if cookie_of(name) > after)
    cookies = [cookie for cookie, _ in behind]
    told = [(cookie, name) for cookie, name in behind if cookies.index(cookie) < count]
    return b' '.join([b'entries'] + [shown_entry(system, cookie, name, thing.names[name]) for cookie, name in told])


def shown_entry(system, cookie, name, number):
    """A name as `entries` tells it."""
    return b'%s %d %d %s %04o %d %d' % (word_of(name), cookie, *figures_of(system, number))


def get(system, words):
    text, offset, count = text_of(words[1]), int(words[2]), int(words[3])
    test_text(text)
    if offset < 0 or count > MOST_BYTES:
        refuse('EINVAL')
    thing = system.volume[find(system, text, True).number]
    if thing.kind == 'dir':
        refuse('EISDIR')
    return shown_data(thing.read(offset, count))


def extent(system, words):
    text, offset = text_of(words[1]), int(words[2])
    test_text(text)
    if offset < 0:
        refuse('EINVAL')
    thing = system.volume[find(system, text, True).number]
    if thing.kind == 'dir':
        refuse('EISDIR')
    blocks, data, hole = thing.extent(offset)
    return b'extent blocks %d data %s hole %s' % (blocks, shown_place(data), shown_place(hole))


def shown_place(place):
    return b'-' if place is None else b'%d' % place


# Calls that change by a path


def test_room_for_name(system, directory):
    """A directory has so many names at most."""
    if len(system.volume[directory].names) >= MOST_NAMES:
        refuse('DIRFULL')


def create(system, place, thing, length):
    """Makes an object where nothing is; `length` is what its record has behind the name."""
    test_room_for_name(system, place.directory)
    number = system.fresh_number()
    system.log(13 + len(place.name) + length, 24, 16)
    system.volume[number] = thing
    system.volume[place.directory].add(place.name, number)
    system.touch(number, place.directory)
    return number


def free_place(system, text):
    """Where something is to be made."""
    test_new_text(text)
    place = resolve(system, text, False)
    if place.number is not None:
        refuse('EEXIST')
    return place


def mkdir(system, words):
    place = free_place(system, text_of(words[1]))
    create(system, place, Directory(int(words[2], 8) if len(words) > 2 else 0o755), 0)
    return b'ok'


def symlink(system, words):
    text = text_of(words[1])
    test_link_text(text)
    place = free_place(system, text_of(words[2]))
    create(system, place, Link(text), 2 + len(text))
    return b'ok'


def rmdir(system, words):
    text = text_of(words[1])
    test_new_text(text)
    if text == b'/':
        refuse('EBUSY')
    place = find(system, text, False)
    thing = system.volume[place.number]
    if thing.kind != 'dir':
        refuse('ENOTDIR')
    if thing.names:
        refuse('ENOTEMPTY')
    take_name(system, place)
    return b'ok'


def unlink(system, words):
    text = text_of(words[1])
    test_new_text(text)
    place = find(system, text, False)
    if system.volume[place.number].kind == 'dir':
        refuse('EPERM')
    take_name(system, place)
    return b'ok'


def take_name(system, place):
    """Takes a name away, and what it leads to where nothing else holds it."""
    system.log(6 + len(place.name), 24, 0)
    system.volume[place.directory].remove(place.name)
    system.touch(place.number, place.directory)
    system.lose_name(place.number)


def link(system, words):
    old, new = text_of(words[1]), text_of(words[2])
    test_text(old)
    test_new_text(new)
    number = find(system, old, False).number
    if system.volume[number].kind != 'file':
        refuse('EPERM')
    place = free_place(system, new)
    if system.links(number) >= MOST_LINKS:
        refuse('EMLINK')
    test_room_for_name(system, place.directory)
    system.log(10 + len(place.name), 24, 16)
    system.volume[place.directory].add(place.name, number)
    system.touch(place.directory, number)
    return b'ok'


def rename(system, words):
    old, new = text_of(words[1]), text_of(words[2])
    test_new_text(old)
    test_new_text(new)
    if b'/' in (old, new):
        refuse('EBUSY')
    source = find(system, old, False)
    target = resolve(system, new, False)
    if target.number is not None and words[0] == b'renamenew':
        refuse('EEXIST')
    if target.number == source.number:
        return b'ok'
    test_rename(system, source, target)
    system.log(11 + len(source.name) + len(target.name), 24, 16)
    if target.number is not None:
        system.volume[target.directory].remove(target.name)
        system.touch(target.number)
    system.volume[source.directory].remove(source.name)
    system.volume[target.directory].add(target.name, source.number)
    system.touch(source.directory, target.directory)
    if target.number is not None:
        system.lose_name(target.number)
    return b'ok'


def test_rename(system, source, target):
    """The tests of both places of a rename."""
    is_directory = system.volume[source.number].kind == 'dir'
    if is_directory and is_below(system, target.directory, source.number):
        refuse('EINVAL')
    if target.number is None:
        if target.directory != source.directory:
            test_room_for_name(system, target.directory)
        return
    thing = system.volume[target.number]
    if is_directory and thing.kind != 'dir':
        refuse('ENOTDIR')
    if thing.kind == 'dir' and not is_directory:
        refuse('EISDIR')
    if thing.kind == 'dir' and thing.names:
        refuse('ENOTEMPTY')


def is_below(system, number, top):
    """Whether a directory is another one, or stands somewhere in it."""
    if number == top:
        return True
    names = system.volume[top].names.values()
    directories = [inner for inner in names if system.volume[inner].kind == 'dir']
    return any(is_below(system, number, inner) for inner in directories)


def chmod(system, words):
    text = text_of(words[1])
    test_text(text)
    change_mode(system, find(system, text, True).number, int(words[2], 8))
    return b'ok'


def change_mode(system, number, mode):
    """Gives an object a mode, also where it has it."""
    system.log(7, 2, 0)
    system.volume[number].mode = mode
    system.touch(number)


def set_given(system, words):
    """Gives what a path leads to a mode, a size or both, by one record."""
    text = text_of(words[1])
    mode = None if words[2] == b'-' else int(words[2], 8)
    size = None if words[3] == b'-' else int(words[3])
    test_text(text)
    if size is not None:
        test_size(size)
    number = find(system, text, True).number
    thing = system.volume[number]
    if size is not None and thing.kind == 'dir':
        refuse('EISDIR')
    has_size = size is None or thing.size == size
    if mode is not None and not has_size:
        system.log(15, 6, 16 if size > thing.size else 0)
        thing.mode = mode
        thing.resize(size)
        system.touch(number)
    elif mode is not None:
        change_mode(system, number, mode)
    elif not has_size:
        resize(system, number, size)
    return b'ok'


def truncate(system, words):
    text, size = text_of(words[1]), int(words[2])
    test_text(text)
    test_size(size)
    number = find(system, text, True).number
    if system.volume[number].kind == 'dir':
        refuse('EISDIR')
    resize(system, number, size)
    return b'ok'


def test_size(size):
    """The sizes that a file may have."""
    if size < 0:
        refuse('EINVAL')
    if size > GREATEST_FILE:
        refuse('EFBIG')


def resize(system, number, size):
    """Gives a file a size, where it has another."""
    if system.volume[number].size != size:
        system.log(13, 6, 16 if size > system.volume[number].size else 0)
        system.volume[number].resize(size)
        system.touch(number)
