"""The commands of the plain model that put bytes or go by a descriptor, and `open`."""

import re

from calls import GREATEST_FILE, MOST_BYTES, change_mode, create, resize, shown_data, shown_figures
from calls import shown_stat, test_size, text_of
from model import refuse
from objects import BLOCK, File
from paths import find, resolve, test_text

LAST_OFFSET = 2 ** 63 - 1
# A file up to this size has one row of indirect blocks at the most.
SINGLE_FILE = 67108864


class Opened:
    """What a descriptor stands for."""

    def __init__(self, number, reads, writes, appends):
        self.number = number
        self.offset = 0
        self.reads = reads
        self.writes = writes
        self.appends = appends

    def moved(self, offset):
        """The same at another offset."""
        other = Opened(self.number, self.reads, self.writes, self.appends)
        other.offset = offset
        return other


def open_file(system, words):
    text, flags = text_of(words[1]), words[2].decode()
    letters = re.fullmatch('(rw|r|w)(c?)(x?)(t?)(a?)', flags)
    access, creates, excludes, cuts, appends = letters.groups()
    test_text(text)
    if excludes and not creates or cuts and 'w' not in access:
        refuse('EINVAL')
    if None not in system.descriptors:
        refuse('EMFILE')
    place = resolve(system, text, not excludes)
    if place.number is None and not creates:
        refuse('ENOENT')
    number = place.number
    if number is None:
        number = create(system, place, File(int(words[3], 8) if len(words) > 3 else 0o644), 0)
    elif excludes:
        refuse('EEXIST')
    elif system.volume[number].kind == 'dir':
        refuse('EISDIR')
    elif cuts:
        resize(system, number, 0)
    descriptor = system.descriptors.index(None)
    system.descriptors[descriptor] = Opened(number, 'r' in access, 'w' in access, appends == 'a')
    if words[0] == b'openstat':
        return b'opened fd %d %s' % (descriptor, shown_figures(system, number))
    return b'fd %d' % descriptor


def opened_of(system, word):
    """The descriptor, and what it stands for."""
    descriptor = int(word)
    if descriptor >= len(system.descriptors) or system.descriptors[descriptor] is None:
        refuse('EBADF')
    return descriptor, system.descriptors[descriptor]


def close(system, words):
    descriptor, opened = opened_of(system, words[1])
    system.descriptors[descriptor] = None
    if system.links(opened.number) == 0 and not system.is_open(opened.number):
        system.drop(opened.number)
    return b'ok'


def fstat(system, words):
    return shown_stat(system, opened_of(system, words[1])[1].number)


def fsync(system, words):
    opened_of(system, words[1])
    return b'ok'


def read(system, words):
    descriptor, opened = opened_of(system, words[1])
    is_placed = words[0] == b'pread'
    offset, count = int(words[2]) if is_placed else opened.offset, int(words[-1])
    if not opened.reads:
        refuse('EBADF')
    if offset < 0 or count > MOST_BYTES:
        refuse('EINVAL')
    data = system.volume[opened.number].read(offset, count)
    if not is_placed:
        system.descriptors[descriptor] = opened.moved(offset + len(data))
    return shown_data(data)


def write(system, words):
    descriptor, opened = opened_of(system, words[1])
    data = data_of(words[-1])
    is_placed = words[0] == b'pwrite'
    end = system.volume[opened.number].size
    offset = int(words[2]) if is_placed else end if opened.appends else opened.offset
    if not opened.writes:
        refuse('EBADF')
    if offset < 0 or len(data) > MOST_BYTES:
        refuse('EINVAL')
    if data:
        put(system, opened.number, offset, data)
    if data and not is_placed:
        system.descriptors[descriptor] = opened.moved(offset + len(data))
    return b'wrote %d' % len(data)


def data_of(word):
    """The bytes that a word of data stands for."""
    return bytes.fromhex('' if word == b'-' else word.decode())


def store(system, words):
    text, offset, data = text_of(words[1]), int(words[2]), data_of(words[3])
    test_text(text)
    if offset < 0 or len(data) > MOST_BYTES:
        refuse('EINVAL')
    number = find(system, text, True).number
    if system.volume[number].kind == 'dir':
        refuse('EISDIR')
    if data:
        put(system, number, offset, data)
    return b'wrote %d' % len(data)


def put(system, number, offset, data):
    """Logs at least one byte, and puts it."""
    end = offset + len(data)
    if end > GREATEST_FILE:
        refuse('EFBIG')
    touched = (end - 1) // BLOCK - offset // BLOCK + 1
    more = 8 if max(end, system.volume[number].size) > SINGLE_FILE else 6
    system.log(17 + len(data), 2 * touched + more, 16)
    system.volume[number].write(offset, data)
    system.touch(number)


def lseek(system, words):
    descriptor, opened = opened_of(system, words[1])
    starts = {b'set': 0, b'cur': opened.offset, b'end': system.volume[opened.number].size}
    offset = starts[words[2]] + int(words[3])
    if offset < 0:
        refuse('EINVAL')
    if offset > LAST_OFFSET:
        refuse('EOVERFLOW')
    system.descriptors[descriptor] = opened.moved(offset)
    return b'at %d' % offset


def ftruncate(system, words):
    opened, size = opened_of(system, words[1])[1], int(words[2])
    if not opened.writes:
        refuse('EINVAL')
    test_size(size)
    resize(system, opened.number, size)
    return b'ok'


def fchmod(system, words):
    change_mode(system, opened_of(system, words[1])[1].number, int(words[2], 8))
    return b'ok'
