"""Rows of sessions, as the head of data/sessions.rows says, compared with the plain model."""

import itertools
import re

from model import System
from scripts import run
from version_1 import is_put, stored_of

UNREAD = ('fail', 'fail-sync', 'deferred', 'stop')


def bytes_of(text):
    """The bytes of a text, in which {HH*N} is so many of a byte."""
    out = b''
    for part in re.split(r'(\{[^}]*\})', text):
        if part.startswith('{'):
            code, _, count = part[1:-1].partition('*')
            out += bytes([int(code, 16)]) * int(count or 1)
        else:
            out += part.encode('latin-1')
    return out


def shown(reply):
    """A reply as a row has it: {HH*N} in place of 16 and more of one byte."""
    text = reply.decode('latin-1')
    return re.sub(r'(.)\1{15,}', lambda found: '{%02x*%d}' % (ord(found[1]), len(found[0])), text)


def is_one_of(reply, expected):
    """Whether a reply is one of those with ` | ` between; behind `~` stands only how it begins."""
    for text in expected.split(' | '):
        if reply == bytes_of(text.removeprefix('~')):
            return True
        if text.startswith('~') and reply.startswith(bytes_of(text[1:])):
            return True
    return False


def words_of_run(line):
    """The words of a `run` line: pairs of name and value, which some have none of."""
    return [word.partition('=')[::2] for word in line.split()[1:]]


def values_of(name, value):
    """The values that a word of a `run` line stands for."""
    if name == 'keep':
        return value.split(',')
    first, _, last = value.partition('..')
    return range(int(first), int(last or first) + 1)


def rows_of(text):
    """The rows of a file: lists of lines, the title first."""
    rows = [row.split('\n') for row in text.split('\nrow ')[1:]]
    return [[line for line in row if line and not line.startswith('#')] for row in rows]


def is_read(row):
    """Whether the model can read a row: sessions and checks, and no failures or changed bytes."""
    stored = stored_of(row[0])
    for line in row[1:]:
        if stored is not None and is_put(line):
            continue
        if line.startswith('  ') or line.startswith('image ') or line == 'unchanged':
            continue
        if line.split()[0] == 'run' and not set(UNREAD) & {name for name, _ in words_of_run(line)}:
            continue
        if re.match('(disk|nvram) (holds|zeros) |(status|says|check|slots) |bad (->|of )', line):
            continue
        return False
    return True


def holds(system, line):
    """Whether a line that begins a slot agrees with the root that the model has there; one that doesn't says nothing."""
    found = re.match('disk holds (0|4096) (57[0-9a-f]{14,})', line)
    if found is None:
        return True
    head, told = system.head_of_root(int(found[1]) // 4096), bytes.fromhex(found[2])
    return head is not None and (head.startswith(told) or told.startswith(head))


def heads(system):
    """Lines of what the slots of the roots begin with, where that can be read."""
    told = [(4096 * slot, system.head_of_root(slot)) for slot in (0, 1)]
    return ['disk holds %d %s' % (at, head.hex()) for at, head in told if head is not None]


def choices_of(row):
    """All choices of the values of a row's `run` lines, in the order of their words."""
    words = [word for line in row if line.split()[0] == 'run' for word in words_of_run(line)]
    return itertools.product(*[values_of(name, value) for name, value in words])


def difference(row):
    """What the first difference of a row is, and None where there is none."""
    for choice in choices_of(row):
        found = difference_of_choice(row, list(choice))
        if found is not None:
            return '%s: %r: %s' % (row[0], choice, found)
    return None


def difference_of_choice(row, choice):
    """What the first difference of a row is for one of its choices."""
    system = None
    for index, line in enumerate(row):
        if line.startswith('image '):
            system = stored_of(row[0]) or System(*[int(word) for word in line.split()[1:]])
        if line.startswith('check -> ') and index > 0:
            if not is_one_of(system.checked(), line.removeprefix('check -> ')):
                return 'check: the model answers %s' % shown(system.checked())
        if line.startswith('slots ->') and index > 0:
            if line.split()[2:] != [str(sector) for sector in system.lost_slots()]:
                return '%s: the model answers %s' % (line, system.lost_slots())
        if index > 0 and not holds(system, line):
            return '%s: the model has others' % line
        if line.split()[0] != 'run' or index == 0:
            continue
        options = {name: choice.pop(0) for name, _ in words_of_run(line)}
        body = list(itertools.takewhile(lambda line: line.startswith('  '), row[index + 1:]))
        pairs = [line[2:].partition(' -> ')[::2] for line in body if not line.startswith('  |')]
        lines = [bytes_of(command) for command, _ in pairs]
        replies, system = run(system, lines, options.get('cut'), options.get('keep', 'none'),
                              options.get('bytes', 0))
        for (command, expected), reply in zip(pairs, replies):
            if not is_one_of(reply, expected):
                return '%s: the model answers %s' % (command[:80], shown(reply)[:160])
    return None
