"""Texts of paths in the plain model, and what they lead to."""

import re

from model import ROOT, refuse

LONGEST_PATH = 1023
LONGEST_NAME = 255
MOST_LINKS = 8


class Place:
    """What a path leads to: `number` is None for a name that isn't there, `name` for the root and for a number alone."""

    def __init__(self, number, directory, name):
        self.number = number
        self.directory = directory
        self.name = name


def start_of(text):
    """The number that a text begins at; None where it begins at the root, or nowhere."""
    found = re.fullmatch(rb'@(0|[1-9][0-9]*)', text.split(b'/')[0])
    return int(found[1]) if found and int(found[1]) < 2 ** 32 else None


def parts_behind(text):
    """The names behind where a text begins."""
    return parts_of(text) if start_of(text) is None else parts_of(text)[1:]


def test_text(text):
    """The tests of a path's text."""
    if text == b'':
        refuse('ENOENT')
    if b'\0' in text:
        refuse('EINVAL')
    if len(text) > LONGEST_PATH:
        refuse('ENAMETOOLONG')
    if text[:1] != b'/' and start_of(text) is None:
        refuse('EINVAL')
    if len(text) > 1 and text[-1:] == b'/':
        refuse('EINVAL')
    if any(len(part) > LONGEST_NAME for part in text.split(b'/')):
        refuse('ENAMETOOLONG')
    if start_of(text) is not None and b'..' in parts_of(text):
        refuse('EINVAL')


def test_new_text(text):
    """The tests of the text of something that is to be made or taken away."""
    test_text(text)
    if text.split(b'/')[-1] in (b'.', b'..'):
        refuse('EINVAL')
    if start_of(text) is not None and not parts_behind(text):
        refuse('EINVAL')


def test_link_text(text):
    """The tests of a symbolic link's text."""
    if text == b'':
        refuse('ENOENT')
    if b'\0' in text:
        refuse('EINVAL')
    if len(text) > LONGEST_PATH:
        refuse('ENAMETOOLONG')


def parts_of(text):
    """The names between slashes."""
    return [part for part in text.split(b'/') if part]


def resolve(system, text, follows):
    """Where a path leads. A last symbolic link is followed where `follows` says so.

    Behind a number none is followed, and the way up from a directory is never asked for.
    """
    parts, start = parts_behind(text), start_of(text)
    if start is not None:
        test_start(system, start, parts, follows)
        if not parts:
            return Place(start, None, None)
    trail = [(ROOT if start is None else start, None)]
    links = 0
    while parts:
        part = parts.pop(0)
        if part == b'..' and len(trail) > 1:
            trail.pop()
        if part in (b'.', b'..'):
            continue
        if len(part) > LONGEST_NAME:
            refuse('ENAMETOOLONG')
        directory = trail[-1][0]
        number = system.volume[directory].names.get(part)
        if number is None:
            return refuse('ENOENT') if parts else Place(None, directory, part)
        thing = system.volume[number]
        if thing.kind == 'link' and (parts or follows):
            links += 1
            if links > (MOST_LINKS if start is None else 0):
                refuse('ELOOP')
            parts = parts_of(thing.text) + parts
            trail = [(ROOT, None)] if thing.text[:1] == b'/' else trail
        elif thing.kind == 'dir':
            trail.append((number, part))
        else:
            return refuse('ENOTDIR') if parts else Place(number, directory, part)
    number, name = trail[-1]
    return Place(number, trail[-2][0] if len(trail) > 1 else ROOT, name)


def test_start(system, number, parts, follows):
    """The tests of the number that a path begins at."""
    if number not in system.volume or number in system.nameless():
        refuse('ESTALE')
    kind = system.volume[number].kind
    if parts and kind != 'dir':
        refuse('ENOTDIR')
    if kind == 'link' and follows:
        refuse('ELOOP')


def find(system, text, follows):
    """As `resolve`, but a name that isn't there is refused."""
    place = resolve(system, text, follows)
    if place.number is None:
        refuse('ENOENT')
    return place
