"""Parts of listings."""

import errno

import messages
from nodes import GREATEST_OFFSET
from tree import DIRECTORY_TYPES, refuse


class Part:
    """A part of a listing, of so many bytes at most."""

    def __init__(self, request):
        self.behind, self.size = request.fields['offset'], request.fields['size']
        self.is_plus = request.name == 'READDIRPLUS'
        self.text = b''

    def add(self, place, name, inode, kind, entry):
        """Tells a name, if it is behind the part's beginning: whether there was room."""
        told = (entry if self.is_plus else b'') + messages.listed(inode, place, DIRECTORY_TYPES[kind], name)
        if place <= self.behind:
            return True
        if len(self.text) + len(told) > self.size:
            return False
        self.text += told
        return True

    def begin(self, inode):
        """Tells `.` and `..`, both with the number by which programs see the directory itself: whether names may follow."""
        return self.add(1, b'.', inode, 'dir', no_attributes()) and self.add(2, b'..', inode, 'dir', no_attributes()) \
            and self.behind < GREATEST_OFFSET

    def tell(self, names):
        """Tells names, as far as there is room; not even one is an error."""
        for name in names:
            if not self.add(*name):
                return self.text or refuse(errno.EINVAL)
        return self.text


def no_attributes():
    """The entry of a name that a listing tells no node of; the kernel looks at nothing else of it."""
    return messages.entry(0, 0, bytes(88))


def listed_directory(tree, number):
    """The directory that is to be listed; a link isn't followed."""
    thing = tree.standing(number)
    if thing.kind != 'dir':
        refuse(errno.ELOOP if thing.kind == 'link' else errno.ENOTDIR)
    return thing
