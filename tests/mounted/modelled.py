"""A directory's files beside the same in memory: what calls that were answered have made of them, and what one that wasn't may have."""

import os


def spliced(old, at, data):
    """Bytes behind a write."""
    return old[:at] + bytes(max(0, at - len(old))) + data + old[at + len(data):]


def is_begun(found, old, at, data):
    """Whether bytes are the old ones with a beginning of the data written at a place, or none of it."""
    if found == old:
        return True
    if len(found) != len(old):
        count = len(found) - at
    else:
        count = max(place for place in range(len(old)) if found[place] != old[place]) + 1 - at
    return 0 < count <= len(data) and found == spliced(old, at, data[:count])


class Modelled:
    """The files of a directory, by name. Each call changes the directory and then the model; one that fails leaves both, and what it may
    have made in `under_way`."""

    def __init__(self, folder):
        self.folder = folder
        self.files = {}
        self.under_way = None
        self.answered = 0

    def path(self, name):
        """The path of a name."""
        return os.path.join(self.folder, name)

    def ask(self, call, after):
        """Does a call, behind which the files are those."""
        self.under_way = lambda found: found == after
        result = call()
        self.files = after
        self.under_way = None
        self.answered += 1
        return result

    def without(self, *names):
        """The files but those of these names."""
        return {name: data for name, data in self.files.items() if name not in names}

    def create(self, name, mode=0o644):
        """Makes a file, or cuts one to nothing; returns a descriptor."""
        flags = os.O_CREAT | os.O_TRUNC | os.O_RDWR
        return self.ask(lambda: os.open(self.path(name), flags, mode), {**self.files, name: b''})

    def write(self, fd, name, at, data):
        """Writes at a place; the kernel may part it, so of one that isn't answered any beginning may be there."""
        while data:
            old, rest, place = self.files[name], data, at
            self.under_way = lambda found: found.keys() == self.files.keys() and all(
                is_begun(found[name], old, place, rest) if other == name else found[other] == self.files[other] for other in found)
            count = os.pwrite(fd, data, at)
            self.files[name] = spliced(old, at, data[:count])
            self.under_way = None
            self.answered += 1
            at, data = at + count, data[count:]

    def truncate(self, name, size, fd=None):
        """Gives a file this size, by its name or by a descriptor."""
        old = self.files[name]
        new = old[:size] + bytes(max(0, size - len(old)))
        self.ask(lambda: os.truncate(self.path(name) if fd is None else fd, size), {**self.files, name: new})

    def unlink(self, name):
        """Takes a name away."""
        self.ask(lambda: os.unlink(self.path(name)), self.without(name))

    def rename(self, name, new):
        """Gives a file another name, whose file goes."""
        self.ask(lambda: os.rename(self.path(name), self.path(new)), {**self.without(name), new: self.files[name]})

    def link(self, name, new):
        """Gives a file one more name."""
        self.ask(lambda: os.link(self.path(name), self.path(new)), {**self.files, new: self.files[name]})

    def found(self):
        """The files that are there."""
        found = {}
        for name in os.listdir(self.folder):
            with open(self.path(name), 'rb') as file:
                found[name] = file.read()
        return found

    def differs(self):
        """What is there and isn't what was answered, nor that with the call under way; then goes on from what is there."""
        found = self.found()
        is_so = found == self.files or (self.under_way is not None and self.under_way(found))
        names = sorted(name for name in found.keys() | self.files.keys() if found.get(name) != self.files.get(name))
        self.files = found
        self.under_way = None
        return [] if is_so else names
