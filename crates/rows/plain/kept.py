"""Snapshots of the plain model."""


class Snapshot:
    """The tree under the newest root as it was taken, and the places of its blocks and of its root block.

    `volume` is what can be read of it. `whole` has the files without a name as well, whose blocks are
    kept too.
    """

    def __init__(self, name, system):
        self.name, self.nameless = name, system.nameless()
        self.whole = {number: thing.copy() for number, thing in system.volume.items()}
        self.volume = {number: thing for number, thing in self.whole.items() if number not in self.nameless}
        self.tree, self.inode_blocks, self.numbers = dict(system.places), set(system.inode_blocks), set(system.numbers)
        self.places = set(self.tree.values())
