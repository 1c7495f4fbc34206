"""The kernel's numbers of objects, and what of a request has to do with no one object."""

import errno

import messages
from tree import ROOT, refuse

ROOT_NODE, SNAPSHOTS_NODE = 1, 2
WITHIN = 2 ** 63
SNAPSHOTS_NAME = b'.snapshot'
GREATEST_FILE = 2 ** 36
GREATEST_OFFSET = 2 ** 63


def number_of(node):
    """The number that a node tells; 1 is the root's node."""
    return ROOT if node == ROOT_NODE else node & 0xffffffff


def node_within(kept, number):
    """The node of what has a number in a snapshot."""
    return WITHIN + (kept.identity << 32) + number


def is_snapshots(number, name):
    """Whether a name is the server's own: the folder of snapshots has it in the root, whatever else may have it there."""
    return number == ROOT and name == SNAPSHOTS_NAME


def missing(refusal):
    """The answer to a look-up that failed: a name that isn't there is told so, and the kernel keeps that."""
    if refusal.args[0] == errno.ENOENT:
        return messages.no_entry()
    raise refusal


def test_size(size):
    """The sizes that a file may have."""
    if size is not None and size > GREATEST_FILE:
        refuse(errno.EFBIG)
