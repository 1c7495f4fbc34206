"""Where a consistency point of the plain model puts what it stores.

Of the places that are free each block that is stored takes the least, in the order of writing: the
root block of a snapshot, the blocks of files by their numbers, the inode map, the inode file and
the block map, of each its indirect blocks behind the others. A block of the block map is stored
where an entry in it changes, and its own old and new places are among those entries.
"""

ENTRIES_OF_A_BLOCK = 1024
HEAD = ('head', 0)
TOPS = ['inode map', 'inodes', 'over inodes', 'map', 'over map']


def order_of_writing(block):
    """What blocks are sorted by."""
    if block == HEAD:
        return (0,)
    if block[0] in TOPS:
        return (2, TOPS.index(block[0]), block[1])
    number, kind, index = block
    return (1, number, kind == 'indirect', index)


def is_of_map(block):
    """Whether a block is one of the block map."""
    return block[0] in ('map', 'over map')


def map_blocks(block_count):
    """Blocks of the block map, with the indirect one over them."""
    count = -(-block_count // ENTRIES_OF_A_BLOCK)
    own = [('map', index) for index in range(count)]
    return own + ([('over map', 0)] if count > 16 else [])


def places_to_come(places, stored, gone, entries, free, block_count):
    """The places of a tree behind a point, of the block map too.

    `places` are those before it, without the blocks of `gone`; `stored` are the blocks but the
    map's that are written; `entries` change beside these; `free` are the free places, rising.
    """
    written = sorted(stored, key=order_of_writing)
    new = dict(zip(written, free))
    entries = set(entries) | {places[block] for block in gone} | set(new.values())
    changed = set()
    while changed != {entry // ENTRIES_OF_A_BLOCK for entry in entries}:
        changed = {entry // ENTRIES_OF_A_BLOCK for entry in entries}
        own = [block for block in map_blocks(block_count)
               if block[0] == 'over map' or block[1] in changed]
        of_map = dict(zip(own, free[len(written):]))
        entries |= set(of_map.values()) | {places[block] for block in own if block in places}
    stays = {block: place for block, place in places.items() if block not in gone}
    return {**stays, **new, **of_map}, len(new) + len(of_map)
