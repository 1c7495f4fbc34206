#!/usr/bin/env python3
"""Writes the data: requests that were recorded, written by hand, or made from fixed numbers, with the replies of the plain model.

    generate.py             writes the files data/*.requests; of the recorded ones it keeps the requests that stand there
    generate.py --check     says whether they stand as made
    generate.py --more FIRST COUNT FILE
                            writes other rows of 150 requests into a file, one for each seed from FIRST on, for a longer comparison; with
                            --more-kept no file or link loses its last name

The program `requests` compares these replies with the server's. It reads the data alone: no test of the project runs Python.
"""

import sys

sys.dont_write_bytecode = True

from pathlib import Path  # noqa: E402

from batches_by_hand import FILE, rows_of_batches  # noqa: E402
from by_hand import rows_by_hand  # noqa: E402
from chosen import Chooser  # noqa: E402
from heads import HEADS  # noqa: E402
from rows import DATA, rows_of, text_of  # noqa: E402

BY_HAND = ('hand.requests', 'removed_hand.requests')
# Of each file whether last names go, and the seeds: ones with requests and refusals of many kinds.
BY_NUMBERS = {'random.requests': (False, [28, 60, 35, 12]), 'removed_random.requests': (True, [47, 28, 24, 35])}
SIZES = [(64, 32), (128, 32), (256, 32)]


def rows_by_numbers(has_removals, seeds, length):
    """Rows of so many requests."""
    return [Chooser(seed, has_removals, SIZES[seed % 3]).row('random %d' % seed, length) for seed in seeds]


def made(name):
    """The text of a file."""
    if name == FILE:
        rows = rows_of_batches()
    elif name in BY_HAND:
        rows = rows_by_hand(name)
    elif name in BY_NUMBERS:
        rows = rows_by_numbers(*BY_NUMBERS[name], 80)
    else:
        rows = rows_of(DATA / name)
    return text_of(HEADS[name], rows)


def main(words):
    """Does what the words say: the exit status."""
    if len(words) == 4 and words[0] in ('--more', '--more-kept'):
        seeds = range(int(words[1]), int(words[1]) + int(words[2]))
        Path(words[3]).write_text(text_of('#', rows_by_numbers(words[0] == '--more', seeds, 150)))
        return 0
    if words not in ([], ['--check']):
        print(__doc__)
        return 2
    stand = True
    for name in HEADS:
        text, path = made(name), DATA / name
        print('%s: %d rows, %d requests' % (name, text.count('\nrow '), text.count('\nask ')))
        if not words:
            path.write_text(text)
        elif not path.exists() or path.read_text() != text:
            stand = False
            print('%s: not as made' % name)
    return 0 if stand else 1


if __name__ == '__main__':
    sys.exit(main(sys.argv[1:]))
