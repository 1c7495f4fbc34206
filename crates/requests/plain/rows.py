"""Rows of requests, as the data files have them: they are read, and written with the model's replies."""

from pathlib import Path

import messages
from room import Room
from server import Server

DATA = Path(__file__).resolve().parent.parent / 'data'


class Row:
    """A title, sizes of the image, whose folder it is, the commands that come first, and of each session the requests with their times."""

    def __init__(self, title, sizes, owner, sessions, before=()):
        self.title, self.sizes, self.owner, self.sessions, self.before = title, sizes, owner, sessions, list(before)

    def count(self):
        """How many requests it has."""
        return sum(len(session) for session in self.sessions)

    def lines(self):
        """Its lines, with the replies of the model."""
        yield from ['', 'row ' + self.title, 'image %d %d' % self.sizes, 'owner %d %d' % self.owner]
        yield from ['before ' + command for command in self.before]
        server, time = None, None
        for session in self.sessions:
            if server is None:
                server = Server(Room(*self.sizes, self.before), self.owner, session[0][0])
            else:
                server.mount(session[0][0])
                yield 'again'
            for now, message in session:
                if now != time:
                    yield 'at %d %d' % now
                time = now
                yield from ['# ' + messages.told_of(message), 'ask ' + messages.spelled(message),
                            'told ' + messages.spelled(server.answer(message, now))]


def rows_of(path):
    """The rows of a file, but for their replies."""
    rows, now = [], None
    for line in path.read_text().splitlines():
        verb, _, words = line.partition(' ')
        if verb == 'row':
            rows.append(Row(words, None, None, [[]]))
        elif not rows:
            continue
        elif verb == 'image':
            rows[-1].sizes = tuple(int(word) for word in words.split())
        elif verb == 'owner':
            rows[-1].owner = tuple(int(word) for word in words.split())
        elif verb == 'before':
            rows[-1].before.append(words)
        elif verb == 'at':
            now = tuple(int(word) for word in words.split())
        elif verb == 'again':
            rows[-1].sessions.append([])
        elif verb == 'ask':
            rows[-1].sessions[-1].append((now, messages.bytes_of(words)))
    return rows


def text_of(head, rows):
    """The text of a file."""
    return '\n'.join(head.splitlines() + [line for row in rows for line in row.lines()]) + '\n'
