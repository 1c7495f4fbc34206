#!/usr/bin/env python3
"""Records what a kernel asks of a mounted folder while small programs run in it (programs.py). As root, with /dev/fuse.

    record.py WAFL FILE [TITLE]   records the rows of a data file anew, or one of them, while the program WAFL serves
    record.py model FILE [TITLE]  the same while the plain model serves: for what no program does yet

It stands between the kernel and the server. It writes the requests down, with the clock that the programs set, and no reply: these are
the model's (generate.py).
"""

import ctypes
import os
import select
import socket
import struct
import subprocess
import sys
import tempfile

sys.dont_write_bytecode = True

import messages  # noqa: E402
from heads import HEADS  # noqa: E402
from programs import PROGRAMS  # noqa: E402
from room import Room  # noqa: E402
from rows import DATA, Row, rows_of, text_of  # noqa: E402
from server import Server  # noqa: E402

LIBC = ctypes.CDLL(None, use_errno=True)
OWN = 'default_permissions,max_read=1048576,allow_other'
NOATIME, NOSUID, NODEV = 1024, 2, 4
MOST_BYTES = 1048576 + 4096
HALF = 131072
FIRST_TIME = (1800000000, 123456789)


class Clock:
    """The clock of the programs, in the process that runs them: the recorder knows it too."""

    def __init__(self, to_recorder):
        self.to_recorder = to_recorder

    def go(self, seconds):
        """So many seconds pass."""
        self.to_recorder.send(struct.pack('<I', seconds))
        self.to_recorder.recv(1)


class Model:
    """The plain model as a server."""

    def __init__(self, program):
        self.room, self.server = Room(*program.sizes, program.before), None

    def begin(self, now):
        if self.server is None:
            self.server = Server(self.room, (0, 0), now)
        else:
            self.server.mount(now)

    def answer(self, message, now):
        return self.server.answer(message, now)

    def end(self):
        """Nothing is left to be done."""


class Serve:
    """The program as a server: each message is a packet on its standard input and output."""

    def __init__(self, wafl, program):
        self.wafl, self.folder = os.path.abspath(wafl), tempfile.TemporaryDirectory()
        self.process = self.socket = None
        blocks, inodes = program.sizes
        words = ['--blocks', str(blocks), '--inodes', str(inodes), '--half', str(HALF)]
        subprocess.run([self.wafl, 'make', 'disk', 'nvram', *words], cwd=self.folder.name, check=True)
        for command in program.before:
            subprocess.run([self.wafl, 'do', '--encoded', 'disk', 'nvram', *command.split(' ')], cwd=self.folder.name, check=True)

    def begin(self, _now):
        self.socket, theirs = socket.socketpair(socket.AF_UNIX, socket.SOCK_SEQPACKET)
        for end in (self.socket, theirs):
            end.setsockopt(socket.SOL_SOCKET, 32, 4 * MOST_BYTES)
        self.process = subprocess.Popen([self.wafl, 'serve', 'disk', 'nvram'], cwd=self.folder.name, stdin=theirs, stdout=theirs)
        theirs.close()

    def answer(self, message, _now):
        self.socket.send(message)
        opcode = messages.HEAD.unpack_from(message)[1]
        if opcode in [messages.OPCODES[name] for name in messages.SILENT]:
            return b''
        told = self.socket.recv(MOST_BYTES)
        node = messages.retrieved_by(told)
        if node is None:
            return told
        # It asks for what comes behind those that wait: none does.
        self.socket.send(messages.retrieved(node))
        return self.socket.recv(MOST_BYTES)

    def end(self):
        self.socket.close()
        assert self.process.wait() == 0


def mount(folder):
    """Mounts a folder: the device."""
    device = os.open('/dev/fuse', os.O_RDWR)
    options = 'fd=%d,rootmode=40000,user_id=0,group_id=0,%s' % (device, OWN)
    if LIBC.mount(b'wafl', os.fsencode(folder), b'fuse.wafl', NOATIME | NOSUID | NODEV, options.encode()) != 0:
        raise OSError(ctypes.get_errno(), 'mount')
    return device


def run(session, folder, clock):
    """Runs a program in the folder, which is unmounted then, in a process of its own: its number."""
    child = os.fork()
    if child:
        return child
    status = 1
    try:
        os.umask(0o022)
        os.chdir(folder)
        session(clock)
        status = 0
    finally:
        os.chdir('/')
        subprocess.run(['umount', '-l', folder], check=False)
        if status:
            sys.excepthook(*sys.exc_info())
        os._exit(status)


def relay(server, device, ticks, now, seen):
    """Hands requests to the server and replies to the kernel, until the folder is unmounted: the time then."""
    while True:
        ready, _, _ = select.select([device, ticks], [], [])
        if device not in ready:
            # What was sent without waiting for it comes first.
            ready, _, _ = select.select([device], [], [], 0.1)
        if device in ready:
            try:
                message = os.read(device, MOST_BYTES)
            except OSError:
                return now
            seen.append((now, message))
            reply = server.answer(message, now)
            if reply:
                tell(device, reply)
            continue
        tick = ticks.recv(4)
        if not tick:
            ticks = socket.socketpair()[0]
            continue
        now = (now[0] + struct.unpack('<I', tick)[0], now[1])
        ticks.send(b'.')


def tell(device, reply):
    """Hands a reply to the kernel, which may have taken the request back meanwhile."""
    try:
        os.write(device, reply)
    except FileNotFoundError:
        pass


def recorded(server, program):
    """The sessions of a program's row: requests with their times."""
    now, sessions = FIRST_TIME, []
    for session in program.sessions:
        seen = []
        server.begin(now)
        ours, theirs = socket.socketpair()
        with tempfile.TemporaryDirectory() as folder:
            device = mount(folder)
            child = run(session, folder, Clock(theirs))
            now = relay(server, device, ours, now, seen)
            assert os.waitpid(child, 0)[1] == 0, program.title
            os.close(device)
        theirs.close()
        server.end()
        sessions.append(seen)
        now = (now[0] + 1000, now[1])
    return sessions


def main(words):
    """Does what the words say."""
    if len(words) not in (2, 3):
        sys.exit(__doc__)
    rows = {row.title: row for row in rows_of(DATA / words[1])} if (DATA / words[1]).exists() else {}
    for program in PROGRAMS:
        if program.file == words[1] and words[2:] in ([], [program.title]):
            server = Model(program) if words[0] == 'model' else Serve(words[0], program)
            rows[program.title] = Row(program.title, program.sizes, (0, 0), recorded(server, program), program.before)
            print('%s: %d requests' % (program.title, rows[program.title].count()))
    titles = [program.title for program in PROGRAMS if program.title in rows]
    (DATA / words[1]).write_text(text_of(HEADS[words[1]], [rows[title] for title in titles]))


if __name__ == '__main__':
    main(sys.argv[1:])
