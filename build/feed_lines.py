"""feed_lines.py MILLISECONDS PROGRAM WORD..: runs the program, which reads lines, and hands it the lines of standard input as they come.
Where none comes for so many milliseconds, it hands it an empty line, by which the program sees that time has passed: what it answered
before is made durable then. What comes is handed on byte for byte, whole lines at a time. Ends as the program does."""

import array
import fcntl
import os
import select
import signal
import subprocess
import sys
import termios

# The beginning of a line that is longer isn't held back until its end comes.
LONGEST = 1_048_576


class Lines:
    """What goes to the program."""

    def __init__(self, to):
        self.to = to
        # The beginning of a line whose end hasn't come.
        self.begun = b''
        self.is_amid = False

    def take(self, data):
        """Hands on the lines that are whole."""
        data = self.begun + data
        whole = len(data) if len(data) > LONGEST else data.rfind(b'\n') + 1
        self.begun = data[whole:]
        if whole:
            self.is_amid = not data[:whole].endswith(b'\n')
            self.send(data[:whole])

    def pass_time(self):
        """Hands on an empty line, unless the program has not read all yet."""
        unread = array.array('i', [0])
        fcntl.ioctl(self.to, termios.FIONREAD, unread)
        if not self.is_amid and not unread[0]:
            self.send(b'\n')

    def send(self, data):
        """Writes all of it."""
        while data:
            data = data[os.write(self.to, data):]


def feed(program, milliseconds):
    """Hands on what comes, until its end or the program's."""
    lines = Lines(program.stdin.fileno())
    ready = select.poll()
    ready.register(0, select.POLLIN)
    ended = os.pidfd_open(program.pid)
    ready.register(ended, select.POLLIN)
    while True:
        events = dict(ready.poll(milliseconds))
        if ended in events:
            return
        if 0 not in events:
            lines.pass_time()
            continue
        data = os.read(0, 65536)
        if not data:
            # The last line may have no end.
            lines.send(lines.begun)
            return
        lines.take(data)


def main():
    milliseconds, *command = sys.argv[1:]
    # Where standard input is closed, no other descriptor may take its place.
    while os.open(os.devnull, os.O_RDONLY) <= 2:
        pass
    program = subprocess.Popen(command, stdin=subprocess.PIPE, bufsize=0)
    # A terminal tells the program of an interrupt itself.
    for told in (signal.SIGINT, signal.SIGQUIT):
        signal.signal(told, signal.SIG_IGN)
    for told in (signal.SIGTERM, signal.SIGHUP):
        signal.signal(told, lambda number, _: program.send_signal(number))
    try:
        feed(program, int(milliseconds))
    except OSError:
        # The program reads no more, or standard input can't be read.
        pass
    program.stdin.close()
    status = program.wait()
    if status < 0:
        # As the program did.
        if -status != signal.SIGKILL:
            signal.signal(-status, signal.SIG_DFL)
        os.kill(os.getpid(), -status)
    sys.exit(status)


main()
