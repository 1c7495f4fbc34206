"""user_mount.py FOLDER OPTIONS PROGRAM WORD..: mounts a folder for who isn't root, and becomes the program, with the kernel's device as
standard input and output. fusermount3, of the package fuse3, opens and mounts it, and hands it over a socket, which a shell can't take."""

import os
import socket
import subprocess
import sys


def main():
    folder, options, *command = sys.argv[1:]
    ours, theirs = socket.socketpair()
    told = dict(os.environ, _FUSE_COMMFD=str(theirs.fileno()))
    asked = subprocess.run(['fusermount3', '-o', options, '--', folder], env=told, pass_fds=[theirs.fileno()])
    if asked.returncode != 0:
        raise OSError('see what fusermount3 said')
    _, (device,), _, _ = socket.recv_fds(ours, 1, 1)
    os.dup2(device, 0)
    os.dup2(device, 1)
    os.close(device)
    os.execv(command[0], command)


try:
    main()
except OSError as error:
    print(f'wafl: not mounted: {error}', file=sys.stderr)
    sys.exit(2)
