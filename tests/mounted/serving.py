"""An image that the launcher serves as a folder, for tests that kill the server."""

import os
import signal
import subprocess
import sys
import time


class Served:
    """An image and its folder, which the program of the launcher serves by turns, with these options."""

    def __init__(self, launcher, work, name, sizes, options=()):
        self.launcher = launcher
        self.options = options
        self.disk = f'{work}/{name}.disk'
        self.nvram = f'{work}/{name}.nvram'
        self.folder = f'{work}/{name}.folder'
        self.process = None
        self.server = None
        os.makedirs(self.folder, exist_ok=True)
        subprocess.run([launcher, 'make', self.disk, self.nvram, '--force', *sizes], check=True, stderr=subprocess.DEVNULL)

    def start(self):
        """Mounts the folder; what a killed server left is unmounted by that."""
        words = [self.launcher, 'mount', '--wait=20', *self.options, self.disk, self.nvram, self.folder]
        self.process = subprocess.Popen(words, stderr=subprocess.PIPE, text=True)
        said = ''
        for line in self.process.stderr:
            said += line
            if 'shows the image' in line:
                break
        else:
            sys.exit(f'not mounted: {said}')
        with open(f'/proc/{self.process.pid}/task/{self.process.pid}/children', encoding='ascii') as children:
            self.server = int(children.read().split()[0])

    def kill(self):
        """Kills the server, which leaves a folder that answers nothing."""
        os.kill(self.server, signal.SIGKILL)
        self.ended(128 + signal.SIGKILL)

    def stop(self):
        """Unmounts the folder."""
        for _ in range(100):
            said = subprocess.run(['umount', self.folder], capture_output=True, text=True, check=False)
            if said.returncode == 0:
                self.ended(0)
                return
            time.sleep(0.1)
        sys.exit(f'not unmounted: {said.stderr}')

    def ended(self, wanted):
        """The launcher ends, with this status."""
        said = self.process.stderr.read()
        self.process.stderr.close()
        if self.process.wait() != wanted:
            sys.exit(f'the launcher ended with {self.process.returncode}, and not {wanted}: {said}')

    def check(self):
        """The image is whole, with no server."""
        said = subprocess.run([self.launcher, 'check', '--wait=20', self.disk, self.nvram], capture_output=True, text=True, check=False)
        if said.returncode != 0:
            sys.exit(f'check: status {said.returncode}: {said.stdout}{said.stderr}')
