#!/usr/bin/env python3
"""Kills the program with SIGKILL at random moments amid `run`, `shell` and `put`, mounts what is left, and looks whether every answered
command is done and no file is half there.

    python3 bench/kills.py [KILLS] [SEED] [KINDS [MODE]]     500 kills by the numbers from 1, over ./wafl; WAFL=path takes another program

The kills go by turns to `run`, to `shell` with one line sent at a time, to `shell` with all lines sent at once, and to `put`; KINDS, as
`run,put` or `shell at once`, leaves some out, and `all` none. Behind each the tree has to be the one after the answered commands, or one
command further. A file that a `put` was to replace has its old bytes or the new ones, whole. A `put` that is then let run has to leave no
name `.wafl-put`.

MODE says when what was answered is durable: `usual`, as above; `together`, of `shell --together`, where the tree may be any number of
commands further; `deferred` or `deferred=N`, of `run` and `shell --deferred`, where it has to be the one after some number of commands, at
least those up to the last `fsync` or `sync` that was answered.

Prints a table, and ends with 1 where anything was lost."""
import os
import random
import shutil
import subprocess
import sys
import tempfile
import threading
import time

HERE = os.path.dirname(os.path.dirname(os.path.realpath(__file__)))
WAFL = os.path.realpath(os.environ.get("WAFL", f"{HERE}/wafl"))
COMMANDS = 500
KILLS_ON_ONE_IMAGE = 20


class Lost(Exception):
    """What was found is not what was answered."""


class Tree:
    """What the image should hold: names of the root, with None for a directory or the number of a file, the bytes of files, and the
    names that each snapshot has."""

    def __init__(self):
        self.names, self.files, self.snapshots, self.fresh = {}, {}, {}, 0

    def copy(self):
        it = Tree()
        it.names, it.files, it.fresh = dict(self.names), dict(self.files), self.fresh
        it.snapshots = dict(self.snapshots)
        return it

    def shown(self):
        """The tree as a mount shows it."""
        held = {name: None if of is None else self.files[of] for name, of in self.names.items()}
        return held, self.snapshots


class Script:
    """Commands that all succeed, each with its reply and the tree behind it."""

    def __init__(self, chance, tree, count):
        self.chance, self.tree, self.open = chance, tree.copy(), {}
        self.lines, self.replies, self.trees = [], [], [tree.copy()]
        while len(self.lines) < count:
            self.add()

    def of_files(self):
        return sorted(name for name, of in self.tree.names.items() if of is not None)

    def name(self):
        self.tree.fresh += 1
        return f"n{self.tree.fresh}"

    def says(self, line, reply="ok"):
        self.lines.append(line)
        self.replies.append(reply)
        self.trees.append(self.tree.copy())

    def add(self):
        kinds = "mkdir begin pwrite pwrite pwrite pwrite close rename unlink truncate sync fsync take delete".split()
        getattr(self, self.chance.choice(kinds))()

    def mkdir(self):
        if len(self.tree.names) < 50:
            name = self.name()
            self.tree.names[name] = None
            self.says(f"mkdir /{name}")

    def begin(self):
        if len(self.open) < 4 and len(self.tree.names) < 50:
            name, fd = self.name(), min(set(range(4)) - set(self.open))
            self.tree.names[name], self.tree.files[self.tree.fresh] = self.tree.fresh, b""
            self.open[fd] = self.tree.fresh
            self.says(f"open /{name} wc", f"fd {fd}")

    def pwrite(self):
        if not self.open:
            return
        fd = self.chance.choice(sorted(self.open))
        data = self.chance.randbytes(self.chance.randint(1, 3000))
        at = self.chance.randint(0, 4096)
        old = self.tree.files[self.open[fd]].ljust(at, b"\0")
        self.tree.files[self.open[fd]] = old[:at] + data + old[at + len(data) :]
        self.says(f"pwrite {fd} {at} {data.hex()}", f"wrote {len(data)}")

    def close(self):
        if self.open:
            fd = self.chance.choice(sorted(self.open))
            del self.open[fd]
            self.says(f"close {fd}")

    def rename(self):
        if self.of_files():
            old, new = self.chance.choice(self.of_files()), self.name()
            self.tree.names[new] = self.tree.names.pop(old)
            self.says(f"rename /{old} /{new}")

    def unlink(self):
        if len(self.of_files()) > 10:
            name = self.chance.choice(self.of_files())
            del self.tree.names[name]
            self.says(f"unlink /{name}")

    def truncate(self):
        if self.of_files():
            name, size = self.chance.choice(self.of_files()), self.chance.randint(0, 9000)
            of = self.tree.names[name]
            self.tree.files[of] = self.tree.files[of][:size].ljust(size, b"\0")
            self.says(f"truncate /{name} {size}")

    def sync(self):
        self.says("sync")

    def fsync(self):
        if self.open:
            self.says(f"fsync {self.chance.choice(sorted(self.open))}")

    def take(self):
        if len(self.tree.snapshots) < 4:
            name = self.name()
            self.tree.snapshots[name] = tuple(sorted(self.tree.names))
            self.says(f"snap take {name}")

    def delete(self):
        if self.tree.snapshots:
            name = self.chance.choice(sorted(self.tree.snapshots))
            del self.tree.snapshots[name]
            self.says(f"snap delete {name}")


class Image:
    """An image in the current folder, and what it should hold."""

    def __init__(self):
        for name in ("disk", "nvram"):
            if os.path.exists(name):
                os.remove(name)
        words = "make disk nvram --new --blocks 2048 --inodes 1024 --half 131072".split()
        subprocess.run([WAFL, *words], check=True)
        self.answers(["mkdir /puts"])
        self.tree, self.put = Tree(), None
        self.tree.names["puts"] = None

    def answers(self, lines):
        """The replies to these lines, by a run of their own."""
        ran = subprocess.run([WAFL, "run", "disk", "nvram", "-"], input="".join(f"{it}\n" for it in lines), capture_output=True, text=True)
        if ran.returncode:
            raise Lost(f"a run ends with {ran.returncode}: {ran.stderr.strip()}")
        return ran.stdout.splitlines()

    def found(self):
        """The tree that a mount shows, as Tree.shown has it."""
        names, taken = (it.split()[1:] for it in self.answers(["list /", "snap list"]))
        looks = [f"stat /{it}" for it in names] + [f"get /{it} 0 65536" for it in names] + [f"in {it} list /" for it in taken]
        replies = self.answers(looks)
        held = {}
        for name, stat, data in zip(names, replies, replies[len(names) :]):
            held[name] = None if " kind dir " in stat else bytes.fromhex(data.removeprefix("data ").replace("-", ""))
        snapshots = {it: tuple(of.split()[1:]) for it, of in zip(taken, replies[2 * len(names) :])}
        return held, snapshots


def killed(words, delay, feed=None, lock_step=False):
    """Runs the program and kills it after so many seconds. Returns the whole lines that it has shown, and its status. `killed.took` is
    how many seconds it ran, and `killed.hit` whether it was still running."""
    begin = time.time()
    run = subprocess.Popen([WAFL, *words], stdin=subprocess.PIPE, stdout=subprocess.PIPE, stderr=subprocess.DEVNULL, text=True)
    timer = threading.Timer(delay, run.kill)
    timer.start()
    shown = ""
    try:
        if lock_step:
            for line in feed:
                run.stdin.write(f"{line}\n")
                run.stdin.flush()
                reply = run.stdout.readline()
                shown += reply
                if not reply.endswith("\n"):
                    break
            run.stdin.close()
        elif feed:
            threading.Thread(target=send, args=(run.stdin, feed), daemon=True).start()
    except BrokenPipeError:
        pass
    shown += run.stdout.read()
    status = run.wait()
    killed.took, killed.hit = time.time() - begin, status == -9
    timer.cancel()
    timer.join()
    return shown.split("\n")[:-1], status


def send(to, lines):
    try:
        to.write("".join(f"{it}\n" for it in lines))
        to.close()
    except OSError:
        pass


def bounds(mode, lines, answered):
    """The least number of commands that have to be done where so many of these were answered, and the greatest that may be."""
    if mode == "usual":
        return answered, min(answered + 1, COMMANDS)
    if mode == "together":
        return answered, COMMANDS
    return max((at + 1 for at in range(answered) if lines[at].startswith(("sync", "fsync"))), default=0), COMMANDS


def of_commands(kind, image, delay, chance, mode):
    """Kills a run or a shell; returns how many commands were answered, and how many more were done."""
    script = Script(chance, image.tree, COMMANDS)
    options = [] if mode == "usual" else [f"--{mode}"]
    if kind == "run":
        with open("script", "w", encoding="ascii") as it:
            it.writelines(f"{line}\n" for line in script.lines)
        shown, status = killed(["run", "disk", "nvram", "script", *options], delay)
    else:
        shown, status = killed(["shell", "disk", "nvram", *options], delay, script.lines, kind == "shell")
    if status not in (0, -9) or (status == 0 and len(shown) < COMMANDS):
        raise Lost(f"{kind} ended with {status} after {len(shown)} replies")
    for at, (reply, wanted) in enumerate(zip(shown, script.replies)):
        if reply != wanted:
            raise Lost(f"{kind}: `{script.lines[at][:60]}` was answered `{reply}` and not `{wanted}`")
    found = image.found()
    # A program that ended has made all durable.
    least, most = (COMMANDS, COMMANDS) if status == 0 else bounds(mode, script.lines, len(shown))
    for done in sorted(range(least, most + 1), key=lambda it: abs(it - len(shown))):
        if script.trees[done].shown() == found:
            image.tree = script.trees[done]
            return len(shown), done - len(shown)
    raise Lost(f"{kind}: after {len(shown)} answered commands the tree is none of those after {least} to {most}")


def put_stands(image):
    """The bytes of the file that `put` writes, or None where none is there, and the names that it should have taken away."""
    names, root = (it.split()[1:] for it in image.answers(["list /puts", "list /"]))
    left = [it for it in names if it != "file"] + [it for it in root if it == ".wafl-put"]
    if "file" not in names:
        return None, left
    return subprocess.run([WAFL, "get", "disk", "nvram", "/puts/file", "-"], capture_output=True, check=True).stdout, left


def of_put(image, delay, chance, _mode):
    """Kills a put; returns whether it was answered, whether the new file stood there, and how many names it left."""
    new = chance.randbytes(chance.choice((5, 3000, 40_000, 200_000)))
    with open("file", "wb") as it:
        it.write(new)
    words = ["put", "disk", "nvram", "file", "/puts/file"]
    _, status = killed(words, delay)
    if status not in (0, -9):
        raise Lost(f"put ended with {status}")
    stands, left = put_stands(image)
    if stands not in (image.put, new) or (status == 0 and stands != new):
        raise Lost(f"a put of {len(new)} bytes left {len(stands or b'')} that are neither the old file nor the new one")
    subprocess.run([WAFL, *words], check=True)
    image.put, left_next = put_stands(image)
    if left_next or image.put != new:
        raise Lost(f"a put behind a killed one leaves the names {left_next} beside a file of {len(image.put or b'')} bytes")
    if image.found() != image.tree.shown():
        raise Lost("a put changed something else")
    return status == 0, stands == new, len(left)


KINDS = {
    "run": lambda *words: of_commands("run", *words),
    "shell": lambda *words: of_commands("shell", *words),
    "shell at once": lambda *words: of_commands("shell at once", *words),
    "put": of_put,
}


# Which of them each mode goes with.
GOES = {"usual": list(KINDS), "together": ["shell", "shell at once"], "deferred": ["run", "shell", "shell at once"]}


def tell(kind, seconds, results):
    if kind == "put":
        answered, stood, left = (sum(map(int, it)) for it in zip(*results))
        print(f"{kind:<16} {len(results):>5} kills in {seconds:5.2f} s: {answered} answered, {stood} new files, {left} names left for the next")
    else:
        counts, further = zip(*results)
        amid = sum(0 < it < COMMANDS for it in counts)
        more, less = sum(max(it, 0) for it in further), sum(max(-it, 0) for it in further)
        print(f"{kind:<16} {len(results):>5} kills in {seconds:5.2f} s: {amid} amid the answers, {sum(counts)} commands answered, {more} done without an answer"
              + (f", {less} answered and not done" if less else ""))


def main(kills=500, seed=1, kinds="all", mode="usual"):
    kinds = GOES[mode.partition("=")[0]] if kinds == "all" else kinds.split(",")
    results, seconds = {it: [] for it in kinds}, {}
    folder = tempfile.mkdtemp()
    os.chdir(folder)
    try:
        image = Image()
        for kind in kinds:
            KINDS[kind](image, 600, random.Random(f"{seed} {kind}"), mode)
            seconds[kind] = killed.took
        at = 0
        while sum(map(len, results.values())) < int(kills):
            if at % KILLS_ON_ONE_IMAGE == 0:
                image = Image()
            kind, chance = kinds[at % len(kinds)], random.Random(f"{seed} {at}")
            result = KINDS[kind](image, chance.uniform(0, 1.2 * seconds[kind]), chance, mode)
            if killed.hit:
                results[kind].append(result)
            else:
                seconds[kind] = killed.took
            at += 1
    except Lost as lost:
        print(f"kill {sum(map(len, results.values())) + 1}: {lost}; the image stays in {folder}", file=sys.stderr)
        return 1
    for kind in kinds:
        tell(kind, seconds[kind], results[kind])
    last = ", but for the last that was answered" if mode.startswith("deferred") else ""
    print(f"nothing that was answered is lost{last}, and no file is half there")
    shutil.rmtree(folder)
    return 0


if __name__ == "__main__":
    sys.exit(main(*sys.argv[1:]))
