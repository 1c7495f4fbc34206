#!/usr/bin/env python3
"""Runs the same works over wafl and over its peers, each several times, and prints the medians as tables.

    python3 bench/peers.py                     over ./wafl, five rounds, in a new folder below /var/tmp
      --wafl PROGRAM   another program           --rounds N      another count of rounds
      --in FOLDER      another folder            --only WORD,..  just these works
      --peers WORD,..  just these peers

Peers are those that are there: SQLite (Python's, synchronous = full, each row committed by itself), debugfs (which keeps no log and
syncs once, at its end), and as root ext4, btrfs and xfs on a loop device, with an fsync of the file or directory behind each call,
which is what a wafl command gives. Seconds are those of the clock; of wafl and debugfs the processor's too, and of wafl peak memory, as GNU time tells them.
"""
import argparse
import contextlib
import os
import platform
import shutil
import sqlite3
import statistics
import subprocess
import sys
import tempfile
import time

COUNT = 10_000
PART = 65_536
PARTS = 1_024
TEN = [f"d{n}" for n in range(10)]
MOVES = [(f"d/n{n:05}", f"d/m{n:05}") for n in range(COUNT)]
MOVES_IN_TEN = [(f"d{n % 10}/n{n:05}", f"d{n % 10}/m{n:05}") for n in range(COUNT)]
IN_TEN = [f"d{n % 10}/n{n:05}" for n in range(COUNT)]
IN_ONE = [f"d/n{n:05}" for n in range(COUNT)]
TIME = ["/usr/bin/time", "-f", "%U %S %M", "-o", "used"]
FILESYSTEMS = ["ext4", "btrfs", "xfs"]


# ------------------------------------------------------------------------------------------------ the works as scripts of wafl
def scripts():
    data = b"Wafl" * (PART // 4)
    yield "dirs10", [f"mkdir /{d}" for d in TEN] + [f"mkdir /{d}" for d in IN_TEN]
    yield "dirs1", ["mkdir /d"] + [f"mkdir /{d}" for d in IN_ONE]
    yield "moves1", [f"rename /{old} /{new}" for old, new in MOVES]
    yield "moves10", [f"rename /{old} /{new}" for old, new in MOVES_IN_TEN]
    small = [f"open /{f} wc\nwrite 0 {'61' * 100}\nclose 0" for f in IN_TEN]
    yield "files10", [f"mkdir /{d}" for d in TEN] + small
    yield "write", ["open /large wc", *[f"write 0 {data.hex()}"] * PARTS, "close 0"]
    yield "read", ["open /large r", *["read 0 65536"] * PARTS, "close 0"]
    yield "take", [f"snap take s{n}" for n in range(20)]
    yield "delete", [f"snap delete s{n}" for n in range(20)]
    fill = [f"mkdir /d{n:03}" for n in range(256)]
    yield "fill", fill + [f"mkdir /d{n % 256:03}/n{n:05}" for n in range(65_535 - 3 - 256)] + ["sync"]


SMALL = ["--blocks", "32768", "--inodes", "32768", "--half", "8388608"]
# Each move may cost a consistency point 24 blocks, so that on fewer blocks one would come before the last move.
WIDE = ["--blocks", "524288", "--inodes", "32768", "--half", "8388608"]
HUGE = ["--blocks", "1048576", "--inodes", "65536", "--half", "8388608"]
# The work, what it begins with, the words of the program, and what its bytes come from.
WAFL = {
    "dirs10": (SMALL, [], "run disk nvram dirs10"),
    "dirs1": (SMALL, [], "run disk nvram dirs1"),
    "moves1": (SMALL, ["dirs1", "sync"], "run disk nvram moves1"),
    "moves10": (SMALL, ["dirs10", "sync"], "run disk nvram moves10"),
    "mount": (WIDE, ["dirs1", "sync", "moves1"], "df disk nvram"),
    "files10": (SMALL, [], "run disk nvram files10"),
    "write": (SMALL, [], "shell disk nvram < write"),
    "put": (SMALL, [], "put disk nvram large /large"),
    "get": (SMALL, ["put"], "get disk nvram /large back"),
    "read": (SMALL, ["put"], "run disk nvram read"),
    "take": (HUGE, [], "run disk nvram take"),
    "delete": (HUGE, ["take"], "run disk nvram delete"),
    "mount4g": (HUGE, ["fill"], "df disk nvram"),
}
TITLES = {
    "dirs10": "10,000 directories in ten",
    "dirs1": "10,000 directories in one",
    "moves1": "10,000 moves within one directory",
    "moves10": "10,000 moves within ten directories",
    "mount": "mount with these moves in the log",
    "files10": "10,000 small files in ten",
    "write": "64 MiB in writes of 64 KiB, each durable",
    "put": "`put` of 64 MiB",
    "get": "`get` of 64 MiB",
    "read": "64 MiB read",
    "take": "20 snapshots taken on 4 GiB",
    "delete": "20 snapshots deleted on 4 GiB",
    "mount4g": "mount of 4 GiB, 65,536 inodes in use",
}


# ------------------------------------------------------------------------------------------------ measuring
def measured(command, given=None, shown=os.devnull):
    """Seconds of the clock and of the processor, and peak memory in MiB, of a command, by GNU time."""
    with open(given or os.devnull, "rb") as source, open(shown, "wb") as out:
        begin = time.perf_counter()
        run = subprocess.run([*TIME, *command], stdin=source, stdout=out, stderr=subprocess.PIPE, check=False)
        took = time.perf_counter() - begin
    if run.returncode != 0:
        sys.exit(f"{' '.join(command)}: status {run.returncode}: {run.stderr[-300:]}")
    with open("used", encoding="ascii") as used:
        user, system, memory = map(float, used.read().split())
    return took, user + system, memory / 1024


def copied(names, ending_from, ending_to):
    for name in names:
        subprocess.run(["cp", "--sparse=always", name + ending_from, name + ending_to], check=True)
    os.sync()


# ------------------------------------------------------------------------------------------------ wafl
def run_wafl(program, words):
    words, _, given = words.partition(" < ")
    numbers = measured([program, *words.split()], given or None, "replies")
    if not words.startswith(("put", "get")):
        with open("replies", "rb") as replies:
            for line in replies:
                if line.startswith(b"err"):
                    sys.exit(f"{words}: {line}")
    return numbers


def wafl(program, work, rounds):
    sizes, before, words = WAFL[work]
    subprocess.run([program, "make", "disk", "nvram", *sizes], check=True)
    for each in before:
        run_wafl(program, WAFL["put"][2] if each == "put" else "do disk nvram sync" if each == "sync" else f"run disk nvram {each}")
    copied(["disk", "nvram"], "", ".before")
    for _ in range(rounds):
        copied(["disk", "nvram"], ".before", "")
        yield run_wafl(program, words)


# ------------------------------------------------------------------------------------------------ file systems of the kernel
def kernel_work(work, top):
    """The work on a mounted file system, by a process of its own; each call is durable before the next."""
    os.chdir(top)
    opened = {}

    def sync(folder):
        if folder not in opened:
            opened[folder] = os.open(folder, os.O_RDONLY)
        os.fsync(opened[folder])

    if work in ("dirs10", "dirs1"):
        for name in ["d"] + IN_ONE if work == "dirs1" else TEN + IN_TEN:
            os.mkdir(name)
            sync(os.path.dirname(name) or ".")
    elif work == "moves1":
        for old, new in MOVES:
            os.rename(old, new)
            sync("d")
    elif work == "files10":
        for name in TEN:
            os.mkdir(name)
            sync(".")
        for name in IN_TEN:
            file = os.open(name, os.O_CREAT | os.O_WRONLY)
            sync(os.path.dirname(name))
            os.write(file, b"a" * 100)
            os.fsync(file)
            os.close(file)
    elif work == "write":
        file = os.open("large", os.O_CREAT | os.O_WRONLY)
        sync(".")
        for _ in range(PARTS):
            os.write(file, b"Wafl" * (PART // 4))
            os.fsync(file)


@contextlib.contextmanager
def mounted(kind):
    os.makedirs("mounted", exist_ok=True)
    with open("device", "wb") as device:
        device.truncate(1 << 30)
    subprocess.run([f"mkfs.{kind}", "-q", "device"], check=True, stdout=subprocess.DEVNULL, stderr=subprocess.DEVNULL)
    subprocess.run(["mount", "-o", "loop", "device", "mounted"], check=True)
    try:
        yield "mounted"
    finally:
        subprocess.run(["umount", "mounted"], check=True)


def kernel(kind, work, rounds):
    for _ in range(rounds):
        with mounted(kind) as top:
            if work == "moves1":
                os.mkdir(f"{top}/d")
                for name in IN_ONE:
                    os.mkdir(f"{top}/{name}")
            os.sync()
            yield measured([sys.executable, os.path.join(HERE, "peers.py"), "--work", f"{work}:{top}"])


# ------------------------------------------------------------------------------------------------ SQLite
def sqlite_work(work, _):
    base = sqlite3.connect("names.db", isolation_level=None)
    base.execute("pragma synchronous = full")
    if work in ("dirs10", "dirs1"):
        for name in IN_ONE if work == "dirs1" else IN_TEN:
            base.execute("insert into name values (?, 0, '')", (name,))
    elif work == "moves1":
        for old, new in MOVES:
            base.execute("update name set path = ? where path = ?", (new, old))
    elif work == "files10":
        for name in IN_TEN:
            base.execute("insert into name values (?, 1, ?)", (name, b"a" * 100))
    elif work == "write":
        for part in range(PARTS):
            base.execute("insert into name values (?, 1, ?)", (str(part), b"Wafl" * (PART // 4)))
    elif work == "read":
        for part in range(PARTS):
            base.execute("select bytes from name where path = ?", (str(part),)).fetchone()[0].hex()


def sqlite(_, work, rounds):
    for _ in range(rounds):
        for ending in ("", "-journal"):
            with contextlib.suppress(OSError):
                os.remove("names.db" + ending)
        base = sqlite3.connect("names.db")
        base.execute("create table name (path text primary key, kind integer, bytes blob)")
        if work == "moves1":
            base.executemany("insert into name values (?, 0, '')", ((name,) for name in IN_ONE))
        if work == "read":
            base.executemany("insert into name values (?, 1, ?)", ((str(n), b"Wafl" * (PART // 4)) for n in range(PARTS)))
        base.commit()
        base.close()
        os.sync()
        yield measured([sys.executable, os.path.join(HERE, "peers.py"), "--work", f"sqlite-{work}:."])


# ------------------------------------------------------------------------------------------------ debugfs
def debugfs(_, work, rounds):
    one = ["mkdir d"] + [f"mkdir {name}" for name in IN_ONE]
    lines = {
        "dirs10": [f"mkdir {name}" for name in TEN + IN_TEN],
        "dirs1": one,
        "files10": [f"mkdir {name}" for name in TEN] + [f"write hundred {name}" for name in IN_TEN],
        "moves1": [line for old, new in MOVES for line in (f"ln {old} {new}", f"unlink {old}")],
        "write": ["write large large"],
        "put": ["write large large"],
        "get": ["dump large back"],
        "read": ["dump large back"],
    }
    before = {"moves1": one, "get": ["write large large"], "read": ["write large large"]}.get(work, [])
    for name, text in (("lines", lines[work]), ("lines.before", before)):
        with open(name, "w", encoding="ascii") as it:
            it.write("".join(line + "\n" for line in text))
    with open("hundred", "wb") as it:
        it.write(b"a" * 100)
    quiet = {"check": True, "stdout": subprocess.DEVNULL, "stderr": subprocess.DEVNULL}
    subprocess.run("rm -f ext2 && mke2fs -q -t ext2 -b 4096 -N 32768 ext2 32768", shell=True, **quiet)
    subprocess.run(["debugfs", "-w", "-f", "lines.before", "ext2"], **quiet)
    copied(["ext2"], "", ".before")
    for _ in range(rounds):
        copied(["ext2"], ".before", "")
        yield measured(["debugfs", "-w", "-f", "lines", "ext2"])


# ------------------------------------------------------------------------------------------------ all of it
PEERS = {
    **{kind: (kernel, ["dirs10", "dirs1", "moves1", "files10", "write"]) for kind in FILESYSTEMS},
    "sqlite": (sqlite, ["dirs10", "dirs1", "moves1", "files10", "write", "read"]),
    "debugfs": (debugfs, ["dirs10", "dirs1", "moves1", "files10", "write", "put", "get", "read"]),
}


def is_there(peer):
    if peer == "sqlite":
        return True
    if peer == "debugfs":
        return bool(shutil.which("debugfs") and shutil.which("mke2fs"))
    if os.geteuid() != 0 or not shutil.which(f"mkfs.{peer}"):
        return False
    try:
        with mounted(peer):
            return True
    except (OSError, subprocess.CalledProcessError):
        return False


def medians(runs):
    return [statistics.median(column) for column in zip(*runs)]


def machine(folder):
    with open("/proc/cpuinfo", encoding="ascii", errors="replace") as it:
        processor = next((line.split(":")[1].strip() for line in it if line.startswith("model name")), platform.machine())
    kind = subprocess.run(["stat", "-f", "-c", "%T", folder], capture_output=True, text=True, check=False).stdout.strip()
    print(f"{os.cpu_count()} x {processor}, Linux {platform.release()}, files on {kind}; SQLite {sqlite3.sqlite_version},")
    said = subprocess.run(["mke2fs", "-V"], capture_output=True, text=True, check=False).stderr.split("\n")[0]
    print(f"{said}; load {os.getloadavg()[0]:.1f} at the start\n")


def main():
    words = argparse.ArgumentParser(usage=__doc__)
    words.add_argument("--wafl", default=os.path.join(os.path.dirname(HERE), "wafl"))
    words.add_argument("--rounds", type=int, default=5)
    words.add_argument("--in", dest="folder", default="/var/tmp")
    words.add_argument("--only", default=",".join(WAFL))
    words.add_argument("--peers", default=",".join(PEERS))
    words.add_argument("--work")
    words = words.parse_args()
    if words.work:
        work, _, top = words.work.partition(":")
        sqlite_work(work[7:], top) if work.startswith("sqlite-") else kernel_work(work, top)
        return
    program, here = os.path.abspath(words.wafl), os.getcwd()
    folder = tempfile.mkdtemp(prefix="peers-", dir=words.folder)
    os.chdir(folder)
    try:
        machine(folder)
        for name, lines in scripts():
            with open(name, "w", encoding="ascii") as it:
                it.write("".join(line + "\n" for line in lines))
        with open("large", "wb") as it:
            it.write(b"Wafl" * (PART // 4 * PARTS))
        peers = [peer for peer in PEERS if peer in words.peers.split(",") and is_there(peer)]
        print(f"| Work | wafl | processor | MiB | {' | '.join(peers)} | debugfs' processor | times the peers' |", flush=True)
        print(f"|---|---|---|---|{'---|' * len(peers)}---|---|", flush=True)
        for work in words.only.split(","):
            took, used, memory = medians(wafl(program, work, words.rounds))
            theirs = {peer: medians(PEERS[peer][0](peer, work, words.rounds)) for peer in peers if work in PEERS[peer][1]}
            cells = [f"{theirs[peer][0]:.2f}" if peer in theirs else "" for peer in peers]
            processor = f"{theirs['debugfs'][1]:.2f}" if "debugfs" in theirs else ""
            ratios = ", ".join(f"{took / theirs[peer][0]:.2f}" if peer in theirs else "-" for peer in peers)
            row = [TITLES[work], f"{took:.2f}", f"{used:.2f}", f"{memory:.0f}", *cells, processor, ratios]
            print(f"| {' | '.join(row)} |", flush=True)
    finally:
        os.chdir(here)
        shutil.rmtree(folder, ignore_errors=True)


HERE = os.path.dirname(os.path.abspath(__file__))
if __name__ == "__main__":
    main()
