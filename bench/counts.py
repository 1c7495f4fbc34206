#!/usr/bin/env python3
"""Counts the instructions that builds of the program take for the works of peers.py, smaller ones, and prints them side by side.

    python3 bench/counts.py NAME=PROGRAM NAME=PROGRAM ..     each build of one kind: proved ones, or those of optimized.sh
      --items N        another count of names than 2,000     --only WORD,..   just these works
      --in FOLDER      another folder than a new one in /dev/shm

Valgrind's callgrind counts them: the same each time, whatever else the machine does. Of a mount's work each of the others has a part,
since each begins with one, of an image with 32,768 inodes; `mount4g` mounts one of 65,536 inodes, all in use.
"""
import argparse
import os
import re
import subprocess
import tempfile

import peers


def smaller(items):
    """Makes the works of peers.py smaller."""
    peers.COUNT = items
    peers.PARTS = max(1, items // 16)
    peers.MOVES = [(f"d/n{n:05}", f"d/m{n:05}") for n in range(items)]
    peers.MOVES_IN_TEN = [(f"d{n % 10}/n{n:05}", f"d{n % 10}/m{n:05}") for n in range(items)]
    peers.IN_TEN = [f"d{n % 10}/n{n:05}" for n in range(items)]
    peers.IN_ONE = [f"d/n{n:05}" for n in range(items)]


def run(words, before=(), given=None):
    with open(given or os.devnull, "rb") as source:
        return subprocess.run([*before, *words], stdin=source, stdout=subprocess.DEVNULL, stderr=subprocess.PIPE, text=True, check=True)


def count(words, given):
    """The instructions of one run."""
    told = run(words, ["valgrind", "--tool=callgrind", "--callgrind-out-file=/dev/null"], given).stderr
    return int(re.search(r"Collected : (\d+)", told).group(1))


def fresh(program, sizes, before):
    """The images that a work begins with."""
    for name in ("disk", "nvram", "back"):
        if os.path.exists(name):
            os.unlink(name)
    run([program, "make", "disk", "nvram", *sizes])
    for work in before:
        run([program, *peers.WAFL["put"][2].split()] if work == "put" else [program, "run", "disk", "nvram", work])


def main():
    options = argparse.ArgumentParser(description=__doc__, formatter_class=argparse.RawDescriptionHelpFormatter)
    options.add_argument("builds", nargs="+", metavar="NAME=PROGRAM")
    options.add_argument("--items", type=int, default=2_000)
    options.add_argument("--only", default="")
    options.add_argument("--in", dest="folder")
    asked = options.parse_args()
    builds = [(name, os.path.realpath(program)) for name, _, program in (word.partition("=") for word in asked.builds)]
    only = [word for word in asked.only.split(",") if word]
    smaller(asked.items)
    with tempfile.TemporaryDirectory(dir=asked.folder or "/dev/shm") as folder:
        os.chdir(folder)
        for name, lines in peers.scripts():
            with open(name, "w", encoding="ascii") as script:
                script.write("\n".join(lines) + "\n")
        with open("sync", "w", encoding="ascii") as script:
            script.write("sync\n")
        with open("large", "wb") as data:
            data.write(b"Wafl" * (peers.PART * peers.PARTS // 4))
        print("| Work | " + " | ".join(f"{name}, millions" for name, _ in builds) + " | last by first |")
        print("|---" * (len(builds) + 2) + "|")
        for work, (sizes, before, words) in peers.WAFL.items():
            if only and work not in only:
                continue
            words, _, given = (part.strip() for part in words.partition("<"))
            counts = []
            for _, program in builds:
                fresh(program, sizes, before)
                counts.append(count([program, *words.split()], given or None))
            print(f"| {work} | " + " | ".join(f"{n / 1e6:.1f}" for n in counts) + f" | {counts[-1] / counts[0]:.3f} |", flush=True)


if __name__ == "__main__":
    main()
