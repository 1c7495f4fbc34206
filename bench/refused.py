#!/usr/bin/env python3
"""Refuses each allocation of the program's in turn, and looks what comes of it.

Of a run: nothing, or that one command finds no memory, with all others as a plain model answers them without that command; or nothing is
mounted; or the program ends for want of memory behind whole replies. Runs are the forty commands of crates/cuts/data/forty.story, and
one in which a point is planned and written in slices: a plan that is refused memory is made by a later command instead. Of `make` and
`check`: what they tell, or that memory is wanting, and `make` leaves the files that it was to make or none.

    python3 bench/refused.py        over ./wafl; WAFL=path takes another program, which has to be a proved build

Refuses by a library that stands before the C library's own functions for memory: needs cc. Prints how many runs came to what, and ends
with 1 where anything else came of one."""
import collections
import os
import shutil
import subprocess
import sys
import tempfile

HERE = os.path.dirname(os.path.dirname(os.path.realpath(__file__)))
sys.path.insert(0, f"{HERE}/crates/rows/plain")
sys.dont_write_bytecode = True
from model import System  # noqa: E402 # pylint: disable=wrong-import-position
from scripts import run as model_run  # noqa: E402 # pylint: disable=wrong-import-position

WAFL = os.path.realpath(os.environ.get("WAFL", f"{HERE}/wafl"))
# The two writes fill the log, the first directory has a point of 34 blocks planned, and the next five write it.
SLICES = ["open /f wc", "write 0 " + "61" * 65536, "write 0 " + "62" * 57273] + [f"mkdir /d{number}" for number in range(9)]
with open(f"{HERE}/crates/cuts/data/forty.story", encoding="ascii") as STORY:
    FORTY = [line.removeprefix("command ").split(" -> ")[0] for line in STORY.read().splitlines() if line.startswith("command ")]
# What is run: a name, blocks, and the lines.
RUNS = [("slices", 512, SLICES), ("forty commands", 128, FORTY)]
INODES, HALF = 32, 131072
REFUSING = r"""
#include <stdio.h>
#include <stdlib.h>
extern void *__libc_malloc(size_t), *__libc_calloc(size_t, size_t), *__libc_realloc(void *, size_t), *__libc_memalign(size_t, size_t);
static unsigned long count, refused;
__attribute__((constructor)) static void begin(void) { const char *it = getenv("REFUSED"); refused = it ? strtoul(it, 0, 10) : 0; count = 0; }
__attribute__((destructor)) static void end(void) {
    const char *name = getenv("COUNTED");
    FILE *file = name ? fopen(name, "w") : 0;
    if (file) { fprintf(file, "%lu\n", count); fclose(file); }
}
static int refuses(void) { return ++count == refused; }
void *malloc(size_t size) { return refuses() ? 0 : __libc_malloc(size); }
void *calloc(size_t of, size_t size) { return refuses() ? 0 : __libc_calloc(of, size); }
void *realloc(void *it, size_t size) { return refuses() ? 0 : __libc_realloc(it, size); }
void *aligned_alloc(size_t to, size_t size) { return refuses() ? 0 : __libc_memalign(to, size); }
int posix_memalign(void **it, size_t to, size_t size) { return refuses() || !(*it = __libc_memalign(to, size)) ? 12 : 0; }
"""


def wafl(*words, **settings):
    """What the program shows, and its status."""
    done = subprocess.run([WAFL, *words], env=dict(os.environ, **settings), capture_output=True, text=True, check=False)
    return done.stdout.splitlines(), done.returncode


def refusing(refused):
    """Settings under which this allocation is refused, and all are counted."""
    return {} if refused is None else {"LD_PRELOAD": "./refusing.so", "REFUSED": str(refused), "COUNTED": "counted"}


def counted():
    """How many allocations the last program asked for that counted them."""
    with open("counted", encoding="ascii") as file:
        return int(file.read())


def run(lines, refused=None):
    """The replies to lines on a new image, the status, what a check says behind, and what a list of the root shows then."""
    for name in "disk", "nvram":
        shutil.copyfile(f"{name}.new", name)
    with open("script", "w", encoding="ascii") as file:
        file.write("\n".join(lines) + "\n")
    replies, status = wafl("run", "disk", "nvram", "script", **refusing(refused))
    checked = wafl("check", "disk", "nvram")[0]
    return replies, status, checked, wafl("do", "disk", "nvram", "list", "/")[0]


def modelled(blocks, lines):
    """The replies that the plain model gives, and what it lists behind them."""
    replies, left = model_run(System(blocks, INODES, HALF), [line.encode() for line in lines])
    names, _ = model_run(left, [b"list /"])
    return [reply.decode() for reply in replies], [reply.decode() for reply in names]


def without(blocks, lines, place):
    """The replies where one command finds no memory: those of the plain model without it, and that answer in its place."""
    replies, names = modelled(blocks, lines[:place] + lines[place + 1:])
    return replies[:place] + ["err ENOMEM"] + replies[place:], names


def what_came(came, whole, modelled_whole, lacking):
    """What a run came to, or None where it is nothing that may come."""
    replies, status, checked, names = came
    if not checked or not checked[0].startswith("ok "):
        return None
    if status == 4 and not replies:
        return "mount found no memory"
    if status == 7 and replies == whole[0][:len(replies)]:
        return "the program found no memory"
    if status == 0 and (replies, names) == modelled_whole:
        return "no answer shows it" if checked == whole[2] else "no answer shows it, and the point was planned later"
    if status == 0 and (replies, names) in lacking:
        return "one command found no memory"
    return None


def tell(name, count, table):
    """Prints what came of a program's allocations."""
    print(f"{name}: {count} allocations, each refused in a run of its own")
    for what, times in table.most_common():
        print(f"{times:6} {what}")


def refuse_in_run(name, blocks, lines):
    """Refuses each allocation of a run of these lines on a new image."""
    for file in "disk.new", "nvram.new":
        if os.path.exists(file):
            os.remove(file)
    wafl("make", "disk.new", "nvram.new", "--blocks", str(blocks), "--inodes", str(INODES), "--half", str(HALF))
    whole, modelled_whole = run(lines, 0), modelled(blocks, lines)
    count = counted()
    if (whole[0], whole[3]) != modelled_whole:
        sys.exit(f"{name}: not what the model answers: {whole}")
    lacking = [without(blocks, lines, place) for place in range(len(lines))]
    table = collections.Counter()
    for refused in range(1, count + 1):
        came = run(lines, refused)
        what = what_came(came, whole, modelled_whole, lacking)
        if what is None:
            sys.exit(f"{name}: allocation {refused} of {count}: {came}")
        table[what] += 1
    tell(name, count, table)


def read(name):
    """The bytes of a file, or None where there is none."""
    if not os.path.exists(name):
        return None
    with open(name, "rb") as file:
        return file.read()


def refuse_in_make():
    """Refuses each allocation of `make`."""
    words = ["make", "made.disk", "made.nvram", "--new", "--blocks", "128", "--inodes", str(INODES), "--half", str(HALF)]

    def made(refused):
        for name in words[1:3]:
            if os.path.exists(name):
                os.remove(name)
        shown = wafl(*words, **refusing(refused))
        return shown, [read(name) for name in words[1:3]]

    whole = made(0)
    count, table = counted(), collections.Counter()
    for refused in range(1, count + 1):
        (shown, status), files = made(refused)
        if status == 0 and (([], 0), files) == (whole[0], whole[1]):
            table["made all the same"] += 1
        elif status in (2, 7) and not shown and all(bytes_ is None or not bytes_.strip(b"\0") for bytes_ in files):
            table[f"ends with {status}, and no image is there"] += 1
        elif status in (2, 7) and not shown:
            table[f"ends with {status}, and the image isn't whole"] += 1
        else:
            sys.exit(f"make: allocation {refused} of {count}: {status} {shown}")
    tell("make", count, table)


def refuse_in_check():
    """Refuses each allocation of `check`, on what the last run left."""
    run(FORTY)
    files = [read(name) for name in ("disk", "nvram")]
    whole = wafl("check", "disk", "nvram", **refusing(0))
    count, table = counted(), collections.Counter()
    for refused in range(1, count + 1):
        came = wafl("check", "disk", "nvram", **refusing(refused))
        if files != [read(name) for name in ("disk", "nvram")]:
            sys.exit(f"check: allocation {refused} of {count}: the image is another one")
        if came == whole:
            table["the same report"] += 1
        elif came == ([], 7):
            table["the program found no memory"] += 1
        else:
            sys.exit(f"check: allocation {refused} of {count}: {came}")
    tell("check", count, table)


def main():
    with open("refusing.c", "w", encoding="ascii") as file:
        file.write(REFUSING)
    subprocess.run(["cc", "-O1", "-shared", "-fPIC", "-o", "refusing.so", "refusing.c"], check=True)
    for name, blocks, lines in RUNS:
        refuse_in_run(name, blocks, lines)
    refuse_in_make()
    refuse_in_check()


if __name__ == "__main__":
    FOLDER = tempfile.mkdtemp()
    os.chdir(FOLDER)
    try:
        main()
    finally:
        os.chdir("/")
        shutil.rmtree(FOLDER)
