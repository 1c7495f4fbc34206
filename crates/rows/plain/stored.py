"""Makes `version_1.rows`: images that a program made which wrote roots of version 1, as rows that put them and say what opens.

    python3 stored.py WAFL      makes them anew. WAFL has to be a program whose `make` and consistency points write version 1: the
                                last state of the sources before version 2
    python3 stored.py           keeps their bytes, which no later program makes, and tells the rest anew: what a mount shows, and what
                                comes of commands over them, which is the model's answer
"""
import os
import re
import subprocess
import sys
import tempfile

from scripts import run as run_model
from session_rows import heads, shown
from version_1 import CUTS, DATA, IMAGES, TITLE, image_of, lines_of, stored_of

HEAD = """\
# Images of version 1: a root with 20 slots for snapshots, trees of at most 64 MiB a file. A program made them that wrote this version;
# what each has of bytes that aren't zero is put over zeros. The commands that it was made by stand behind its name. They are read as
# they are, and nothing is written to one whose newest root has all; the first consistency point over one writes a root of version 2,
# and what only that version allows is allowed at once.
"""


def run(wafl, folder, script, options):
    """The replies of a script on the images of this folder, and its status."""
    done = subprocess.run([wafl, "run", "disk", "nvram", "-", *options], cwd=folder, capture_output=True, text=True,
                          input="".join(line + "\n" for line in script), check=False)
    return done.stdout.splitlines(), done.returncode


def runs_of(data):
    """Where bytes stand that aren't zero, with no more than 15 zeros between."""
    at = 0
    while at < len(data):
        if not data[at]:
            at += 1
            continue
        end = last = at
        while end < len(data) and end - last <= 15:
            if data[end]:
                last = end
            end += 1
        yield at, data[at:last + 1]
        at = last + 1


def put(word, data):
    """The lines that put an image in the place of another."""
    yield f"{word} size 0"
    yield f"{word} size {len(data)}"
    for at, part in runs_of(data):
        for start in range(0, len(part), 1024):
            yield f"{word} at {at + start} {part[start:start + 1024].hex()}"


def made(wafl, image):
    """The lines that put an image, made by a program."""
    with tempfile.TemporaryDirectory() as folder:
        blocks, inodes, half = image.sizes
        sizes = ["--blocks", str(blocks), "--inodes", str(inodes), "--half", str(half)]
        subprocess.run([wafl, "make", "disk", "nvram", *sizes], cwd=folder, check=True, capture_output=True)
        for script, options in image.scripts:
            replies, status = run(wafl, folder, script, options)
            assert status in (0, 3) and not any(reply.startswith("err") for reply in replies), (image.name, replies)
        yield f"image {blocks} {inodes} {half}"
        for word in ("disk", "nvram"):
            with open(os.path.join(folder, word), "rb") as file:
                yield from put(word, file.read())
        yield from patched(folder, image.patches)


def row_of(image, lines):
    """The row of an image: what puts it, what it shows, and what comes of commands over it."""
    yield f"row {TITLE}{image.name}"
    for script, options in image.scripts:
        yield from comment(script, options)
    yield from lines
    system = stored_of(TITLE + image.name)
    yield "check -> " + shown(system.checked())
    looks, _ = told(system, image.looks)
    yield from ["run", *looks, "unchanged"]
    mounted = system.copy()
    mounted.mount()
    if mounted.is_covered():
        yield from ["run", "  sync -> ok", "unchanged"]
    for script in image.then:
        lines, system = told(system, script)
        yield from ["run", *lines, "check -> " + shown(system.checked()), *heads(system)]


def rows_of_cuts(lines, name, cuts, script):
    """The rows of a run over an image that is cut: what opens then, and what comes of a further point."""
    for words in cuts:
        yield ""
        yield f"row {TITLE}{name}, {'; '.join(script)}, {words}"
        yield from lines
        options = dict(word.split("=") for word in words.split())
        cut = int(options["cut"].split("..")[0])
        keep, kept_bytes = options.get("keep", "none").split(",")[0], int(options.get("bytes", 0))
        replies, left = run_model(stored_of(TITLE + name), [line.encode() for line in script], cut, keep, kept_bytes)
        yield f"run {words}"
        yield from (f"  {line} -> {shown(reply)}" for line, reply in zip(script, replies))
        yield from ["check -> " + shown(left.checked()), *heads(left)]
        looks, _ = told(left, image_of(TITLE + name).looks)
        yield from ["run", *looks, "unchanged"]
        then, last = told(left, ["mkdir /then", "sync", "snap list", "df"])
        yield from ["run", *then, "check -> " + shown(last.checked()), *heads(last)]


def told(system, script):
    """The lines of a run with the model's replies, and what it leaves."""
    replies, left = run_model(system, [line.encode() for line in script])
    return [f"  {line} -> {shown(reply)}" for line, reply in zip(script, replies)], left


def patched(folder, patches):
    """The lines that put other bytes of a record in the log."""
    with open(os.path.join(folder, "nvram"), "rb") as file:
        nvram = file.read()
    for old, new in patches:
        at = nvram.find(bytes.fromhex(old))
        assert at >= 0 and len(old) == len(new), old
        yield f"nvram at {at} {new}"


def comment(script, options):
    """The commands of a run, as comments; of a long list of bytes its length."""
    text = "; ".join(short(line) for line in script)
    if options:
        text += "; run with " + " ".join(options)
    line = "#"
    for word in text.split(" "):
        if len(line) + len(word) > 138:
            yield line
            line = "#"
        line += " " + word
    yield line


def short(line):
    """A command, in which a byte that comes many times stands once, as in rows."""
    words = line.split(" ")
    if words[0] == "pwrite":
        words[3] = re.sub(r"^((?:00)+)(?=..)", lambda zeros: f"{{00*{len(zeros[1]) // 2}}}" if len(zeros[1]) > 8 else zeros[1], words[3])
    return re.sub("x{9,}", lambda letters: f"{{78*{len(letters[0])}}}", " ".join(words))


def main():
    wafl = os.path.abspath(sys.argv[1]) if len(sys.argv) > 1 else None
    lines = {image.name: list(made(wafl, image)) if wafl else lines_of(image.name) for image in IMAGES}
    rows = ["\n".join(row_of(image, lines[image.name])) for image in IMAGES]
    cuts = ["\n".join(rows_of_cuts(lines[name], name, *rest)) for name, *rest in CUTS]
    (DATA / "version_1.rows").write_text(HEAD + "\n" + "\n\n".join(rows) + "\n" + "\n".join(cuts) + "\n")


if __name__ == "__main__":
    main()
