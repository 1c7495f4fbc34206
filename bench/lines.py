#!/usr/bin/env python3
"""What bench/shell.sh and bench/slices.sh ask of a program that answers line by line.

    python3 lines.py ask FILE COMMAND..       sends each line of FILE when the line before it is answered; tells the seconds that took
    python3 lines.py pauses FILE COMMAND..    the same, and tells how long those five took that took longest, behind the first, and the one in
                                              the middle
    python3 lines.py memory AT COMMAND..      tells the program's memory in MiB behind its first line of output, and behind line AT"""
import gc
import subprocess
import sys
import time


def waits(file, command):
    """How long each line of the file waits for its reply, and the line."""
    with open(file, "rb") as it:
        lines = it.readlines()
    run = subprocess.Popen(command, stdin=subprocess.PIPE, stdout=subprocess.PIPE)
    took = []
    # A collection of Python's own, among so many tuples, would be told as a wait of some milliseconds.
    gc.disable()
    for number, line in enumerate(lines, 1):
        begin = time.perf_counter()
        run.stdin.write(line)
        run.stdin.flush()
        reply = run.stdout.readline()
        took.append((time.perf_counter() - begin, number, line))
        if not reply.endswith(b"\n") or reply.startswith(b"err "):
            sys.exit(f"{line[:40]} was answered {reply}")
    run.stdin.close()
    run.wait()
    return took


def ask(file, command):
    print(f"{sum(wait for wait, _, _ in waits(file, command)):.2f}")


def pauses(file, command):
    took = sorted(waits(file, command)[1:])
    for wait, number, line in reversed(took[-5:]):
        print(f"{wait * 1000:9.2f} ms at line {number}, {line[:40].decode().strip()}")
    print(f"{took[len(took) // 2][0] * 1000:9.2f} ms in the middle, {sum(wait for wait, _, _ in took):.2f} s in all")


def resident(process):
    with open(f"/proc/{process}/status", encoding="ascii") as it:
        return next(int(line.split()[1]) for line in it if line.startswith("VmRSS:")) / 1024


def memory(at, command):
    run = subprocess.Popen(command, stdout=subprocess.PIPE)
    run.stdout.readline()
    first = resident(run.pid)
    for _ in range(int(at) - 1):
        run.stdout.readline()
    print(f"{first:.1f} {resident(run.pid):.1f}")
    run.stdout.read()
    run.wait()


{"ask": ask, "pauses": pauses, "memory": memory}[sys.argv[1]](sys.argv[2], sys.argv[3:])
