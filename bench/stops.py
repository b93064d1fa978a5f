"""Prints what it costs that a change is on the disk before its reply, and what a start costs after a kill.

usage: python3 -m bench.stops [--peer PEER] [PROGRAM]     (default: build/pawnd)

PEER is a program as bench/beside.py has it; its figures stand beside. The calls that wait for the disk are counted by
strace. The times are by the clock, the best of some runs, over a file on the disk of /var/tmp.
"""
import os
import re
import shutil
import subprocess
import sys
import tempfile
import threading
import time

# The first of these imports reads the words of the command line, which are the same there.
from bench.growth import DAY, PEER, fill, numbers, post
from tests.library.keys import OPERATOR, SEED
from tests.library.paths import PROGRAM
from tests.library.program import free_port

PLEDGES, CHANGES, RUNS = 10_000, 900, 7
SYNCS = "fsync,fdatasync,msync,sync_file_range"


def repayments(many):
    return b"".join(post(f"pledges/{number}/repay", '{"pence":10,"seq":1}') for number in numbers(PLEDGES, many))


def answered(program, path, stream, *before):
    """Seconds by the clock in which a stream is answered, every request of it with 200."""
    begun = time.perf_counter()
    ran = subprocess.run([*before, program, "answer", path, DAY, SEED, OPERATOR], input=stream, capture_output=True)
    spent = time.perf_counter() - begun
    if ran.returncode or ran.stdout.count(b"HTTP/1.1 200 ") != stream.count(b"HTTP/1.1\r\n"):
        sys.exit(f"{program} refuses: {ran.stdout[:300]} {ran.stderr[-300:]}")
    return spent


def copied(path, room):
    """A fresh copy of a store without a log."""
    for end in ("", "-wal", "-shm"):
        if os.path.exists(os.path.join(room, "copy.db" + end)):
            os.remove(os.path.join(room, "copy.db" + end))
    return shutil.copy(path, os.path.join(room, "copy.db"))


def syncs(program, path, room):
    """How often a change waits for the disk: the calls of a stream of changes, less those of an empty one."""
    counts = []
    for stream in (repayments(CHANGES), b""):
        notes = os.path.join(room, "calls")
        answered(program, copied(path, room), stream, "strace", "-f", "-o", notes, "-e", f"trace={SYNCS}")
        with open(notes) as file:
            counts.append(len(re.findall(r"sync\w*\(", file.read())))
    return (counts[0] - counts[1]) / CHANGES


def change(program, path, room):
    """Milliseconds of a change, by the clock."""
    whole, empty = (min(answered(program, copied(path, room), stream) for _ in range(RUNS))
                    for stream in (repayments(CHANGES), b""))
    return (whole - empty) / CHANGES * 1e3


def listening(program, path):
    port = free_port()
    begun = time.perf_counter()
    server = subprocess.Popen([program, "serve", path, str(port), OPERATOR], stdin=subprocess.DEVNULL,
                              stdout=subprocess.PIPE)
    server.stdout.readline()
    return server, time.perf_counter() - begun


def killed_after(program, path, changes):
    """Leaves a store whose program was killed when it had answered so many changes."""
    work = subprocess.Popen([program, "answer", path, DAY, SEED, OPERATOR], stdin=subprocess.PIPE,
                            stdout=subprocess.PIPE)
    # The pipe stays open, so that the program does not close its store.
    threading.Thread(target=lambda: (work.stdin.write(repayments(changes)), work.stdin.flush()), daemon=True).start()
    said = b""
    while said.count(b"HTTP/1.1 200 ") < changes:
        said += os.read(work.stdout.fileno(), 1 << 20)
    work.kill()
    work.communicate()


def starts(program, path, room):
    """Milliseconds until a service listens: over a store that was closed, and over one whose service was killed after
    changes that are in its log alone."""
    closed, killed = [], []
    for _ in range(RUNS):
        for changes, times in (0, closed), (CHANGES, killed):
            copy = copied(path, room)
            if changes:
                killed_after(program, copy, changes)
            server, spent = listening(program, copy)
            times.append(spent)
            server.kill()
            server.communicate()
    return min(closed) * 1e3, min(killed) * 1e3


def main():
    if not os.path.exists(PROGRAM):
        sys.exit("no program: run make first, or name one")
    if not shutil.which("strace"):
        sys.exit("strace is not installed")
    with tempfile.TemporaryDirectory(dir="/var/tmp") as room:
        for program in [PROGRAM] + ([PEER] if PEER else []):
            path = os.path.join(room, "store.db")
            if os.path.exists(path):
                os.remove(path)
            fill(program, path, pledges=PLEDGES)
            first = f"{os.path.basename(program)}, {PLEDGES:,} pledges"
            closed, killed = starts(program, path, room)
            print(f"{first}: calls that wait for the disk in a change {syncs(program, path, room):.2f}; "
                  f"a change {change(program, path, room):.3f} ms; until it listens {closed:.0f} ms after a close, "
                  f"{killed:.0f} ms after a kill with {CHANGES} changes in its log", flush=True)


if __name__ == "__main__":
    main()
