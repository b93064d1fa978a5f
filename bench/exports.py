"""Prints what an export takes through `pawnd serve`, and how far it lifts the server's peak memory, beside the bytes of its
text: of books of 10,000 and of 100,000 pledges, and of one of 300 pledges of which ten have 9,999 entries.

usage: python3 -m bench.exports [PROGRAM]     (default: build/pawnd)
"""
import os
import sys
import time

if len(sys.argv) > 1:
    os.environ["PAWND"] = sys.argv[1]

from tests.library.paths import PROGRAM  # noqa: E402
from tests.library.program import Server  # noqa: E402

MOST_ENTRIES = 9_999
# How many pledges a book has, and how many of them have as many entries as a pledge may have.
BOOKS = ((10_000, 0), (100_000, 0), (300, 10))
RUNS = 5


def peak(server):
    """The server's peak memory so far, in KiB."""
    with open(f"/proc/{server.program.pid}/status") as it:
        return next(int(line.split()[1]) for line in it if line.startswith("VmHWM:"))


def processor(server):
    """The seconds of a processor that the server has used so far."""
    with open(f"/proc/{server.program.pid}/stat") as it:
        words = it.read().rpartition(")")[2].split()
    return (int(words[11]) + int(words[12])) / os.sysconf("SC_CLK_TCK")


def fill(session, pledges, long):
    session.open_book()
    for number in range(1, pledges + 1):
        running = number % (pledges // long) == 0 if long else False
        session.open_pledge(number, kind="running" if running else "fixed")
        for seq in range(1, MOST_ENTRIES + 1 if running else 1):
            assert session.broker("POST", f"/books/7/pledges/{number}/draw", {"pence": 1, "seq": seq})[0] == 200


def measure(pledges, long):
    with Server() as server:
        session = server.session()
        fill(session, pledges, long)
        before, best, used = peak(server), None, processor(server)
        for _ in range(RUNS):
            begun = time.perf_counter()
            status, text = session.broker("GET", "/books/7/export")
            taken = time.perf_counter() - begun
            best = taken if best is None else min(best, taken)
            assert status == 200 and text.count("\nP,") == pledges and text.count(",draw,1,") == long * MOST_ENTRIES
        used = (processor(server) - used) / RUNS
        entries = f", {long} of them with {MOST_ENTRIES} entries" if long else ""
        print(f"an export of {pledges} pledges{entries}: {best:.3f} s with the client's reading, {used:.3f} s of a processor")
        print(f"    its text: {len(text) // 1024} KiB; peak memory before it: {before} KiB, after it: {peak(server)} KiB")


def main():
    if not os.path.exists(PROGRAM):
        sys.exit("no program: run make first, or name one")
    for pledges, long in BOOKS:
        measure(pledges, long)


if __name__ == "__main__":
    main()
