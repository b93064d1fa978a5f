"""Prints what requests over a file take, through `pawnd answer` and `pawnd serve`, beside a bare durable insert.

usage: python3 -m bench.files [--small] [PROGRAM]     (default: build/pawnd)

The files are made by the program and filled by Python's sqlite3, row by row as the program would. A request's time is
that from the first reply of a stream to the last, over a fresh copy of the file each time; the best of some runs. A
repayment and a bare insert are measured in turns, since both wait for the disk, and the repayment once more over a file
in memory, where nothing does. With `--small` there are fewer pledges and runs, to try the script with a program that
was built without proofs.
"""
import os
import random
import shutil
import sqlite3
import subprocess
import sys
import tempfile
import time

SMALL = "--small" in sys.argv
NAMED = [word for word in sys.argv[1:] if not word.startswith("--")]
if NAMED:
    os.environ["PAWND"] = NAMED[0]

from tests.library.filled_stores import fill_store, receipt_of  # noqa: E402
from tests.library.keys import BROKER, OPERATOR, SEED  # noqa: E402
from tests.library.paths import PROGRAM  # noqa: E402
from tests.library.program import free_port  # noqa: E402
from tests.library.requests import request  # noqa: E402

RUNS = 1 if SMALL else 5
TURNS = 1 if SMALL else 15        # the runs of a stream beside bare inserts
EACH = 6 if SMALL else 1_000      # the pledges of a book among others
WHOLE = 40 if SMALL else 10_000   # the pledges of a book alone
LONG = 30 if SMALL else 999       # the entries of a long list
ASKED = 6 if SMALL else 999       # the requests of a stream
OK = b"HTTP/1.1 200 OK\r\n"


def replies(ran):
    """The replies of a run, and the seconds that each took, from the first that was read to the last."""
    whole, found, first, begun, ended = bytearray(), 0, 0, None, None
    while piece := os.read(ran.stdout.fileno(), 1 << 16):
        now, edge = time.perf_counter(), len(whole) - len(OK) + 1
        whole += piece
        more = whole.count(OK, max(edge, 0))
        if more:
            ended = now
            if begun is None:
                begun, first = now, more
        found += more
    return whole, (ended - begun) / max(found - first, 1)


def once(path, stream, wanted, place=None):
    """The time of a request of the stream, in microseconds, over a copy of the file, beside it or in another place."""
    with tempfile.TemporaryDirectory(dir=place or os.path.dirname(path)) as folder, tempfile.TemporaryFile() as asked:
        asked.write(b"".join(stream))
        asked.seek(0)
        scratch = shutil.copy(path, folder)
        ran = subprocess.Popen(
            [PROGRAM, "answer", scratch, "2024-01-31", SEED, OPERATOR], stdin=asked, stdout=subprocess.PIPE,
        )
        whole, spent = replies(ran)
        assert ran.wait() == 0 and whole.count(OK) == len(stream) and whole.count(wanted) >= len(stream), whole[-400:]
    return spent * 1e6


def each(path, stream, wanted):
    """The best time of some runs."""
    return min(once(path, stream, wanted) for _ in range(RUNS))


def bare(folder):
    """The time of a row and its commit in SQLite, its log synced at each, in microseconds."""
    with tempfile.TemporaryDirectory(dir=folder) as scratch:
        base = sqlite3.connect(os.path.join(scratch, "bare.db"), isolation_level=None)
        base.execute("PRAGMA journal_mode = WAL")
        base.execute("PRAGMA synchronous = FULL")
        base.execute(
            "CREATE TABLE entries (book INTEGER, number INTEGER, seq INTEGER, day INTEGER, sort INTEGER, "
            "pence INTEGER, PRIMARY KEY (book, number, seq)) STRICT"
        )
        begun = time.perf_counter()
        for seq in range(1000):
            base.execute("INSERT INTO entries VALUES (1, 1, ?, 1, 1, 1)", (seq,))
        spent = time.perf_counter() - begun
        base.close()
    return spent * 1e3


def beside_bare(path, stream, wanted):
    """The best time of a request that changes a book, and that of a bare insert, run in turns."""
    runs = [(once(path, stream, wanted), bare(os.path.dirname(path))) for _ in range(TURNS)]
    return tuple(min(spent) for spent in zip(*runs))


def view(name):
    return request("GET", f"/books/{name[0]}/held", f"Pledge-Receipt: {receipt_of(*name)}")


def repayment(name, seq=1):
    return request(
        "POST", f"/books/{name[0]}/held/repay", f"Pledge-Receipt: {receipt_of(*name)}",
        body=f'{{"pence":1,"seq":{seq}}}',
    )


def opening(number):
    return request("POST", "/books/1/pledges", f"Pledge-Key: {BROKER}",
                   body=f'{{"article":"Gold ring","five_days":false,"kind":"fixed","pence":10000,"ref":"B{number}"}}')


def broker(target):
    return request("GET", f"/books/1/{target}", f"Pledge-Key: {BROKER}")


def line(name, *numbers):
    print(f"{name:46}" + "".join(f"{number:12.1f}" for number in numbers), flush=True)


def chosen_among(books):
    """The pledges that a stream asks about, drawn from so many books."""
    names = [(book, number) for book in range(1, books + 1) for number in range(1, EACH + 1)]
    return random.Random(books).sample(names, min(ASKED, len(names)))


def among_others(folder):
    """Requests about books of 1,000 pledges, in files of 1, 10 and 100 such books: what grows down a column grows
    with other books."""
    print(
        f"{f'microseconds a request, books of {EACH} pledges':46}" + "".join(
            f"{name:>12}" for name in ("view", "repayment", "bare insert", "opening", "day sheet", "export")
        )
    )
    for books in (1, 10, 100):
        path = os.path.join(folder, f"{books}.db")
        fill_store(path, books, EACH)
        chosen = chosen_among(books)
        numbers = (
            each(path, [view(name) for name in chosen], b"Status inside"),
            *beside_bare(path, [repayment(name) for name in chosen], b'"sort"'),
            each(path, [opening(number) for number in range(ASKED)], b'"receipt"'),
            each(path, [broker("days/2024-07-31")] * 3, b"Ends "), each(path, [broker("export")] * 3, b"\nP,"),
        )
        line(f"{books} of them, {books * EACH} pledges", *numbers)


def in_memory(folder):
    """The same repayments over a file in memory: what the program takes itself."""
    path, stream = os.path.join(folder, "10.db"), [repayment(name) for name in chosen_among(10)]
    line(
        "a repayment among 10 of them, without a disk",
        min(once(path, stream, b'"sort"', "/dev/shm") for _ in range(TURNS)),
    )


def one_list(folder):
    path = os.path.join(folder, "lists.db")
    fill_store(path, 1, EACH, entries=1, long=LONG - 1)
    few, few_repaid = [(1, number) for number in range(2, EACH + 1)][:ASKED], min(ASKED, 200)
    print(f"{'microseconds a request, by entries of a pledge':46}{1:>12}{LONG:>12}")
    line(
        "view by receipt", each(path, [view(name) for name in few], b"Entry 1"),
        each(path, [view((1, 1))] * few_repaid, f"Entry {LONG}".encode()),
    )
    line("repayment", each(path, [repayment(name, 2) for name in few], b'"sort"'),
         each(path, [repayment((1, 1), LONG + n) for n in range(1, few_repaid + 1)], b'"sort"'))


def one_book(folder):
    path = os.path.join(folder, "whole.db")
    fill_store(path, 1, WHOLE)
    print(f"milliseconds a request, a book of {WHOLE} pledges:")
    line("sheet of a day without any", each(path, [broker("days/2024-03-04")] * 3, b"Ends 0") / 1e3)
    line("sheet of a day with all", each(path, [broker("days/2024-07-31")] * 3, f"Ends {WHOLE}".encode()) / 1e3)
    line("export", each(path, [broker("export")] * 3, f"\nP,{WHOLE},".encode()) / 1e3)


def opens(folder):
    print(f"{'`serve` until it listens':46}{'pledges':>12}{'milliseconds':>14}{'KiB of file':>13}{'peak KiB':>10}")
    for books in (0, 10, 100):
        path, port = os.path.join(folder, f"{books}.db") if books else ":memory:", free_port()
        best, peak = None, 0
        for _ in range(RUNS):
            begun = time.perf_counter()
            server = subprocess.Popen(
                [PROGRAM, "serve", path, str(port), OPERATOR], stdin=subprocess.DEVNULL, stdout=subprocess.PIPE,
            )
            server.stdout.readline()
            spent = time.perf_counter() - begun
            best = spent if best is None else min(best, spent)
            with open(f"/proc/{server.pid}/status") as it:
                peak = next(int(word.split()[1]) for word in it if word.startswith("VmHWM:"))
            server.kill()
            server.communicate()
        size = os.path.getsize(path) // 1024 if books else 0
        name = "a file" if books else "in memory, empty"
        print(f"{name:46}{books * EACH:>12}{best * 1e3:>14.1f}{size:>13}{peak:>10}", flush=True)
    checked = time.perf_counter()
    subprocess.run([PROGRAM, "check", os.path.join(folder, "100.db")], stdout=subprocess.DEVNULL, check=True)
    line(f"`check` of {100 * EACH} pledges, milliseconds", (time.perf_counter() - checked) * 1e3)


def moves(folder):
    """`migrate` of files of the first and of the second schema, each pledge of which it reads."""
    print(f"{'milliseconds, by pledges of one entry each':46}{10 * EACH:>12}{100 * EACH:>12}")
    spent = {1: [], 2: []}
    for books in (10, 100):
        path = os.path.join(folder, f"old{books}.db")
        fill_store(path, books, EACH, entries=1)
        for schema, times in spent.items():
            old = shutil.copy(path, os.path.join(folder, "moved.db"))
            base = sqlite3.connect(old)
            for index in ("bookings_by_time", "pledges_by_end"):
                base.execute(f"DROP INDEX IF EXISTS {index}")
            for table in ("extensions", "totals")[:3 - schema]:
                base.execute(f"DROP TABLE {table}")
            base.execute("UPDATE meta SET value = ? WHERE name = 'schema'", (schema,))
            base.commit()
            base.close()
            begun = time.perf_counter()
            subprocess.run([PROGRAM, "migrate", old], stdout=subprocess.DEVNULL, check=True)
            times.append((time.perf_counter() - begun) * 1e3)
            for end in ("", "-wal"):
                if os.path.exists(old + end):
                    os.remove(old + end)
    for schema, times in spent.items():
        line(f"`migrate` from schema {schema}", *times)


def main():
    if not os.path.exists(PROGRAM):
        sys.exit("no program: run make first, or name one")
    with tempfile.TemporaryDirectory(dir="/var/tmp") as folder:
        among_others(folder)
        in_memory(folder)
        one_list(folder)
        one_book(folder)
        opens(folder)
        moves(folder)


if __name__ == "__main__":
    main()
