"""Prints the processor time of a request over a file, beside that of another program that answers the same bytes.

usage: python3 -m bench.beside [--pledges N] PEER [PROGRAM]     (default: 10,000 pledges, build/pawnd)

PEER is a program of the form `PEER answer DATABASE DAY SEED KEY` that keeps its books in tables of the same names and
columns, but for those that it leaves out. Each makes its own tables, and Python's sqlite3 fills both with the same
rows. The requests of a kind are sent to a process that has opened its file; their time is the processor time of that
process from then on, the best of some runs in turns.
"""
import glob
import hashlib
import os
import random
import re
import shutil
import sqlite3
import subprocess
import sys
import tempfile
import threading

WORDS = sys.argv[1:]
PLEDGES = int(WORDS.pop(WORDS.index("--pledges") + 1)) if "--pledges" in WORDS else 10_000
NAMED = [word for word in WORDS if not word.startswith("--")]
if len(NAMED) > 1:
    os.environ["PAWND"] = NAMED[1]

from tests.library.keys import BROKER, OPERATOR, SEED  # noqa: E402
from tests.library.paths import PROGRAM  # noqa: E402
from tests.library.requests import request  # noqa: E402

RUNS = 30
TODAY, ENDS, DAY = 19753, 19935, "2024-01-31"  # 2024-01-31 and 2024-07-31, as days since 1970-01-01
LONG = 999
PRESENTED = 32
# A request that changes nothing; its reply shows that the file is open.
FIRST = request("GET", "/books/9/export", f"Pledge-Key: {BROKER}")


def word(book, number):
    return hashlib.md5(f"{book}/{number}".encode()).digest()


def receipt(book, number):
    digits = word(book, number).hex()
    return f"{number}-{digits[:8]}-{digits[8:12]}-{digits[12:16]}-{digits[16:20]}-{digits[20:]}"


def put(base, table, columns, rows):
    """Puts rows into a table, if the program has it, and counts them."""
    if not base.execute("SELECT 1 FROM sqlite_master WHERE name = ?", (table,)).fetchone():
        return 0
    marks = ", ".join("?" * len(columns.split()))
    return base.executemany(f"INSERT INTO {table} ({', '.join(columns.split())}) VALUES ({marks})", rows).rowcount


def fill(program, path):
    """Book 1 of so many pledges, each with up to three entries and one in twenty with a booking; book 2 with a
    pledge of many entries, and book 3 for openings."""
    subprocess.run(
        [program, "answer", path, DAY, SEED, OPERATOR], stdin=subprocess.DEVNULL, stdout=subprocess.DEVNULL, check=True,
    )
    base, key = sqlite3.connect(path), bytes.fromhex(BROKER.replace("-", ""))
    every = [(1, number) for number in range(1, PLEDGES + 1)] + [(2, 1)]
    entries = {name: LONG if name == (2, 1) else name[1] % 4 for name in every}
    columns = "book book_key title capacity terms pledges"
    counted = put(base, "books", columns, [(n, key, "High Street", 100, 1, (PLEDGES, 1, 0)[n - 1]) for n in (1, 2, 3)])
    columns = "book version rate keep_before keep_after"
    counted += put(base, "terms", columns, [(book, 1, 2667, 0, 0) for book in (1, 2, 3)])
    columns = "book number ref article kind credit taken five version ends held last_day closed"
    rows = [(*name, f"R{name[1]}", "Ring, 9 ct gold", 0, 900000, TODAY, 0, 1, ENDS, 0, TODAY, 0) for name in every]
    counted += put(base, "pledges", columns, rows)
    rows = [(*name, seq, TODAY, 1, 100) for name in every for seq in range(1, entries[name] + 1)]
    counted += put(base, "entries", "book number seq day sort pence", rows)
    rows = [(*name, 1, TODAY, 0, word(*name)) for name in every]
    counted += put(base, "secrets", "book number place day sort secret", rows)
    rows = [(1, number, TODAY + 3 + number % 5, number % 16, 0) for number in range(7, PLEDGES + 1, 20)]
    counted += put(base, "bookings", "book number day slot state", rows)
    rows = [(*name, TODAY, 900000 - 100 * entries[name], 0) for name in every]
    put(base, "totals", "book number day principal charges", rows)
    base.execute("UPDATE meta SET value = ? WHERE name = 'rows'", (counted,))
    base.commit()
    if base.execute("PRAGMA journal_mode").fetchone()[0] == "wal":
        base.execute("PRAGMA wal_checkpoint(TRUNCATE)")
    base.close()


def streams():
    """The requests of each kind, with the line that its ratio is held to, if there is one."""
    seeded, key = random.Random(1), f"Pledge-Key: {BROKER}"
    numbers = [seeded.randrange(1, PLEDGES + 1) for _ in range(900)]
    presented = [
        [f"Pledge-Receipt: {receipt(1, number)}" for number in numbers[at:at + PRESENTED]] for at in range(0, 800, 10)
    ]
    once = random.Random(2).sample(range(1, PLEDGES + 1), min(900, PLEDGES))
    opening = '{"article":"Ring, 9 ct gold","five_days":true,"kind":"fixed","pence":10000,"ref":"N%d"}'
    return [
        (
            "a view", 1.9,
            [request("GET", "/books/1/held", f"Pledge-Receipt: {receipt(1, number)}") for number in numbers],
        ),
        (
            "a repayment", 1.8,
            [
                request(
                    "POST", f"/books/1/pledges/{number}/repay", key, body='{"pence":10,"seq":%d}' % (number % 4 + 1),
                )
                for number in once
            ],
        ),
        (f"a view of {PRESENTED} receipts", 2.5, [request("GET", "/books/1/held", *fields) for fields in presented]),
        ("an opening", 1.8, [request("POST", "/books/3/pledges", key, body=opening % at) for at in range(900)]),
        (f"a statement of {LONG} entries", 2.3, [request("GET", "/books/2/pledges/1", key)] * 300),
        ("a day's sheet", 2.2, [request("GET", f"/books/1/days/2024-02-{3 + at % 5:02}", key) for at in range(800)]),
        ("an export", 3.0, [request("GET", "/books/1/export", key)] * 4),
    ]


def used(process):
    """The processor time of a process so far, in seconds."""
    spans = [open(path).read() for path in glob.glob(f"/proc/{process.pid}/task/*/schedstat")]
    return sum(int(span.split()[0]) for span in spans) / 1e9


def read_reply(stream):
    """The bytes of the next reply."""
    head = b""
    while not head.endswith(b"\r\n\r\n"):
        line = stream.readline()
        if not line:
            sys.exit("a program ended before it had answered")
        head += line
    return head + stream.read(int(re.search(rb"(?i)content-length: *(\d+)", head).group(1)))


def spent(program, path, asked):
    """The processor time of these requests in a process over a copy of the file, in seconds, and the replies' bytes. It
    is measured from the reply to a first request on, so that the opening of the file is not in it."""
    with tempfile.TemporaryDirectory(dir=os.path.dirname(path)) as room:
        command = [program, "answer", shutil.copy(path, room), DAY, SEED, OPERATOR]
        with subprocess.Popen(command, stdin=subprocess.PIPE, stdout=subprocess.PIPE) as process:
            process.stdin.write(FIRST)
            process.stdin.flush()
            read_reply(process.stdout)
            before = used(process)
            sender = threading.Thread(target=lambda: (process.stdin.write(b"".join(asked)), process.stdin.flush()))
            sender.start()
            said = b"".join(read_reply(process.stdout) for _ in asked)
            time = used(process) - before
            sender.join()
    return time, said


def main():
    if not NAMED:
        sys.exit(__doc__)
    if not os.path.exists(PROGRAM):
        sys.exit("no program: run make first, or name one")
    programs = [(PROGRAM, "own.db"), (os.path.abspath(NAMED[0]), "peer.db")]
    place = "/dev/shm" if os.path.isdir("/dev/shm") else None
    with tempfile.TemporaryDirectory(dir=place) as room:
        paths = [(program, os.path.join(room, name)) for program, name in programs]
        for program, path in paths:
            fill(program, path)
        print(f"microseconds of processor time a request, over files of {PLEDGES} pledges")
        for kind, line, asked in streams():
            best, said = [None, None], [b"", b""]
            for _ in range(RUNS):
                for at, (program, path) in enumerate(paths):
                    time, said[at] = spent(program, path, asked)
                    best[at] = time if best[at] is None else min(best[at], time)
            each = [time / len(asked) * 1e6 for time in best]
            alike = "" if said[0] == said[1] else "  OTHER BYTES"
            times = each[0] / max(each[1], 0.1)
            told = f"{kind}: {each[0]:.0f}, beside {each[1]:.0f}: {times:.1f} times, the line is {line}{alike}"
            print(told, flush=True)


if __name__ == "__main__":
    main()
