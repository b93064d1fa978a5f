"""Prints how the processor time of each request grows: with the pledges of a book and their bookings, with those that
are asked for one day or confirmed for it, with the entries of a pledge, and with the books of a store.

usage: python3 -m bench.growth [--peer PEER] [PROGRAM]     (default: build/pawnd)

PEER is a program as bench/beside.py has it; its times are printed in further columns. Each store is filled by Python's
sqlite3. A time is that of a process that answers a stream, less that of one that answers none, for each request: the
best of some runs.
"""
import os
import sqlite3
import subprocess
import sys
import tempfile

WORDS = sys.argv[1:]
PEER = None
if "--peer" in WORDS:
    at = WORDS.index("--peer")
    PEER = os.path.abspath(WORDS[at + 1])
    del WORDS[at:at + 2]
if WORDS:
    os.environ["PAWND"] = WORDS[0]

from bench.beside import DAY, ENDS, TODAY, receipt, spent, word  # noqa: E402
from tests.library.keys import BROKER, KEY, OPERATOR, SEED  # noqa: E402
from tests.library.paths import PROGRAM  # noqa: E402
from tests.library.requests import request  # noqa: E402

RUNS = 7
# A stream has at most a thousand requests.
MANY = 900
# So many bookings, and so many ends of periods, fall on each day, however many there are.
EACH_DAY = 20


def put(base, table, columns, rows):
    """Puts these columns of rows, those that the table has, and returns how many rows there were."""
    has = {name for _, name, *_ in base.execute(f"PRAGMA table_info({table})")}
    if not has:
        return 0
    kept = [at for at, name in enumerate(columns.split()) if name in has]
    names = ", ".join(columns.split()[at] for at in kept)
    marks = ", ".join("?" * len(kept))
    cells = ([row[at] for at in kept] for row in rows)
    return base.executemany(f"INSERT INTO {table} ({names}) VALUES ({marks})", cells).rowcount


def fill(program, path, books=1, pledges=1, entries=0, asked=0, confirmed=0, index=None):
    """A store of so many books of so many pledges of so many entries, each with a booking and an end of its own.
    So many are asked for one day, and the last of these so many pledges are confirmed for it. A further index may be
    made by a statement."""
    subprocess.run([program, "answer", path, DAY, SEED, OPERATOR], stdin=subprocess.DEVNULL, stdout=subprocess.DEVNULL,
                   check=True)
    base, key = sqlite3.connect(path), bytes.fromhex(BROKER.replace("-", ""))
    every = [(book, number) for book in range(1, books + 1) for number in range(1, pledges + 1)]
    days = max(1, pledges // EACH_DAY)
    rows = put(base, "books", "book book_key title capacity terms pledges",
               [(book, key, "High Street", 1000, 1, pledges) for book in range(1, books + 1)])
    rows += put(base, "terms", "book version rate keep_before keep_after",
                [(book, 1, 2667, 0, 0) for book in range(1, books + 1)])
    columns = "book number ref article kind credit taken agreed five version ends held last_day closed"
    rows += put(base, "pledges", columns,
                [(*name, f"R{name[1]}", "Ring, 9 ct gold", 0, 900000, TODAY, end, 0, 1, end, 0, TODAY, 0)
                 for name in every for end in [ENDS + name[1] % days]])
    rows += put(base, "entries", "book number seq day sort pence",
                ((*name, seq, TODAY, 1, 1) for name in every for seq in range(1, entries + 1)))
    rows += put(base, "secrets", "book number place day sort secret",
                [(*name, 1, TODAY, 0, word(*name)) for name in every])
    rows += put(base, "bookings", "book number day slot state",
                [(*name, ENDS if name[1] <= asked else TODAY + 3 + name[1] % days, name[1] % 16,
                 int(asked - confirmed < name[1] <= asked)) for name in every])
    put(base, "totals", "book number day principal charges", [(*name, TODAY, 900000 - entries, 0) for name in every])
    base.execute("UPDATE meta SET value = ? WHERE name = 'rows'", (rows,))
    if index:
        base.execute(index)
    base.commit()
    if base.execute("PRAGMA journal_mode").fetchone()[0] == "wal":
        base.execute("PRAGMA wal_checkpoint(TRUNCATE)")
    base.close()


def post(target, body):
    return request("POST", f"/books/1/{target}", KEY, body=body)


def sheets(day, many):
    return [request("GET", f"/books/1/days/{day}", KEY)] * many


def numbers(pledges, many):
    return [1 + at * pledges // many for at in range(min(pledges, many))]


def of_a_pledge(pledges):
    """The requests on pledges of the first book, by their names."""
    some = numbers(pledges, MANY)
    opened = '{"article":"Ring, 9 ct gold","five_days":true,"kind":"fixed","pence":10000,"ref":"N%d"}'
    return {
        "a view": [request("GET", "/books/1/held", f"Pledge-Receipt: {receipt(1, number)}") for number in some],
        "a repayment": [post(f"pledges/{number}/repay", '{"pence":10,"seq":1}') for number in some],
        "an opening": [post("pledges", opened % at) for at in range(MANY)],
    }


def decided(some):
    return [post(f"pledges/{number}/decide", '{"yes":true}') for number in some]


def by_pledges(size):
    return {
        f"a sheet of {EACH_DAY} asked": sheets("2024-02-13", MANY),
        f"a sheet of {EACH_DAY} ends": sheets("2024-08-10", MANY),
        "`decide` with yes": decided(numbers(size, MANY)),
        **of_a_pledge(size),
        "an export": [request("GET", "/books/1/export", KEY)] * 2,
    }


def by_asked(size):
    return {
        "the sheet of that day": sheets("2024-07-31", 100),
        "`decide` with yes, for that day": decided(range(1, size + 1)[:MANY]),
    }


# So many are asked for the day for which others are confirmed.
STILL_ASKED = 200
BY_WINDOW = "CREATE INDEX by_window ON bookings (book, day, state, slot, number)"


def by_confirmed(size):
    return {
        "the sheet of that day": sheets("2024-07-31", 300),
        "`decide` with yes, for that day": decided(range(1, STILL_ASKED + 1)),
        "`decide` with yes, for other days": decided(range(1_000, 1_000 + MANY)),
    }


def by_entries(size):
    return {
        "a statement": [request("GET", "/books/1/pledges/1", KEY)] * 100,
        "a view": [request("GET", "/books/1/held", f"Pledge-Receipt: {receipt(1, 1)}")] * 100,
        "a repayment": [post("pledges/1/repay", '{"pence":1,"seq":%d}' % (size + at)) for at in range(1, 101)],
    }


def each(program, path, asked):
    """Microseconds of processor time a request, none of which is refused."""
    idle = min(spent(program, path, [])[0] for _ in range(RUNS))
    runs = [spent(program, path, asked) for _ in range(RUNS)]
    refused = len(asked) - runs[0][1].count(b"HTTP/1.1 200 ")
    if refused:
        sys.exit(f"{program} refuses {refused} of {len(asked)}: {runs[0][1][:400]}")
    return (min(time for time, _ in runs) - idle) / len(asked) * 1e6


def table(head, sizes, made, kinds):
    """A table of times by these sizes: a store of each is made, and the requests of each kind depend on the size."""
    programs = [PROGRAM] + ([PEER] if PEER else [])
    times = {}
    for size in sizes:
        with tempfile.TemporaryDirectory(dir="/dev/shm" if os.path.isdir("/dev/shm") else None) as room:
            for program in programs:
                path = os.path.join(room, "books.db")
                made(program, path, size)
                for kind, asked in kinds(size).items():
                    times.setdefault(kind, {})[(size, program)] = each(program, path, asked)
                for end in ("", "-wal", "-shm"):
                    if os.path.exists(path + end):
                        os.remove(path + end)
    print(f"{head:38}" + "".join(f"{size:>16}" for size in sizes), flush=True)
    for kind, found in times.items():
        cells = (" / ".join(f"{found[(size, program)]:.0f}" for program in programs) for size in sizes)
        print(f"{kind:38}" + "".join(f"{cell:>16}" for cell in cells), flush=True)
    print(flush=True)


def main():
    if not os.path.exists(PROGRAM):
        sys.exit("no program: run make first, or name one")
    print("microseconds of processor time a request" + (", and that of the peer" if PEER else ""))
    table("by pledges of a book, each booked", (1_000, 10_000, 40_000),
          lambda program, path, size: fill(program, path, pledges=size), by_pledges)
    table("by those asked for one day, of 10,000", (10, 500, 5_000),
          lambda program, path, size: fill(program, path, pledges=10_000, asked=size), by_asked)
    for index in None, BY_WINDOW:
        head = f"by those confirmed for one day, {'a further index' if index else 'of 10,000'}"
        table(head, (10, 100, 500), lambda program, path, size, index=index: fill(
            program, path, pledges=10_000, asked=size + STILL_ASKED, confirmed=size, index=index), by_confirmed)
    table("by entries of a pledge", (10, 1_000, 9_000),
          lambda program, path, size: fill(program, path, entries=size), by_entries)
    table("by books of 100 pledges", (1, 10, 100),
          lambda program, path, size: fill(program, path, books=size, pledges=100), lambda size: of_a_pledge(100))


if __name__ == "__main__":
    main()
