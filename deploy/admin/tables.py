"""The tables of stores that nobody serves: checking, comparing book by book, and taking books apart. What is opened
here is always a copy, in a room of the command's own."""
import contextlib
import hashlib
import os
import re
import sqlite3
import subprocess

from files import LOG
from settings import PAWND, Stop

# The tables whose rows a store counts, children before what they belong to; and those that it does not count.
COUNTED = ("bookings", "secrets", "entries", "pledges", "terms", "books")
TABLES = ("totals", "extensions", *COUNTED)


class NotSound(Stop):
    """The program does not find a store sound."""


def check(path):
    """What the program counts in a store, once it has found it sound. It brings the log into the database."""
    ran = subprocess.run([PAWND, "check", path], stdin=subprocess.DEVNULL, capture_output=True, text=True)
    found = re.fullmatch(r"books (\d+) pledges (\d+) rows (\d+)\n", ran.stdout)
    if ran.returncode or not found:
        said = ran.stderr.strip() or ran.stdout.strip() or f"status {ran.returncode}"
        stop_if_not_of_the_store(path, ran.returncode, said)
        raise NotSound(f"`pawnd check {path}` does not find the store sound: {said}")
    return dict(zip(("books", "pledges", "rows"), map(int, found.groups())))


def stop_if_not_of_the_store(path, status, said):
    """A check that ended for another reason says nothing of the store."""
    if status < 0 or said.endswith("Memory"):
        raise Stop(f"`pawnd check {path}` ran out of memory, or was killed ({said}), so nothing is known of the store. Give the "
                   "machine more memory, then run the command again")
    if "fault 492" in said:
        raise Stop(f"the disk of {path} failed while `pawnd check` read it ({said}): `journalctl -k` says more. Mend it, then run "
                   "the command again")


def in_words(counts):
    return ", ".join(f"{counts[name]:,} {name}" for name in ("books", "pledges", "rows"))


@contextlib.contextmanager
def opened(path):
    with contextlib.closing(sqlite3.connect(path, isolation_level=None)) as tables:
        tables.execute("PRAGMA foreign_keys = ON")
        yield tables


def fold(path):
    """Brings the log into the database, and leaves one file."""
    with opened(path) as tables:
        busy, *_ = tables.execute("PRAGMA wal_checkpoint(TRUNCATE)").fetchone()
    if busy:
        raise Stop(f"{path} is open in another program")
    with contextlib.suppress(FileNotFoundError):
        os.remove(path + LOG)


def check_and_fold(path):
    counts = check(path)
    fold(path)
    return counts


def sums_of(path):
    """Each book of a store: its pledges, its rows, and a sum over the content of all its rows in all tables. Two
    books with equal sums are the same, wherever their rows stand in their files."""
    found = {}
    with opened(path) as tables:
        for name in reversed(TABLES):
            columns = [row[1] for row in tables.execute(f"PRAGMA table_info({name})")]
            keys = [row[1] for row in tables.execute(f"PRAGMA table_info({name})") if row[5]]
            for row in tables.execute(f"SELECT {','.join(columns)} FROM {name} ORDER BY {','.join(keys)}"):
                book = found.setdefault(row[0], {"pledges": 0, "rows": 0, "hash": hashlib.sha256()})
                book["pledges"] += name == "pledges"
                book["rows"] += name in COUNTED
                book["hash"].update(repr((name, row)).encode())
    return {
        number: {"pledges": book["pledges"], "rows": book["rows"], "sum": book["hash"].hexdigest()}
        for number, book in sorted(found.items())
    }


def counts_of(sums):
    return {
        "books": len(sums),
        "pledges": sum(book["pledges"] for book in sums.values()),
        "rows": sum(book["rows"] for book in sums.values()),
    }


def stop_unless_same(found, wanted, what):
    """Compares books by the sums over their rows."""
    differ = sorted(book for book in found.keys() | wanted.keys() if found.get(book) != wanted.get(book))
    if differ:
        raise Stop(f"{what}: books {', '.join(map(str, differ[:20]))} are not what they were. A file of it was changed or "
                   "damaged. Nothing was changed by this command")


def keep_books(path, wanted):
    """Takes all books but these out of a store, with every row that belongs to them."""
    with opened(path) as tables:
        tables.execute("CREATE TEMP TABLE wanted (book INTEGER PRIMARY KEY)")
        tables.executemany("INSERT INTO wanted VALUES (?)", ((book,) for book in wanted))
        tables.execute("BEGIN IMMEDIATE")
        for name in TABLES:
            tables.execute(f"DELETE FROM {name} WHERE book NOT IN (SELECT book FROM wanted)")
        rows = sum(tables.execute(f"SELECT count(*) FROM {name}").fetchone()[0] for name in COUNTED)
        tables.execute("UPDATE meta SET value = ? WHERE name = 'rows'", (rows,))
        tables.execute("COMMIT")
        # Written anew without free pages, so that no key and no receipt of the others is left in the file.
        tables.execute("VACUUM")
