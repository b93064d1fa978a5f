"""Where the books of a machine are on its disk: in stores, and in finished copies."""
import os
import shutil
import sqlite3
import tempfile

from tests.library.checks import expect


def row_counts(path):
    """How many entries and pledges each book of a database has, by SQLite, on a copy of the file and its log."""
    with tempfile.TemporaryDirectory() as room:
        for end in ("", "-wal"):
            if os.path.exists(path + end):
                shutil.copyfile(path + end, os.path.join(room, "books.db" + end))
        tables = sqlite3.connect(os.path.join(room, "books.db"))
        try:
            counts = {book: 0 for (book,) in tables.execute("SELECT book FROM books")}
            for name in ("pledges", "entries"):
                for book, count in tables.execute(f"SELECT book, count(*) FROM {name} GROUP BY book"):
                    counts[book] += count
            return counts
        except sqlite3.Error:
            return {}
        finally:
            tables.close()


def books_in(path):
    return set(row_counts(path))


def databases(machine):
    """Each database that is a store's, or is in a finished copy."""
    for top in (machine.stores, machine.copies):
        for folder, folders, names in os.walk(top):
            folders[:] = [name for name in folders if not name.startswith(".part-") and "-making-" not in name]
            if "books.db" in names:
                yield os.path.join(folder, "books.db")


def places_of(machine):
    """For each book, how many rows each place has of it."""
    found = {}
    for path in databases(machine):
        for book, rows in row_counts(path).items():
            found.setdefault(book, []).append(rows)
    return found


def expect_no_fewer_places(before, after, callers):
    """Each book is in as many places as before with at least what it had there."""
    for book in callers:
        least, found = sorted(before.get(book, [])), sorted(after.get(book, []))
        held = len(found) >= len(least) and all(now >= was for was, now in zip(reversed(least), reversed(found)))
        expect(f"the places of book {book}: {least} before, {found} now", held, True)
