"""The tables of a store's file, by others than the program: Python's sqlite3, and the shell of that name."""
import contextlib
import os
import shutil
import sqlite3
import subprocess
import tempfile

from tests.library.checks import expect

# The tables whose rows a store counts.
COUNTED = ("books", "terms", "pledges", "entries", "secrets", "bookings")


@contextlib.contextmanager
def opened(path):
    """The file by Python's sqlite3, and what is done there committed."""
    with contextlib.closing(sqlite3.connect(path)) as tables:
        yield tables
        tables.commit()


@contextlib.contextmanager
def copied(path):
    """The path of a copy of the file and its log."""
    with tempfile.TemporaryDirectory() as room:
        copy = os.path.join(room, "copy")
        for end in ("", "-wal"):
            if os.path.exists(path + end):
                shutil.copyfile(path + end, copy + end)
        yield copy


def rows_by_python(path):
    """How many rows each counted table of the file holds, which is sound to Python's sqlite3."""
    with opened(path) as tables:
        expect("its integrity", tables.execute("PRAGMA integrity_check").fetchall(), [("ok",)])
        expect("its references", tables.execute("PRAGMA foreign_key_check").fetchall(), [])
        rows = [tables.execute(f"SELECT count(*) FROM {table}").fetchone()[0] for table in COUNTED]
        expect(
            "the noted rows", tables.execute("SELECT value FROM meta WHERE name = 'rows'").fetchall(), [(sum(rows),)],
        )
    return rows


def the_shell_agrees(path, rows):
    """The file is sound to the shell sqlite3 too, and holds so many rows there, if the shell is installed."""
    if shutil.which("sqlite3"):
        asked = [
            "PRAGMA integrity_check", "PRAGMA foreign_key_check",
            *(f"SELECT count(*) FROM {table}" for table in COUNTED),
        ]
        ran = subprocess.run(["sqlite3", path, "; ".join(asked)], capture_output=True, timeout=60)
        expect(
            "by the shell", (ran.returncode, ran.stdout.decode().split(), ran.stderr),
            (0, ["ok", *map(str, rows)], b""),
        )


def counted(path):
    """How many rows each counted table holds, by others that open the file with its log, each a copy of its own."""
    with copied(path) as copy:
        rows = rows_by_python(copy)
    with copied(path) as copy:
        the_shell_agrees(copy, rows)
    return rows
