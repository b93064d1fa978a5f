"""Files of stores that are bent by hand, and what is left of files that are refused."""
import os
import shutil

from tests.library.checks import Failed, expect
from tests.library.tables import opened

# Where the salt begins in a log's head, and the length of a log that is a head and the mark of its end alone.
SALT = 16
EMPTY_LOG = 32 + 9


def bent_by(statement, *values):
    """A change of rows by a statement, which changes one at least."""

    def bend(tables):
        changed = tables.execute(statement, values).rowcount
        if changed < 1:
            raise Failed(f"{statement} changed nothing")

    return bend


def table_remade(table, old, new, *statements):
    """The table made anew by another text, with the rows that it had, and then these statements."""

    def bend(tables):
        text = tables.execute("SELECT sql FROM sqlite_schema WHERE name = ?", (table,)).fetchone()[0]
        if old not in text:
            raise Failed(f"{old} is not in {text}")
        tables.execute(f"ALTER TABLE {table} RENAME TO was")
        tables.execute(text.replace(old, new))
        tables.execute(f"INSERT INTO {table} SELECT * FROM was")
        tables.execute("DROP TABLE was")
        for statement in statements:
            bent_by(statement)(tables)

    return bend


def database_of(*statements):
    """A database in which these statements were run."""

    def make(path):
        with opened(path) as tables:
            for statement in statements:
                tables.execute(statement)

    return make


def with_its_log(*statements, salt=None):
    """A store whose last commits are in its log, as a program leaves it that is killed. The log's salt, which is
    drawn at random, begins with the byte `salt`, if one is wanted."""

    def make(path):
        made = path + "-open"
        for _ in range(10_000):
            with opened(made) as tables:
                for statement in ("PRAGMA journal_mode = WAL", *statements):
                    tables.execute(statement)
                tables.commit()
                for end in ("", "-wal"):
                    shutil.copyfile(made + end, path + end)
            os.remove(made)
            with open(path + "-wal", "rb") as log:
                if salt in (None, log.read()[SALT]):
                    return
        raise Failed(f"no salt of 10,000 began with {salt}")

    return make


def end_mark(log):
    """What an opening writes behind all that a log holds. Its last byte is a zero, or a one in a log whose salt begins
    with a zero, so that no frame of this log can begin so."""
    return bytes(8) + (b"\1" if log[SALT:].startswith(b"\0") else b"\0")


def file_of(said):
    """A file of these bytes."""

    def make(path):
        with open(path, "wb") as it:
            it.write(said)

    return make


def files_and_log(path):
    """The bytes of each file in a store's folder, and those of its log apart: none where there is no log."""
    room, store = os.path.split(path)
    files = {}
    for name in os.listdir(room):
        with open(os.path.join(room, name), "rb") as it:
            files[name] = it.read()
    log = files.pop(store + "-wal", b"")
    return files, log


def expect_files_stay(path, step, do):
    """What this does keeps the bytes of each file. A log that holds pages keeps its own, with the mark of their end
    behind them; one that holds none may be made, or begun anew."""
    files, log = files_and_log(path)
    do()
    after, log_after = files_and_log(path)
    expect(
        f"the files that changed, {step}", [name for name in files | after if files.get(name) != after.get(name)], []
    )
    kept = log_after in (log, log + end_mark(log)) or max(len(log), len(log_after)) <= EMPTY_LOG
    expect(f"the log stays, of {len(log)} bytes and now of {len(log_after)}, {step}", kept, True)


def files_of_other_programs():
    """Files of tables that are none of ours: what they are, and how each is made at a path."""
    pledges = "CREATE TABLE pledges (id INTEGER PRIMARY KEY, owner TEXT)"
    ann = "INSERT INTO pledges VALUES (7, 'Ann')"
    return [
        ("another program's table of pledges", database_of(pledges, ann)),
        ("that table in the log", with_its_log(pledges, ann)),
        ("that table in a log whose salt begins with a zero", with_its_log(pledges, ann, salt=0)),
        ("a view alone", database_of("CREATE VIEW note AS SELECT 1")),
    ]
