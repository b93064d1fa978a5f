"""Stores as older programs made them, bent back from new ones, and their migration."""
import shutil
import subprocess

from tests.library.paths import PROGRAM
from tests.library.tables import opened

# What is done to a store for one without the indexes by which a day is read, as older programs made it; and, once no
# period of it was extended, for one of an older schema.
WITHOUT_INDEXES = ("DROP INDEX bookings_by_time", "DROP INDEX pledges_by_end")
BACK_TO_SECOND = (*WITHOUT_INDEXES, "DROP TABLE extensions", "UPDATE meta SET value = 2 WHERE name = 'schema'")
BACK_TO_FIRST = (
    *WITHOUT_INDEXES, "DROP TABLE extensions", "DROP TABLE totals", "UPDATE meta SET value = 1 WHERE name = 'schema'",
)


def older_copy(path, old, *statements):
    """A copy of the store at the path, of an older schema."""
    shutil.copyfile(path, old)
    with opened(old) as tables:
        for statement in statements:
            tables.execute(statement)
    return old


def migrate(path, environment=None):
    """How a migration ends, and what it says."""
    ran = subprocess.run(
        [PROGRAM, "migrate", path], stdin=subprocess.DEVNULL, capture_output=True, timeout=300, env=environment
    )
    return ran.returncode, ran.stdout.decode(), ran.stderr.decode()


def a_sound_migration(before):
    """The same of a store of this schema, where nothing is wrong."""
    return 0, f"schema {before} to 3\n", ""
