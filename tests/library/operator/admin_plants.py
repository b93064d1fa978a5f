"""Faults that admin_run.py plants in `pawnd-admin`: each is a way in which a verb could lose something, and a test says
that the verb notices it and leaves everything as it was."""
import sqlite3


def change_rows(path, *statements):
    tables = sqlite3.connect(path, isolation_level=None)
    for statement in statements:
        tables.execute(statement)
    tables.close()


def after_dividing(*statements):
    """Has something happen to each part of a store that is divided."""
    import tables

    keep_books = tables.keep_books

    def faulty(path, wanted):
        keep_books(path, wanted)
        change_rows(path, *statements)

    tables.keep_books = faulty


def an_entry_is_lost():
    """One entry less, with the count of rows and the totals as if it had never been: the program finds it sound."""
    last = "(SELECT max(rowid) FROM entries)"
    after_dividing(
        f"UPDATE totals SET principal = principal + 1 WHERE (book, number) IN (SELECT book, number FROM entries WHERE "
        f"rowid = {last})",
        f"DELETE FROM entries WHERE rowid = {last}",
        "UPDATE meta SET value = value - 1 WHERE name = 'rows'",
    )


def an_article_is_changed():
    """As many rows as before, and another text in one."""
    after_dividing("UPDATE pledges SET article = 'Brass ring' WHERE rowid = (SELECT max(rowid) FROM pledges)")


def a_book_stays_behind():
    """No book is taken out of either part."""
    import tables

    tables.keep_books = lambda path, wanted: None


def the_log_is_not_copied():
    """A copy without the log passes the check of the program, and lacks what was done last."""
    import copies

    copies.head_of_log = lambda path: b""
    copy_file = copies.copy_file
    copies.copy_file = lambda source, target: None if source.endswith("-wal") else copy_file(source, target)


def wait_for_a_new_log(path, head, copy_file, source, target):
    """Copies a file of a store, and after the database waits until the log has been begun anew."""
    import time

    import reading

    copy_file(source, target)
    end = time.monotonic() + 100
    while source == path and reading.head_of_log(path) == head and time.monotonic() < end:
        time.sleep(0.01)


def the_log_is_begun_anew():
    """The log is begun anew between the copy of the database and that of the log, in the first attempt."""
    import copies
    import reading

    copy_served, copy_file = copies.copy_served, copies.copy_file

    def slow(path, target):
        head = reading.head_of_log(path)
        copies.copy_file = lambda *files: wait_for_a_new_log(path, head, copy_file, *files)
        print(f"attempts: {copy_served(path, target)}")

    copies.copy_served = slow


def nobody_looks_at_the_log():
    """The same, and the two heads of the log are not compared."""
    import copies

    the_log_is_begun_anew()
    copies.head_of_log = lambda path: b""


def no_copy_of_a_part_can_be_made():
    """The disk of the copies fills up when a command has copied a store, and comes to the copies of its parts."""
    import copies
    import divisions
    from settings import Stop

    def refuse(*_):
        raise Stop("the disk is full")

    divisions.books_aside = copies.books_aside = refuse


def the_new_store_does_not_start():
    """A store that was made by a division does not start, after the map has named it."""
    import divisions
    from settings import MAIN, Stop

    start = divisions.services.start

    def refuse(store):
        if store.name != MAIN:
            raise Stop(f"the store {store.name} was not started")
        start(store)

    divisions.services.start = refuse


def the_store_is_divided_meanwhile():
    """While the status looks at a store, after it has read which copies there are, the store is divided."""
    import subprocess
    import sys

    import states

    newest_offsite = states.newest_offsite

    def slow(name, wrong, notes):
        subprocess.run([sys.argv[0], "split", "main", "west", "8"], check=True, capture_output=True)
        return newest_offsite(name, wrong, notes)

    states.newest_offsite = slow


def another_program_opens_the_store():
    """While a store is stopped, another program opens its file: of another machine, or by hand."""
    import subprocess

    import divisions
    from settings import PAWND

    make_copy = divisions.make_copy

    def opened(name, path):
        ran = subprocess.run([PAWND, "check", path], capture_output=True, text=True)
        print(f"another program: {ran.stdout.strip()} {ran.stderr.strip()}")
        return make_copy(name, path)

    divisions.make_copy = opened


def another_program_fills_the_disk():
    """The disk of the stores is full when the first file is put there, although there was room for it before. Of that
    file, one and a half mebibytes were written, which are free again when the command removes it."""
    import os

    import settings
    import stores

    copy_bytes = stores.copy_bytes

    def fill_and_copy(old, new):
        new.write(bytes(3 << 19))
        new.flush()
        with open(os.path.join(settings.STORES, "filler"), "wb", buffering=0) as file:
            try:
                while file.write(bytes(4096)):
                    pass
            except OSError:
                pass
        copy_bytes(old, new)

    stores.copy_bytes = fill_and_copy
