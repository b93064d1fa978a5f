"""The two indexes by which a day is read: a new store has them, any that lacks them gets them when it is opened, by
each word of the program, and no row changes by that. Indexes of others, and a kill while they are made."""
import os
import random
import re
import subprocess
import tempfile
import time

from tests.library.checks import expect, main
from tests.library.filled_stores import DAY_OF_END, fill_store, receipt_of
from tests.library.older_stores import (
    BACK_TO_FIRST, BACK_TO_SECOND, WITHOUT_INDEXES, a_sound_migration, migrate, older_copy,
)
from tests.library.paths import PROGRAM, TOP
from tests.library.program import Server, answer, check
from tests.library.requests import keyed_request, request
from tests.library.tables import copied, opened, rows_by_python

TEXTS = {
    "bookings_by_time": "CREATE INDEX bookings_by_time ON bookings (book, day, state, number, slot)",
    "pledges_by_end": "CREATE INDEX pledges_by_end ON pledges (book, closed, ends, number)",
}
# Indexes that have the program's names in a store of an older schema: the program's own, and others.
TAKEN = {
    "its own by end": (TEXTS["pledges_by_end"],),
    "its own by time": (TEXTS["bookings_by_time"],),
    "both of its own": tuple(TEXTS.values()),
    "by end, of another column": ("CREATE INDEX pledges_by_end ON pledges (ref)",),
    "by time, of another table": ("CREATE INDEX bookings_by_time ON terms (rate)",),
    "by end, in capitals": ("CREATE INDEX PLEDGES_BY_END ON pledges (article)",),
    "one of its own, one of others": (TEXTS["pledges_by_end"], "CREATE INDEX Bookings_By_Time ON secrets (day)"),
}
# What the kit's connection keeps plans of, by their texts, before it forgets one for another.
PLANS, ROOM_LEFT = 64, 4
KILLS = 20


def indexes(path):
    """The indexes that statements made, by their names, as others read the file and its log."""
    with copied(path) as copy, opened(copy) as tables:
        return dict(tables.execute("SELECT name, sql FROM sqlite_schema WHERE type = 'index' AND sql IS NOT NULL"))


def rows(path):
    """All rows of all tables, as others read the file and its log, which is sound to them."""
    with copied(path) as copy:
        rows_by_python(copy)
        with opened(copy) as tables:
            names = [name for name, in tables.execute("SELECT name FROM sqlite_schema WHERE type = 'table'")]
            return {name: sorted(tables.execute(f"SELECT * FROM {name}").fetchall(), key=repr) for name in names}


def made(room, books=2, each=40, bent=WITHOUT_INDEXES):
    """A sound store with bookings of some days in each state, bent by these statements."""
    path, chance = os.path.join(room, "made"), random.Random(46)
    fill_store(path, books, each, entries=1, bookings=True)
    with opened(path) as tables:
        for book, number in tables.execute("SELECT book, number FROM bookings").fetchall():
            tables.execute("UPDATE bookings SET day = ?, slot = ?, state = ? WHERE book = ? AND number = ?",
                           (DAY_OF_END - chance.randrange(4), chance.randrange(16), chance.randrange(4), book, number))
    return older_copy(path, os.path.join(room, "books"), *bent)


def by_answer(path):
    answer(path, keyed_request("GET", "/books/1/pledges/1"))


def by_check(path):
    expect("a check", check(path)[0], 0)


def by_migrate(path):
    expect("a migration", migrate(path), a_sound_migration(3))


def by_serve(path):
    with Server(path):
        pass


WORDS = (by_answer, by_check, by_migrate, by_serve)


def a_new_store_has_them():
    for word in (by_check, by_serve):
        with tempfile.TemporaryDirectory() as room:
            path = os.path.join(room, "books")
            word(path)
            expect(f"the indexes of a new store, {word.__name__}", indexes(path), TEXTS)


def each_word_adds_what_is_lacking():
    lacking = {"both": WITHOUT_INDEXES, "one": WITHOUT_INDEXES[:1], "the other": WITHOUT_INDEXES[1:], "none": ()}
    for name, bent in lacking.items():
        for word in WORDS:
            with tempfile.TemporaryDirectory() as room:
                path = made(room, bent=bent)
                before = rows(path)
                word(path)
                expect(f"the indexes, {name} lacking, {word.__name__}", indexes(path), TEXTS)
                expect(f"the rows, {name} lacking, {word.__name__}", rows(path) == before, True)


def sheet_in(tables, day, number):
    """The sheet of a day as SQL reckons it, by no index."""
    def read(columns, table, where, order):
        return tables.execute(
            f"SELECT {columns} FROM {table} NOT INDEXED WHERE book = 1 AND {where} ORDER BY {order}").fetchall()

    confirmed = read("slot, number", "bookings", f"day = {number} AND state = 1", "slot, number")
    lines = [f"Day sheet {day}"]
    for window in sorted({window for window, _ in confirmed}):
        come = [found for at, found in confirmed if at == window]
        lines += [f"Window {window} confirmed {len(come)} of 2", *(f"Pledge {found}" for found in come)]
    asked = read("number, slot", "bookings", f"day = {number} AND state = 0", "number")
    ends = read("number", "pledges", f"closed = 0 AND ends = {number}", "number")
    lines += [f"Asked {len(asked)}", *(f"Pledge {found} window {window}" for found, window in asked)]
    return "\n".join([*lines, f"Ends {len(ends)}", *(f"Pledge {found}" for found, in ends), ""])


def day_of(number):
    return time.strftime("%Y-%m-%d", time.gmtime(number * 86_400))


def a_sheet_is_what_the_rows_tell():
    days = range(DAY_OF_END - 4, DAY_OF_END + 2)
    with tempfile.TemporaryDirectory() as room:
        path = made(room, each=900)
        asked = [keyed_request("GET", f"/books/1/days/{day_of(day)}") for day in days]
        shown = [body for _, body in answer(path, *asked)]
        with copied(path) as copy, opened(copy) as tables:
            for day, sheet in zip(days, shown):
                expect(f"the sheet of {day_of(day)}", sheet, sheet_in(tables, day_of(day), day))


def what_others_put_there():
    """An index of another's name is served and kept, and one that has the program's name is left as it is."""
    for text, taken in (("CREATE INDEX by_article ON pledges (article)", None),
                        ("CREATE INDEX pledges_by_end ON pledges (ref)", "pledges_by_end"),
                        ("CREATE INDEX Bookings_By_Time ON terms (rate)", "bookings_by_time")):
        with tempfile.TemporaryDirectory() as room:
            path = made(room, bent=(*WITHOUT_INDEXES, text))
            before = rows(path)
            by_answer(path)
            wanted = {**{name: said for name, said in TEXTS.items() if name != taken}, text.split()[2]: text}
            expect(f"the indexes beside {text}", indexes(path), wanted)
            expect(f"the rows beside {text}", rows(path) == before, True)
            said = answer(path, keyed_request("GET", f"/books/1/days/{day_of(DAY_OF_END)}"))
            with copied(path) as copy, opened(copy) as tables:
                expect(f"a sheet beside {text}", said, [(200, sheet_in(tables, day_of(DAY_OF_END), DAY_OF_END))])


def a_migration_leaves_an_index_of_the_name_as_it_is():
    """As an opening does: what is lacking is made, by its name alone."""
    for schema, back in ((1, BACK_TO_FIRST), (2, BACK_TO_SECOND)):
        for name, texts in TAKEN.items():
            with tempfile.TemporaryDirectory() as room:
                path = made(room, each=10, bent=(*back, *texts))
                before = rows(path)
                expect(f"a migration from {schema}, {name}", migrate(path), a_sound_migration(schema))
                there = {text.split()[2]: text for text in texts}
                taken = {found.lower() for found in there}
                wanted = {**{found: text for found, text in TEXTS.items() if found not in taken}, **there}
                expect(f"the indexes after a migration from {schema}, {name}", indexes(path), wanted)
                kept = {table: found for table, found in rows(path).items() if table in before and table != "meta"}
                expect(f"the rows after a migration from {schema}, {name}", kept == {
                    table: found for table, found in before.items() if table != "meta"}, True)
                expect(f"a check after a migration from {schema}, {name}", check(path)[0], 0)


def ask(held):
    return request("POST", "/books/1/held/ask", f"Pledge-Receipt: {held}", body='{"day":"2024-03-05","window":1}')


def one_that_asks_that_rows_differ():
    """A UNIQUE index refuses the rows that break it: who would put one is answered 492, and nothing changes."""
    with tempfile.TemporaryDirectory() as room:
        path = os.path.join(room, "books")
        fill_store(path, 1, 2)
        bent = older_copy(path, os.path.join(room, "bent"), "CREATE UNIQUE INDEX one_a_day ON bookings (book, day)")
        (asked, _), (again, said) = answer(bent, *(ask(receipt_of(1, number)) for number in (1, 2)))
        expect("bookings of one day", (asked, again, said), (200, 503, {"code": 492, "name": "Store"}))
        expect("the bookings", len(rows(bent)["bookings"]), 1)


def a_kill_leaves_both_or_none():
    chance, seen = random.Random(47), set()
    with tempfile.TemporaryDirectory() as room:
        path = made(room, each=2000)
        before, whole = rows(path), None
        for at in range(KILLS):
            killed = older_copy(path, os.path.join(room, f"killed{at}"))
            begun = time.monotonic()
            with subprocess.Popen([PROGRAM, "check", killed], stdout=subprocess.DEVNULL) as ran:
                try:
                    ran.wait(whole and chance.uniform(0, whole))
                    # One run may be slower than the others: the next are killed within the time of the last whole one.
                    whole = time.monotonic() - begun
                except subprocess.TimeoutExpired:
                    ran.kill()
            found = indexes(killed)
            seen.add(len(found))
            expect(f"the indexes after kill {at}", found in ({}, TEXTS), True)
            expect(f"the rows after kill {at}", rows(killed) == before, True)
            by_check(killed)
            expect(f"the indexes opened after kill {at}", indexes(killed), TEXTS)
            for end in ("", "-wal"):
                if os.path.exists(killed + end):
                    os.remove(killed + end)
    expect("what was seen", seen, {0, 2})


def each_text_keeps_its_plan():
    """The connection keeps plans of 64 texts: the store's are fewer, with some room left."""
    with open(os.path.join(TOP, "crates/pawn_tables/src/texts.rt")) as it:
        texts = len(re.findall(r"^pub const ", it.read(), re.M))
    print(f"        {texts} texts", flush=True)
    expect("texts that keep their plans", texts <= PLANS - ROOM_LEFT, True)


main(a_new_store_has_them, each_word_adds_what_is_lacking, a_sheet_is_what_the_rows_tell, what_others_put_there,
     a_migration_leaves_an_index_of_the_name_as_it_is, one_that_asks_that_rows_differ, a_kill_leaves_both_or_none, each_text_keeps_its_plan)
