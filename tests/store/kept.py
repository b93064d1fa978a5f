"""A store that was written under the present figures and is kept as SQL text: the program still finds it sound, its pledges are
what they were, and its export is the kept text, which an empty book takes in. It has pledges at the border of each figure that
decides what a stored pledge is: small credits, the days of grace, the six months, and how a sum grows. If such a figure
changes for pledges that were taken before, this fails; docs/CHANGING.md says what the change needs."""
import os
import sqlite3
import tempfile

from tests.library.checks import expect, main
from tests.library.keys import BROKER, OPERATOR
from tests.library.paths import PROGRAM, TOP
from tests.library.program import a_sound_check, answer, check
from tests.library.requests import keyed_request, request, statement_request
from tests.library.tables import opened, rows_by_python

KEPT = os.path.join(TOP, "tests/library/kept")
IMPORT = "Import-Key: 44444444-4444-4444-4444-444444444444"
AFTER = "2024-09-01"
# What each pledge is after its period, with what is owed of it then; none where it has passed to the broker.
PLEDGES = {
    1: ("realisable", "5280021.40"), 2: ("passed", None), 3: ("realisable", "74.01"), 4: ("sold", "100.00"), 5: ("passed", None),
    6: ("sold", "100.00"), 7: ("realisable", "74.99"), 8: ("realisable", "100.00"), 9: ("inside", "100.00"),
    10: ("redeemed", "100.00"), 11: ("realisable", "100.00"),
}


def read(name):
    with open(os.path.join(KEPT, name), encoding="utf-8") as it:
        return it.read()


def store_in(room):
    """The kept store as a file."""
    path = os.path.join(room, "books")
    with opened(path) as tables:
        tables.executescript(read("figures.sql"))
    return path


def words_of(statement, name):
    return next((line.split(" ", 1)[1] for line in statement.split("\n") if line.startswith(f"{name} ")), None)


def it_is_sound():
    with tempfile.TemporaryDirectory() as room:
        path = store_in(room)
        rows = rows_by_python(path)
        expect("pledges", rows[2], len(PLEDGES))
        expect("its check", check(path), a_sound_check(rows))


def its_pledges_are_what_they_were():
    with tempfile.TemporaryDirectory() as room:
        told = answer(store_in(room), *(statement_request(number) for number in PLEDGES), day=AFTER)
        found = {number: (words_of(it[1], "Status"), words_of(it[1], "Owing")) for number, it in zip(PLEDGES, told)}
        expect("what they are, and what is owed", found, PLEDGES)


def its_export_is_the_kept_text_and_comes_in_again():
    whole = read("figures.csv")
    with tempfile.TemporaryDirectory() as room:
        book = {"capacity": 2, "key": BROKER, "name": "Low Street"}
        told = answer(
            store_in(room), keyed_request("GET", "/books/7/export"), keyed_request("POST", "/books/8", book, OPERATOR),
            request("POST", "/books/8/import", f"Pledge-Key: {BROKER}", IMPORT, body=whole),
            keyed_request("GET", "/books/8/export"), day=AFTER,
        )
        expect("the export", told[0][1] == whole, True)
        expect("the import", told[2][1], {"imported": len(PLEDGES)})
        expect("the export of the other book", told[3][1] == whole, True)


main(it_is_sound, its_pledges_are_what_they_were, its_export_is_the_kept_text_and_comes_in_again)
