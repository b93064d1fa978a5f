"""The file of a service as others see it: opened by Python's sqlite3 and by the shell of that name, its rows
counted, and rows bent by hand, which the program reports and which touch no other book."""
import json
import os
import shutil
import tempfile

from tests.library.checks import expect, main
from tests.library.keys import BROKER, OPERATOR
from tests.library.program import Server, a_book_of, a_sound_check, answer, check
from tests.library.requests import held_request, keyed_request, opening_body, request, statement_request
from tests.library.stores import bent_by, table_remade
from tests.library.tables import counted, opened, rows_by_python, the_shell_agrees

DAMAGED = (1, "", "fault 513 Damaged\n")
STORE = (503, {"code": 492, "name": "Store"})


def fill(path, *books):
    """Books of two pledges each: the first with entries, a second secret, a booking and an extension. The receipts
    of each book."""
    receipts = {}
    for book in books:
        seed = f"{book:064x}"
        made = answer(
            path,
            keyed_request("POST", f"/books/{book}", {"capacity": 2, "key": BROKER, "name": "High Street"}, OPERATOR),
            keyed_request(
                "POST", f"/books/{book}/terms", {"keep_after": 0, "keep_before": 0, "rate": 2667, "version": 1},
            ),
            keyed_request("POST", f"/books/{book}/pledges", opening_body(1, "running")),
            keyed_request("POST", f"/books/{book}/pledges", opening_body(2)),
            keyed_request("POST", f"/books/{book}/pledges/1/draw", {"pence": 3000, "seq": 1}),
            keyed_request("POST", f"/books/{book}/pledges/1/repay", {"pence": 500, "seq": 2}),
            keyed_request("POST", f"/books/{book}/pledges/1/declare", {"paper": "sworn"}),
            keyed_request("POST", f"/books/{book}/pledges/1/extend", {"until": "2024-12-31"}),
            seed=seed)
        expect(f"what was made in book {book}", [status for status, _ in made], [200] * len(made))
        receipts[book] = made[6][1]["receipt"], made[3][1]["receipt"]
        asked = request(
            "POST", f"/books/{book}/held/ask", f"Pledge-Receipt: {receipts[book][0]}",
            body='{"day":"2024-03-04","window":3}',
        )
        expect(f"the booking of book {book}", [status for status, _ in answer(path, asked)], [200])
    return receipts


def others_open_the_file():
    with tempfile.TemporaryDirectory() as room:
        path = os.path.join(room, "books")
        fill(path, 7, 8, 999999999)
        told, rows = check(path), rows_by_python(path)
        expect("its counts", told, a_sound_check(rows))
        the_shell_agrees(path, rows)
        with opened(path) as tables:
            expect("its limit", tables.execute("SELECT value FROM meta WHERE name = 'limit'").fetchone(), (5000000,))
            expect(
                "entries", tables.execute("SELECT seq, sort, pence FROM entries WHERE book = 8").fetchall(),
                [(1, 0, 3000), (2, 1, 500)],
            )
        expect("its check, once it was opened by others", check(path), told)


def a_closed_file_is_whole_without_its_log():
    with tempfile.TemporaryDirectory() as room:
        path, copy = os.path.join(room, "books"), os.path.join(room, "copy")
        receipts = fill(path, 7)
        shutil.copyfile(path, copy)
        told, said = check(path), answer(path, held_request(receipts[7][0], 7))
        expect("its check", check(copy), told)
        expect("its replies", answer(copy, held_request(receipts[7][0], 7)), said)
        expect("its counts", told, a_sound_check(counted(copy)))


def a_killed_service_leaves_its_books_in_file_and_log():
    with tempfile.TemporaryDirectory() as room:
        with a_book_of(room) as (path, _, client):
            receipts = [client.open_pledge(number) for number in (1, 2, 3)]
            seen = [client.bearer(receipt, "GET", "/books/7/held") for receipt in receipts]
            client.close()
        rows = counted(path)
        expect("its check", check(path), a_sound_check(rows))
        with Server(path) as server:
            client = server.session()
            expect("its statements", [client.bearer(receipt, "GET", "/books/7/held") for receipt in receipts], seen)
            client.open_pledge(4)
            client.close()


# What is bent in book 7, always of pledge 1 or of all its book.
BENT = [
    ("an entry of nothing", bent_by("UPDATE entries SET pence = 0 WHERE book = 7 AND seq = 1")),
    ("an entry of an unknown sort", bent_by("UPDATE entries SET sort = 2 WHERE book = 7 AND seq = 1")),
    ("a secret of 15 bytes", bent_by("UPDATE secrets SET secret = substr(secret, 1, 15) WHERE book = 7 AND place = 2")),
    ("a day of 2300", bent_by("UPDATE secrets SET day = 120530 WHERE book = 7 AND place = 2")),
    ("a day taken in 2300", bent_by("UPDATE pledges SET taken = 120530 WHERE book = 7 AND number = 1")),
    (
        "an article that is not UTF-8",
        bent_by("UPDATE pledges SET article = CAST(x'ff41' AS TEXT) WHERE book = 7 AND number = 1"),
    ),
    ("an article of 81 bytes", bent_by("UPDATE pledges SET article = ? WHERE book = 7 AND number = 1", "x" * 81)),
    ("a name that is not UTF-8", bent_by("UPDATE books SET title = CAST(x'ff41' AS TEXT) WHERE book = 7")),
    ("a window above 15", bent_by("UPDATE bookings SET slot = 16 WHERE book = 7")),
    ("a closing day of an open pledge", bent_by("UPDATE pledges SET closed_day = taken WHERE book = 7 AND number = 1")),
    ("no secret at all", bent_by("DELETE FROM secrets WHERE book = 7 AND number = 1")),
    ("a closing without its day", bent_by("UPDATE pledges SET closed = 1, amount = 100 WHERE book = 7 AND number = 1")),
    ("a state of no booking", bent_by("UPDATE bookings SET state = 4 WHERE book = 7")),
    ("no totals", bent_by("DELETE FROM totals WHERE book = 7 AND number = 1")),
    ("no capacity", bent_by("UPDATE books SET capacity = 0 WHERE book = 7")),
    ("no name", bent_by("UPDATE books SET title = '' WHERE book = 7")),
    ("an import without its key", bent_by("UPDATE books SET imported = 1 WHERE book = 7")),
    ("a key of one byte", bent_by("UPDATE books SET book_key = x'00' WHERE book = 7")),
    ("terms out of their limits", bent_by("UPDATE terms SET rate = 20001 WHERE book = 7")),
    (
        "a sum that is NULL",
        table_remade(
            "entries", "pence INTEGER NOT NULL", "pence INTEGER",
            "UPDATE entries SET pence = NULL WHERE book = 7 AND seq = 2",
        ),
    ),
    (
        "a text in place of a sum",
        table_remade("entries", ") STRICT", ")", "UPDATE entries SET pence = 'many' WHERE book = 7 AND seq = 2"),
    ),
]


def bent_rows_are_told_and_touch_no_other_book():
    with tempfile.TemporaryDirectory() as room:
        path, bent = os.path.join(room, "books"), os.path.join(room, "bent")
        receipts = fill(path, 7, 8)
        others = [
            statement_request(1, 8), statement_request(2, 8), keyed_request("GET", "/books/8/export"),
            held_request(receipts[8][0], 8), keyed_request("GET", "/books/8/days/2024-03-04"),
        ]
        before = answer(path, *others)
        expect("book 8", [status for status, _ in before], [200] * len(others))
        for step, bend in BENT:
            shutil.copyfile(path, bent)
            with opened(bent) as tables:
                bend(tables)
            expect(f"a check, {step}", check(bent), DAMAGED)
            replies = answer(bent, statement_request(1), *others, statement_request(1))
            expect(f"the requests, {step}", replies, [STORE, *before, STORE])


def falling_versions(tables):
    """A second version of terms, which the first pledge is under, and the second not."""
    tables.executescript(
        "INSERT INTO terms VALUES (7, 2, 2667, 0, 0); UPDATE books SET terms = 2 WHERE book = 7;"
        "UPDATE pledges SET version = 2 WHERE book = 7 AND number = 1;"
        "UPDATE meta SET value = value + 1 WHERE name = 'rows'"
    )


# What no single record shows, and a check alone finds.
MISFITS = [
    ("versions that fall", falling_versions),
    ("a row that is not counted", bent_by("UPDATE meta SET value = value - 1 WHERE name = 'rows'")),
    ("a pledge that is counted and is none", bent_by("UPDATE books SET pledges = pledges + 1 WHERE book = 8")),
    ("a booking that was deleted", bent_by("DELETE FROM bookings WHERE book = 7")),
    ("an entry's number left out", bent_by("UPDATE entries SET seq = 3 WHERE book = 7 AND seq = 2")),
    ("an entry deleted before another", bent_by("DELETE FROM entries WHERE book = 7 AND seq = 1")),
    ("another end", bent_by("UPDATE pledges SET ends = ends + 1 WHERE book = 7 AND number = 1")),
    ("a sum that was changed alone", bent_by("UPDATE pledges SET credit = credit + 1 WHERE book = 7 AND number = 2")),
    ("other totals", bent_by("UPDATE totals SET charges = charges + 1 WHERE book = 7 AND number = 1")),
    ("an extension into the past", bent_by("UPDATE extensions SET until_day = day WHERE book = 7")),
    (
        "an entry's number twice",
        table_remade("entries", ", PRIMARY KEY (book, number, seq)", "", "UPDATE entries SET seq = 1 WHERE book = 7"),
    ),
]


def rows_that_do_not_fit_each_other_are_damage():
    with tempfile.TemporaryDirectory() as room:
        path, bent = os.path.join(room, "books"), os.path.join(room, "bent")
        fill(path, 7, 8)
        for step, bend in MISFITS:
            shutil.copyfile(path, bent)
            with opened(bent) as tables:
                bend(tables)
            expect(f"a check, {step}", check(bent), DAMAGED)
            expect(f"a statement, {step}", answer(bent, statement_request(1))[0][0], 200)


def the_first_limit_stands():
    """A store whose own limit is four rows answers by that."""
    with tempfile.TemporaryDirectory() as room:
        path = os.path.join(room, "books")
        expect("its check", check(path), (0, "books 0 pledges 0 rows 0\n", ""))
        with opened(path) as tables:
            bent_by("UPDATE meta SET value = 4 WHERE name = 'limit'")(tables)
        made = answer(
            path,
            keyed_request("POST", "/books/7", {"capacity": 2, "key": BROKER, "name": "High Street"}, OPERATOR),
            keyed_request("POST", "/books/7/terms", {"keep_after": 0, "keep_before": 0, "rate": 0, "version": 1}),
            keyed_request("POST", "/books/7/pledges", opening_body(1)),
            keyed_request("POST", "/books/7/pledges", opening_body(2)),
        )
        expect("what there is room for", [status for status, _ in made], [200, 200, 200, 503])
        expect("what there is none for", made[3][1], {"code": 490, "name": "Full"})


def what_was_paid_is_kept_however_much():
    # two per cent of a million pounds a day, for the 3,653 days of ten years
    paid = 100_000_000 + 3_653 * 2_000_000
    with tempfile.TemporaryDirectory() as room:
        path = os.path.join(room, "books")
        made = answer(
            path,
            keyed_request("POST", "/books/7", {"capacity": 2, "key": BROKER, "name": "High Street"}, OPERATOR),
            keyed_request("POST", "/books/7/terms", {"keep_after": 0, "keep_before": 0, "rate": 20000, "version": 1}),
            keyed_request("POST", "/books/7/pledges", {**opening_body(1), "pence": 100_000_000}),
            day="2000-01-01",
        )
        redeem = request(
            "POST", "/books/7/held/redeem", f"Pledge-Receipt: {made[2][1]['receipt']}", body=json.dumps({"paid": paid}),
        )
        expect(
            "a redemption", answer(path, redeem, day="2010-01-01"), [(200, {"paid": paid, "redeemed": "2010-01-01"})],
        )
        last_line = answer(path, statement_request(1))[0][1].splitlines()[-1]
        expect("a statement", last_line, "Redeemed 2010-01-01 paid 74060000.00")
        expect("a check", check(path), (0, "books 1 pledges 1 rows 4\n", ""))


main(others_open_the_file, a_closed_file_is_whole_without_its_log, a_killed_service_leaves_its_books_in_file_and_log,
     bent_rows_are_told_and_touch_no_other_book, rows_that_do_not_fit_each_other_are_damage, the_first_limit_stands,
     what_was_paid_is_kept_however_much)
