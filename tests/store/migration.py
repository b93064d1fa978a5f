"""`pawnd migrate` of files of older schemas, made of new ones by Python's sqlite3: the same replies before and
after, what is refused and stays as it was, and what a kill leaves."""
import json
import os
import random
import shutil
import subprocess
import tempfile
import threading
import time

from tests.library.book_texts import COLUMNS
from tests.library.checks import expect, main
from tests.library.keys import BROKER, OPERATOR
from tests.library.older_stores import (
    BACK_TO_FIRST, BACK_TO_SECOND, WITHOUT_INDEXES, a_sound_migration, migrate, older_copy,
)
from tests.library.paths import PROGRAM
from tests.library.program import a_book_of, a_sound_check, answer, check, fault, how_it_ends
from tests.library.requests import held_request, keyed_request, opening_body, request, statement_request
from tests.library.stores import bent_by, database_of, expect_files_stay, file_of, files_of_other_programs
from tests.library.tables import copied, opened, rows_by_python

DAMAGED = fault(513, "Damaged")

# At most so many kills of a migration, and so many seconds of them.
KILLS, SPAN = 24, 40


def schema_of(path):
    """The number of the schema in a file and its log, as others read them."""
    with copied(path) as copy, opened(copy) as tables:
        return tables.execute("SELECT value FROM meta WHERE name = 'schema'").fetchone()[0]


def content(path):
    """All tables with their texts, as others read the file and its log."""
    with copied(path) as copy, opened(copy) as tables:
        texts = tables.execute("SELECT name, sql FROM sqlite_schema WHERE type = 'table' ORDER BY name").fetchall()
        return texts, [sorted(tables.execute(f"SELECT * FROM {name}").fetchall(), key=repr) for name, _ in texts]


def book(number, rate=2667):
    terms = {"keep_after": 0, "keep_before": 0, "rate": rate, "version": 1}
    return [
        keyed_request("POST", f"/books/{number}", {"capacity": 2, "key": BROKER, "name": "High Street"}, OPERATOR),
        keyed_request("POST", f"/books/{number}/terms", terms),
    ]


def all_done(step, replies):
    expect(step, [status for status, _ in replies], [200] * len(replies))
    return replies


def bearer(receipt, action, body, number=7):
    return request("POST", f"/books/{number}/held/{action}", f"Pledge-Receipt: {receipt}", body=json.dumps(body))


def fill(path):
    """Two books: fixed sums and running accounts, with entries, declarations, bookings, an agreed end, one redeemed
    and one sold. The requests that show all of it."""
    made = all_done("what was made", answer(
        path, *book(7),
        keyed_request("POST", "/books/7/pledges", opening_body(1)),
        keyed_request("POST", "/books/7/pledges", opening_body(2, "running")),
        keyed_request("POST", "/books/7/pledges", {**opening_body(3), "agreed": "2025-03-01", "five_days": True}),
        keyed_request("POST", "/books/7/pledges", opening_body(4)),
        keyed_request("POST", "/books/7/pledges", opening_body(5)),
        *book(999999999, 20000),
        keyed_request("POST", "/books/999999999/pledges", opening_body(1)), day="2024-01-01"))
    receipts = [said["receipt"] for _, said in made if "receipt" in said]
    later = all_done("what was done", answer(
        path,
        keyed_request("POST", "/books/7/pledges/1/repay", {"pence": 1000, "seq": 1}),
        keyed_request("POST", "/books/7/pledges/2/draw", {"pence": 3000, "seq": 1}),
        keyed_request("POST", "/books/7/pledges/2/repay", {"pence": 500, "seq": 2}),
        keyed_request("POST", "/books/7/pledges/2/declare", {"paper": "sworn"}),
        keyed_request("POST", "/books/7/terms", {"keep_after": 0, "keep_before": 5, "rate": 0, "version": 2}),
        keyed_request("POST", "/books/7/pledges", opening_body(6)),
        bearer(receipts[2], "ask", {"day": "2024-03-04", "window": 3}),
        keyed_request("POST", "/books/7/pledges/3/decide", {"yes": True}),
        keyed_request("POST", "/books/7/pledges/3/hold"),
        bearer(receipts[3], "redeem", {"paid": 10800}), day="2024-01-31", seed="1" * 64))
    receipts += [said["receipt"] for _, said in later if "receipt" in said]
    sale = keyed_request("POST", "/books/7/pledges/5/sell", {"net": 9000})
    all_done("what was sold", answer(path, sale, day="2024-09-01"))
    return [
        *(statement_request(number) for number in range(1, 8)), *(held_request(receipt, 7) for receipt in receipts),
        statement_request(1, 999999999), held_request(receipts[5], 999999999), keyed_request("GET", "/books/7/export"),
        keyed_request("GET", "/books/999999999/export"), keyed_request("GET", "/books/7/days/2024-03-04"),
        keyed_request("GET", "/books/7/days/2025-03-01"),
    ]


def goes_on(path):
    """Replies to requests that change what a store holds."""
    return answer(
        path, keyed_request("POST", "/books/7/pledges/1/repay", {"pence": 500, "seq": 2}),
        keyed_request("POST", "/books/7/pledges/2/draw", {"pence": 100, "seq": 3}),
        keyed_request("POST", "/books/7/pledges/1/extend", {"until": "2024-09-30"}),
        keyed_request("POST", "/books/7/pledges", opening_body(8)), statement_request(1), statement_request(2),
        day="2024-06-01",
    )


def a_pledge_gets_what_it_owed_on_the_day_of_its_last_entry():
    with tempfile.TemporaryDirectory() as room:
        path = os.path.join(room, "books")
        all_done(
            "two pledges",
            answer(
                path, *book(7), keyed_request("POST", "/books/7/pledges", opening_body(1)),
                keyed_request("POST", "/books/7/pledges", opening_body(2)), day="2024-01-01",
            ),
        )
        all_done(
            "a repayment",
            answer(
                path, keyed_request("POST", "/books/7/pledges/1/repay", {"pence": 1000, "seq": 1}), day="2024-01-31",
            ),
        )
        before = answer(path, statement_request(1), statement_request(2))
        expect(
            "the statement of pledge 1", before[0][1].splitlines()[6:9],
            ["Principal 98.00", "Charges 7.84", "Owing 105.84"],
        )
        old = older_copy(path, os.path.join(room, "old"), *BACK_TO_FIRST)
        expect("a migration", migrate(old), a_sound_migration(1))
        with opened(old) as tables:
            rows = tables.execute("SELECT book, number, day, principal, charges FROM totals ORDER BY number").fetchall()
        expect("the totals", rows, [(7, 1, 19753, 9800, 100000), (7, 2, 19723, 10000, 0)])
        expect("the statements", answer(old, statement_request(1), statement_request(2)), before)


def every_reply_is_as_it_was():
    with tempfile.TemporaryDirectory() as room:
        path, new = os.path.join(room, "books"), os.path.join(room, "new")
        asked = fill(path)
        before, told, tables = answer(path, *asked), check(path), content(path)
        expect("its counts", told, a_sound_check(rows_by_python(path)))
        shutil.copyfile(path, new)
        after = goes_on(new)
        for number, statements in [(1, BACK_TO_FIRST), (2, BACK_TO_SECOND), (3, WITHOUT_INDEXES), (3, ())]:
            old = older_copy(path, os.path.join(room, f"old{number}-{len(statements)}"), *statements)
            if number < 3:
                expect(f"a check, schema {number}", check(old), (1, "", "fault 501 OldSchema\n"))
                expect_files_stay(
                    old, f"schema {number}",
                    lambda: expect(
                        "an answer", how_it_ends("answer", old, "2024-03-01", "0" * 64, OPERATOR),
                        fault(501, "OldSchema"),
                    ),
                )
            expect(f"a migration, schema {number}", migrate(old), a_sound_migration(number))
            expect(f"again, schema {number}", migrate(old), a_sound_migration(3))
            expect(f"the tables, schema {number}", content(old), tables)
            expect(f"a check, schema {number}", check(old), told)
            expect(f"the replies, schema {number}", answer(old, *asked), before)
            expect(f"what came then, schema {number}", goes_on(old), after)


def text_of(count, entries):
    """The text of a book of so many pledges, of which every third has so many repayments, and every seventh was
    declared."""
    rows = [f"B,2,1,{count}" + "," * 11, "T,1,2667,5,5" + "," * 10]
    for number in range(1, count + 1):
        paid, sworn = entries if number % 3 == 0 else 0, number % 7 == 0
        last = "2024-03-10" if paid else "2024-02-01" if sworn else "2024-01-31"
        rows.append(f"P,{number},A{number},Gold ring,fixed,10000,2024-01-31,,no,1,no,{last},open,,")
        rows.append(f"S,{number},1,2024-01-31,opening,00000000-0000-0000-0000-{number:012x}" + "," * 9)
        if sworn:
            rows.append(f"S,{number},2,2024-02-01,sworn,00000000-0000-0000-0001-{number:012x}" + "," * 9)
        rows += [f"E,{number},{seq},2024-03-{min(seq, 10):02},repay,{seq}" + "," * 9 for seq in range(1, paid + 1)]
    return "\n".join([COLUMNS, *rows, ""])


def imported(path, books, count, entries):
    """A store of so many books of so many pledges. The requests that show all of it."""
    for number in range(1, books + 1):
        key = f"Import-Key: 44444444-4444-4444-4444-{number:012x}"
        text = request("POST", f"/books/{number}/import", f"Pledge-Key: {BROKER}", key, body=text_of(count, entries))
        all_done(f"book {number}", answer(path, book(number)[0], text))
    exports = [keyed_request("GET", f"/books/{number}/export") for number in range(1, books + 1)]
    return exports + [statement_request(number, 1) for number in (1, 3, 7, count)]


def thousands_of_pledges_are_moved():
    with tempfile.TemporaryDirectory() as room:
        path = os.path.join(room, "books")
        asked = imported(path, 4, 3000, 4) + imported_long(path)
        before, told, tables = answer(path, *asked, day="2024-05-01"), check(path), content(path)
        for number, statements in [(1, BACK_TO_FIRST), (2, BACK_TO_SECOND)]:
            old = older_copy(path, os.path.join(room, f"old{number}-{len(statements)}"), *statements)
            begun = time.monotonic()
            expect(f"a migration, schema {number}", migrate(old), a_sound_migration(number))
            print(f"        schema {number}: 12,001 pledges in {time.monotonic() - begun:.1f} s")
            expect(f"the tables, schema {number}", content(old) == tables, True)
            expect(f"a check, schema {number}", check(old), told)
            expect(f"the replies, schema {number}", answer(old, *asked, day="2024-05-01") == before, True)


def imported_long(path):
    """A book of one pledge of 999 repayments. What shows it."""
    rows = [f"E,1,{seq},2024-02-{1 + seq // 40:02},repay,1" + "," * 9 for seq in range(1, 1000)]
    text = "\n".join(
        [
            COLUMNS, "B,2,1,1" + "," * 11, "T,1,2667,5,5" + "," * 10,
            "P,1,A1,Gold ring,fixed,10000,2024-01-31,,no,1,no,2024-03-01,open,,",
            "S,1,1,2024-01-31,opening,00000000-0000-0000-0000-000000000003" + "," * 9, *rows, "",
        ]
    )
    all_done(
        "the long pledge",
        answer(
            path, book(77)[0],
            request(
                "POST", "/books/77/import", f"Pledge-Key: {BROKER}", "Import-Key: 55555555-5555-5555-5555-555555555555",
                body=text,
            ),
        ),
    )
    return [keyed_request("GET", "/books/77/export"), statement_request(1, 77)]


# What no pledge can have come to, of book 7 in a store of an older schema: the debt's rules or its terms' refuse it.
IMPOSSIBLE = [
    ("an entry of nothing", bent_by("UPDATE entries SET pence = 0 WHERE book = 7 AND number = 1")),
    ("an entry above all sums", bent_by("UPDATE entries SET pence = 100000001 WHERE book = 7 AND number = 1")),
    ("a repayment of more than is owing", bent_by("UPDATE entries SET pence = 99999 WHERE book = 7 AND number = 1")),
    (
        "a drawing above the limit",
        bent_by("UPDATE entries SET pence = 10001 WHERE book = 7 AND number = 2 AND seq = 1"),
    ),
    ("a drawing on a fixed sum", bent_by("UPDATE entries SET sort = 0 WHERE book = 7 AND number = 1")),
    ("an entry of an unknown sort", bent_by("UPDATE entries SET sort = 2 WHERE book = 7 AND number = 2 AND seq = 1")),
    ("an entry before the pledge was taken", bent_by("UPDATE entries SET day = 19000 WHERE book = 7 AND number = 1")),
    ("entries whose days fall", bent_by("UPDATE entries SET day = day - 1 WHERE book = 7 AND number = 2 AND seq = 2")),
    ("an entry of 2300", bent_by("UPDATE entries SET day = 120530 WHERE book = 7 AND number = 1")),
    ("an entry's number left out", bent_by("UPDATE entries SET seq = 3 WHERE book = 7 AND number = 2 AND seq = 2")),
    ("a sum of nothing", bent_by("UPDATE pledges SET credit = 0 WHERE book = 7 AND number = 6")),
    ("a sum above all sums", bent_by("UPDATE pledges SET credit = 100000001 WHERE book = 7 AND number = 6")),
    ("an unknown kind", bent_by("UPDATE pledges SET kind = 2 WHERE book = 7 AND number = 6")),
    ("a day taken in 2300", bent_by("UPDATE pledges SET taken = 120530 WHERE book = 7 AND number = 6")),
    ("an agreed end in 2300", bent_by("UPDATE pledges SET agreed = 120530 WHERE book = 7 AND number = 3")),
    ("a rate above all rates", bent_by("UPDATE terms SET rate = 20001 WHERE book = 7 AND version = 1")),
    (
        "safe keeping that is dearer after the end",
        bent_by("UPDATE terms SET keep_after = 6 WHERE book = 7 AND version = 2"),
    ),
]

# What is moved as it is, and found by a check: no debt follows from it.
UNSEEN = [
    (
        "a secret of 15 bytes",
        bent_by("UPDATE secrets SET secret = substr(secret, 1, 15) WHERE book = 7 AND number = 2 AND place = 2"),
    ),
    ("a window above 15", bent_by("UPDATE bookings SET slot = 16 WHERE book = 7")),
    ("another end", bent_by("UPDATE pledges SET ends = ends + 1 WHERE book = 7 AND number = 6")),
    ("another count of rows", bent_by("UPDATE books SET pledges = pledges + 1 WHERE book = 7")),
]


def a_debt_that_cannot_be_is_refused_and_stays():
    with tempfile.TemporaryDirectory() as room:
        path = os.path.join(room, "books")
        fill(path)
        for number, statements in [(1, BACK_TO_FIRST), (2, BACK_TO_SECOND)]:
            old = older_copy(path, os.path.join(room, f"old{number}-{len(statements)}"), *statements)
            for what, bend in IMPOSSIBLE:
                step = f"{what}, schema {number}"
                with tempfile.TemporaryDirectory() as folder:
                    bent = older_copy(old, os.path.join(folder, "bent"))
                    with opened(bent) as tables:
                        bend(tables)
                    before = content(bent)
                    expect_files_stay(bent, step, lambda: expect(step, how_it_ends("migrate", bent), DAMAGED))
                    expect(f"its tables, {step}", (content(bent), schema_of(bent)), (before, number))
            for what, bend in UNSEEN:
                step = f"{what}, schema {number}"
                bent = older_copy(old, os.path.join(room, "bent"))
                with opened(bent) as tables:
                    bend(tables)
                expect(step, migrate(bent), a_sound_migration(number))
                expect(f"a check, {step}", check(bent), (1, "", "fault 513 Damaged\n"))


def what_is_no_older_store_is_refused_and_stays():
    meta = "CREATE TABLE meta (name TEXT PRIMARY KEY, value INTEGER)"
    noted = "INSERT INTO meta VALUES ('schema', {})"
    for step, make, wanted in [
        *((step, make, fault(512, "NotOurs")) for step, make in files_of_other_programs()),
        ("an empty file", file_of(b""), fault(512, "NotOurs")),
        ("a table meta without a schema", database_of(meta), fault(512, "NotOurs")),
        ("the schema 0", database_of(meta, noted.format(0)), fault(512, "NotOurs")),
        ("a schema below 0", database_of(meta, noted.format(-1)), fault(512, "NotOurs")),
        ("a schema that is NULL", database_of(meta, noted.format("NULL")), fault(512, "NotOurs")),
        (
            "a schema that is a text",
            database_of("CREATE TABLE meta (name TEXT PRIMARY KEY, value TEXT)", noted.format("'one'")),
            fault(512, "NotOurs"),
        ),
        ("the schema 4", database_of(meta, noted.format(4)), fault(511, "NewerSchema")),
        ("the schema 4294967297", database_of(meta, noted.format(2**32 + 1)), fault(511, "NewerSchema")),
        ("a text", file_of(b"The books of High Street.\n" * 400), fault(514, "Store")),
        ("zeros", file_of(bytes(8192)), fault(514, "Store")),
    ]:
        with tempfile.TemporaryDirectory() as room:
            path = os.path.join(room, "books")
            make(path)
            expect_files_stay(path, step, lambda: expect(step, how_it_ends("migrate", path), wanted))


def a_newer_store_stays_whole():
    with tempfile.TemporaryDirectory() as room:
        path = os.path.join(room, "books")
        fill(path)
        newer = older_copy(path, os.path.join(room, "newer"), "UPDATE meta SET value = 4 WHERE name = 'schema'")
        before = content(newer)
        refused = fault(511, "NewerSchema")
        expect_files_stay(newer, "schema 4", lambda: expect("schema 4", how_it_ends("migrate", newer), refused))
        expect("its tables", content(newer), before)


def where_there_is_no_file_none_is_made():
    with tempfile.TemporaryDirectory() as room:
        expect("no file", how_it_ends("migrate", os.path.join(room, "books")), fault(512, "NotOurs"))
        expect("no such folder", how_it_ends("migrate", os.path.join(room, "no", "books")), fault(512, "NotOurs"))
        expect("the folder", os.listdir(room), [])
        expect("a folder", how_it_ends("migrate", room), fault(514, "Store"))
        expect("a store in memory", how_it_ends("migrate", ":memory:"), fault(512, "NotOurs"))
        expect("no word", how_it_ends("migrate")[0], 2)
        expect("two words", how_it_ends("migrate", "a", "b")[0], 2)


def a_store_that_is_open_is_refused():
    with tempfile.TemporaryDirectory() as room:
        with a_book_of(room) as (path, _, client):
            client.close()
            expect("a migration", how_it_ends("migrate", path), fault(514, "Store"))


def a_kill_leaves_the_old_tables_or_the_new():
    chance, seen = random.Random(9), {1: 0, 3: 0}
    with tempfile.TemporaryDirectory() as room:
        path = os.path.join(room, "books")
        asked = imported(path, 2, 3000, 4)
        before, told, tables = answer(path, *asked), check(path), content(path)
        old = older_copy(path, os.path.join(room, "old"), *BACK_TO_FIRST)
        first, begun = content(old), time.monotonic()
        expect("a migration", migrate(older_copy(old, os.path.join(room, "whole"))), a_sound_migration(1))
        span, begun = time.monotonic() - begun, time.monotonic()
        for kill in range(KILLS):
            if time.monotonic() - begun > SPAN and kill >= 8:
                break
            with tempfile.TemporaryDirectory() as folder:
                cut = older_copy(old, os.path.join(folder, "books"))
                ran = subprocess.Popen(
                    [PROGRAM, "migrate", cut], stdin=subprocess.DEVNULL, stdout=subprocess.PIPE, stderr=subprocess.PIPE,
                )
                # every other kill at the end, where the commit and the closing are
                wait = chance.uniform(0.8, 1.05) if kill % 2 else chance.uniform(0, 1)
                threading.Timer(wait * span, ran.kill).start()
                said = ran.communicate()
                number = schema_of(cut)
                seen[number] += 1
                expect(f"kill {kill}, schema {number}", content(cut) == (first if number == 1 else tables), True)
                if said[0]:
                    expect(f"kill {kill}, once it was reported", (said[0], number), (b"schema 1 to 3\n", 3))
                expect(f"kill {kill}, again", migrate(cut), a_sound_migration(number))
                expect(f"kill {kill}, its check", check(cut), told)
                expect(f"kill {kill}, its replies", answer(cut, *asked) == before, True)
        print(f"        {sum(seen.values())} kills, {seen[1]} of them left the old tables")


main(a_pledge_gets_what_it_owed_on_the_day_of_its_last_entry, every_reply_is_as_it_was, thousands_of_pledges_are_moved,
     a_debt_that_cannot_be_is_refused_and_stays, what_is_no_older_store_is_refused_and_stays, a_newer_store_stays_whole,
     where_there_is_no_file_none_is_made, a_store_that_is_open_is_refused, a_kill_leaves_the_old_tables_or_the_new)
