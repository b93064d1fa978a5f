"""What one caller can make all others wait for: the longest requests that there are, each with a ceiling that is five
times or more what a plain machine was seen to take.

usage: python3 -m tests.process.slow [PLEDGES]      in a book of 20,000 pledges where nothing is said
"""
import os
import sys
import tempfile
import time

from tests.library.book_texts import COLUMNS
from tests.library.checks import expect, main
from tests.library.filled_stores import fill_store, receipt_of
from tests.library.keys import BROKER, OPERATOR
from tests.library.program import Server
from tests.library.requests import keyed_request, refusal, request
from tests.library.sessions import read_all

PLEDGES = int(sys.argv[1]) if len(sys.argv) > 1 else 20_000
IMPORT = "44444444-4444-4444-4444-444444444444"
STRANGER = "99999999-9999-9999-9999-999999999999"
MOST_BYTES = 1_048_576
OK = b"HTTP/1.1 200 OK\r\n"


def takes(server, step, asked, ceiling):
    """The reply to a request on a connection of its own, which takes no longer than this many seconds."""
    begun = time.perf_counter()
    with server.connect() as peer:
        peer.settimeout(4 * ceiling)
        peer.sendall(asked)
        peer.shutdown(1)
        said = read_all(peer)
    spent = time.perf_counter() - begun
    print(f"        {step}: {spent:.2f} s, {len(said) // 1024} KiB", flush=True)
    expect(f"{step}: within {ceiling} seconds", spent < ceiling, True)
    return said


def a_receipt_with_thousands_of_entries():
    with tempfile.TemporaryDirectory() as room:
        path = os.path.join(room, "books")
        fill_store(path, 1, 2, long=9_000)
        with Server(path) as server:
            once = request("GET", "/books/1/held", f"Pledge-Receipt: {receipt_of(1, 1)}")
            said = takes(server, "a receipt of 9,000 entries", once, 5)
            expect("the entries", said.count(b"\nEntry "), 9_000)
            said = takes(
                server, "the same presented 32 times",
                request("GET", "/books/1/held", *[f"Pledge-Receipt: {receipt_of(1, 1)}"] * 32), 30,
            )
            expect("the entries of all", said.count(b"\nEntry "), 32 * 9_000)


def a_large_book():
    with tempfile.TemporaryDirectory() as room:
        path = os.path.join(room, "books")
        fill_store(path, 1, PLEDGES, entries=1, bookings=True)
        with Server(path) as server:
            said = takes(
                server, f"an export of {PLEDGES} pledges", keyed_request("GET", "/books/1/export"), PLEDGES / 2_000,
            )
            expect("its rows", said.count(b"\nP,"), PLEDGES)
            said = takes(
                server, f"a sheet of {PLEDGES} ends", keyed_request("GET", "/books/1/days/2024-07-31"),
                2 + PLEDGES / 5_000,
            )
            expect("its ends", f"Ends {PLEDGES}\n".encode() in said, True)
            takes(server, "a view beside them", keyed_request("GET", "/books/1/pledges/1"), 2)


def text_of(pledges):
    """A book's text of so many pledges."""
    rows = [COLUMNS, f"B,2,1,{pledges}" + "," * 11, "T,1,0,0,0" + "," * 10]
    for number in range(1, pledges + 1):
        rows.append(f"P,{number},A{number},Ring,fixed,10000,2024-01-31,,no,1,no,2024-01-31,open,,")
        rows.append(f"S,{number},1,2024-01-31,opening,00000000-0000-0000-0000-{number:012}" + "," * 9)
    return "\n".join([*rows, ""])


def largest_import():
    """As many pledges as a body has room for."""
    pledges = 7_850
    while len(text_of(pledges)) > MOST_BYTES:
        pledges -= 50
    return pledges, text_of(pledges)


def import_of(rows, key=BROKER):
    return request("POST", "/books/7/import", f"Pledge-Key: {key}", f"Import-Key: {IMPORT}", body=rows)


def the_largest_import():
    pledges, rows = largest_import()
    for database in (":memory:", "books"):
        with tempfile.TemporaryDirectory() as room:
            with Server(database if database == ":memory:" else os.path.join(room, database)) as server:
                takes(
                    server, "a book",
                    request(
                        "POST", "/books/7", f"Pledge-Key: {OPERATOR}",
                        body=f'{{"capacity":2,"key":"{BROKER}","name":"High Street"}}',
                    ),
                    5,
                )
                said = takes(server, f"1 MiB of rows by a stranger, {database}", import_of(rows, STRANGER), 10)
                expect("its answer", said, refusal(401, "NoSuchBook"))
                said = takes(
                    server, f"1 MiB of rows without a key, {database}", request("POST", "/books/7/import", body=rows),
                    5,
                )
                expect("the answer to that", said, refusal(709, "BadKey", "400 Bad Request"))
                said = takes(server, f"an import of {pledges} pledges, {database}", import_of(rows), 15)
                expect("what was imported", said.endswith(f'{{"imported":{pledges}}}'.encode()), True)


def bodies_that_say_nothing():
    """Bodies as long as may be, which are read to their end or refused before it."""
    with Server() as server:
        for step, body in (
            ("commas", "," * MOST_BYTES), ("brackets", "[" * MOST_BYTES), ("blanks", " " * MOST_BYTES),
            ("a list of noughts", "[" + "0," * (MOST_BYTES // 2 - 1) + "0"),
            ("members", "{" + '"a":0,' * (MOST_BYTES // 6 - 1) + '"a":0}'),
            ("a text", '"' + "x" * (MOST_BYTES - 2) + '"'),
            ("escapes", '{"a":"' + "\\u0041" * (MOST_BYTES // 6 - 3) + '"}'),
        ):
            said = takes(
                server, f"a body of {step}", request("POST", "/books/7", f"Pledge-Key: {OPERATOR}", body=body), 5,
            )
            expect(f"the answer to {step}", said, refusal(708, "BadBody", "400 Bad Request"))
            said = takes(server, f"rows of {step}", import_of(body), 5)
            expect(f"the answer to rows of {step}", b'"code":60' in said, True)


main(a_receipt_with_thousands_of_entries, a_large_book, the_largest_import, bodies_that_say_nothing)
