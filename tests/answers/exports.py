"""Books taken out by curl as rows of CSV and put into others; texts that are hostile or too long; and rows that
only the first version has."""
import random
import subprocess
import tempfile

from tests.library.book_texts import COLUMNS, row
from tests.library.checks import expect, main
from tests.library.keys import BROKER, OPERATOR
from tests.library.program import Server
from tests.library.requests import refusal, request

IMPORT = "44444444-4444-4444-4444-444444444444"


def text(*rows):
    return "\n".join([COLUMNS, *rows, ""])


def secret(n):
    return f"00000000-0000-0000-0000-{n:012}"


# A pledge that was declared on 2024-02-01, with an asked booking, in the first version of the form.
EXAMPLE = text(
    row("B", "1", "1", "1"),
    row("T", "1", "0", "0", "0"),
    row("P", "1", "A1", "Gold ring", "fixed", "10000", "2024-01-31", "", "no", "1", "no", "2024-02-01", "open"),
    row("S", "1", "1", "2024-01-31", "opening", secret(3)),
    row("S", "1", "2", "2024-02-01", "sworn", secret(4)),
    row("K", "1", "2024-02-10", "3", "asked"),
)

# A pledge whose period was made longer.
EXTENDED = text(
    row("B", "2", "1", "1"),
    row("T", "1", "0", "0", "0"),
    row("P", "1", "A1", "Gold ring", "fixed", "10000", "2024-01-31", "", "no", "1", "no", "2024-02-01", "open"),
    row("S", "1", "1", "2024-01-31", "opening", secret(3)),
    row("X", "1", "1", "2024-02-01", "2024-09-30"),
)


def make_book(session, book):
    made = session.ask(
        "POST", f"/books/{book}", {"capacity": 2, "key": BROKER, "name": "High Street"}, Pledge_Key=OPERATOR,
    )
    expect(f"book {book}", made, (200, {"book": book}))


def curl(server, *words):
    ran = subprocess.run(
        ["curl", "-sS", *words[:-1], f"http://127.0.0.1:{server.port}{words[-1]}"], stdin=subprocess.DEVNULL,
        stdout=subprocess.PIPE, stderr=subprocess.PIPE, timeout=60,
    )
    expect(f"curl {words[-1]}", (ran.returncode, ran.stderr), (0, b""))
    return ran.stdout


def export(server, book):
    return curl(server, "-H", f"Pledge-Key: {BROKER}", f"/books/{book}/export")


def put(server, book, rows, key=BROKER, importing=IMPORT):
    """What an import of these rows by curl is answered."""
    with tempfile.NamedTemporaryFile() as file:
        file.write(rows if isinstance(rows, bytes) else rows.encode())
        file.flush()
        return curl(
            server, "-H", f"Pledge-Key: {key}", "-H", f"Import-Key: {importing}", "-H", "Content-Type: text/csv",
            "--data-binary", f"@{file.name}", f"/books/{book}/import",
        )


def a_book_goes_out_and_into_another():
    with Server() as server:
        session, seeded = server.session(), random.Random(15)
        session.open_book()
        for number in range(1, 201):
            receipt = session.open_pledge(
                number, article=f"Ring, \"{number}\"\u00e9", five_days=seeded.random() < 0.5,
                pence=seeded.randrange(5000, 10001), kind=seeded.choice(["fixed", "running"]),
            )
            if seeded.random() < 0.3:
                status, said = session.broker("POST", f"/books/7/pledges/{number}/declare", {"paper": "sworn"})
                expect(f"declaration on {number}", status, 200)
                receipt = said["receipt"]
            if seeded.random() < 0.3:
                expect(
                    f"repayment on {number}",
                    session.bearer(receipt, "POST", "/books/7/held/repay", {"pence": 1, "seq": 1})[0] in (200, 409),
                    True,
                )
            if seeded.random() < 0.2:
                expect(
                    f"hold on {number}", session.broker("POST", f"/books/7/pledges/{number}/hold"),
                    (200, {"held": True}),
                )
        session.close()
        first = export(server, 7)
        expect("its pledges", first.count(b"\nP,"), 200)
        make_book(session, 8)
        session.close()
        expect("the import", put(server, 8, first), b'{"imported":200}')
        expect("the rows of the other", export(server, 8), first)
        expect("the same import again", put(server, 8, first), b'{"imported":200}')
        other = put(server, 8, first, importing=BROKER)
        expect("another import", other, b'{"code":409,"name":"BookNotEmpty"}')
        expect("the rows as they were", export(server, 8), first)


def both_forms_are_read():
    with Server() as server:
        session = server.session()
        for book in range(7, 11):
            make_book(session, book)
        session.close()
        expect("the first form", put(server, 7, EXAMPLE), b'{"imported":1}')
        expect("it is exported in the second", export(server, 7).decode(), EXAMPLE.replace("B,1,", "B,2,"))
        expect("the second form", put(server, 8, EXTENDED), b'{"imported":1}')
        expect("it is exported as it came", export(server, 8).decode(), EXTENDED)
        marked = "\ufeff" + EXTENDED.replace("\n", "\r\n").removesuffix("\r\n")
        expect("a mark, other line ends, and none at the end", put(server, 9, marked), b'{"imported":1}')
        expect("it is exported as the others", export(server, 9).decode(), EXTENDED)
        shorter = "".join(EXAMPLE.splitlines(keepends=True)[:-1])
        expect("a pledge without its booking, which no count names", put(server, 10, shorter), b'{"imported":1}')


def fault(code, name, row):
    return f'{{"code":{code},"name":"{name}","row":{row}}}'.encode()


def changed():
    """Texts of which one thing is changed, each with what it is and how it is refused."""
    lines = EXAMPLE.splitlines(keepends=True)
    return [
        ("the count says two pledges", EXAMPLE.replace("B,1,1,1,", "B,1,1,2,"), fault(604, "Order", 8)),
        ("the count says two versions", EXAMPLE.replace("B,1,1,1,", "B,1,2,1,"), fault(604, "Order", 4)),
        ("the count says a hundred versions", EXAMPLE.replace("B,1,1,1,", "B,1,100,1,"), fault(606, "TooMany", 2)),
        (
            "a last change before the declaration", EXAMPLE.replace("no,2024-02-01,open", "no,2024-01-31,open"),
            fault(605, "NotReplayable", 8),
        ),
        (
            "a window that there is not", EXAMPLE.replace("K,1,2024-02-10,3,", "K,1,2024-02-10,16,"),
            fault(605, "NotReplayable", 8),
        ),
        ("a leading zero", EXAMPLE.replace("K,1,2024-02-10,3,", "K,1,2024-02-10,03,"), fault(603, "BadField", 7)),
        ("one column less", "".join([*lines[:2], lines[2].replace(",\n", "\n"), *lines[3:]]), fault(601, "Csv", 3)),
        ("nothing from the pledge on", "".join(lines[:3]), fault(604, "Order", 4)),
        ("no secrets and no booking", "".join(lines[:4]), fault(604, "Order", 5)),
        ("a day that there is not", EXAMPLE.replace("K,1,2024-02-10,", "K,1,2024-02-30,"), fault(603, "BadField", 7)),
        ("no header", "".join(lines[1:]), fault(602, "Columns", 1)), ("nothing", "", fault(602, "Columns", 1)),
        ("two first rows", "".join([*lines[:2], *lines[1:]]), fault(604, "Order", 3)),
        (
            "two first rows, the second too large", "".join([*lines[:2], row("B", "1", "100", "1"), "\n", *lines[2:]]),
            fault(606, "TooMany", 3),
        ),
        (
            "large letters in a secret", EXAMPLE.replace(secret(4), "0000000a-0000-0000-0000-00000000000A"),
            fault(603, "BadField", 6),
        ),
        ("an extension in the first form", EXTENDED.replace("B,2,", "B,1,"), fault(603, "BadField", 6)),
        (
            "an extension to the present end", EXTENDED.replace("2024-09-30", "2024-07-31"),
            fault(605, "NotReplayable", 7),
        ),
        ("a third form", EXTENDED.replace("B,2,", "B,3,"), fault(603, "BadField", 2)),
        (
            "a field too long and out of order", EXAMPLE.replace("P,1,A1,", f"P,2,{'A' * 41},"),
            fault(603, "BadField", 4),
        ),
        ("a pledge out of order", EXAMPLE.replace("P,1,A1,", "P,2,A1,"), fault(604, "Order", 4)),
    ]


def changed_rows_are_refused():
    changes = changed()
    with Server() as server:
        session = server.session()
        make_book(session, 7)
        session.close()
        for step, rows, told in changes:
            expect(step, put(server, 7, rows), told)
        expect(
            "before another key is refused", put(server, 7, changes[5][1], key=IMPORT), fault(603, "BadField", 7),
        )
        expect("the key of another", put(server, 7, EXAMPLE, key=IMPORT), b'{"code":401,"name":"NoSuchBook"}')
        expect("no key of the import", put(server, 7, changes[5][1], importing="x"), b'{"code":709,"name":"BadKey"}')
        empty = text(row("B", "1", "0", "0"))
        expect("no rows at all", put(server, 7, empty), b'{"imported":0}')
        expect("they are answered again, whatever comes", put(server, 7, EXAMPLE), b'{"imported":0}')


def hostile_texts_are_refused():
    lines = EXAMPLE.encode().splitlines(keepends=True)
    with Server() as server:
        session = server.session()
        make_book(session, 7)
        session.close()
        for bad in (b"\x00", b"\xff", b"\xc3\x28", b"\xed\xa0\x80"):
            for line in range(1, 7):
                columns = lines[line].rstrip(b"\n").split(b",")
                for at in range(15):
                    bent = b",".join([*columns[:at], columns[at] + bad, *columns[at + 1:]]) + b"\n"
                    if at % 5 == line % 5:
                        told = put(server, 7, b"".join([*lines[:line], bent, *lines[line + 1:]]))
                        expect(
                            f"bytes {bad!r} in column {at} of row {line + 1}", told, fault(603, "BadField", line + 1),
                        )
        columns = lines[3].rstrip(b"\n").split(b",")
        open_quote = b"".join(
            [*lines[:3], b",".join([*columns[:3], b'"' + columns[3], *columns[4:]]), b"\n", *lines[4:]]
        )
        expect("a quote that is left open", put(server, 7, open_quote), fault(601, "Csv", 4))
        expect("a million commas", put(server, 7, lines[0] + lines[1] + b"," * 1_000_000), fault(601, "Csv", 3))
        for none in (b"", b"\n\r\n", b"\xef\xbb\xbf"):
            expect(f"a text without a record, {none!r}", put(server, 7, none), fault(602, "Columns", 1))
        expect("a million commas first", put(server, 7, b"," * 1_000_000), fault(602, "Columns", 1))
        expect("a row of one field", put(server, 7, lines[0] + b"B\n"), fault(601, "Csv", 2))
        expect(
            "a field of a million bytes",
            put(server, 7, b"".join([*lines[:3], lines[3].replace(b"Gold", b"G" * 1_000_000)])),
            fault(603, "BadField", 4),
        )
        expect(
            "half a million empty lines", put(server, 7, b"\n" * 500_000 + b"".join(lines[:2])), fault(604, "Order", 3),
        )
        too_long = curl_too_long(server)
        expect("a body above the limit", too_long, refusal(705, "BodyTooLong", "400 Bad Request"))
        unbooked = len(EXAMPLE) - len(lines[-1])
        for size in range(0, len(EXAMPLE) - 1, 7):
            if size not in (unbooked - 1, unbooked):
                told = put(server, 7, EXAMPLE.encode()[:size])
                expect(f"the first {size} bytes", told[:10], b'{"code":60')
        expect("the whole text after all that", put(server, 7, EXAMPLE), b'{"imported":1}')


def curl_too_long(server):
    with server.connect() as connection:
        connection.sendall(
            request(
                "POST", "/books/7/import", f"Pledge-Key: {BROKER}", f"Import-Key: {IMPORT}", "Content-Length: 1048577",
            )
        )
        said = b""
        while piece := connection.recv(65536):
            said += piece
        return said


main(a_book_goes_out_and_into_another, both_forms_are_read, changed_rows_are_refused, hostile_texts_are_refused)
