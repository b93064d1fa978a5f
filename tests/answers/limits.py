"""Each limit met once: the last that is accepted, and the next that is refused, each with its whole answer."""
import datetime
import subprocess

from tests.library.checks import expect, main
from tests.library.dates import six_months_after, today
from tests.library.keys import BROKER, OPERATOR, SEED
from tests.library.paths import PROGRAM
from tests.library.program import Server
from tests.library.requests import refusal, request
from tests.library.sessions import read_all


def money(pence):
    return f"{pence // 100}.{pence % 100:02}"


def lines(step, reply, *labels):
    """The lines of a statement that begin with these words."""
    status, text = reply
    expect(f"{step}: the status", status, 200)
    return [line for line in text.splitlines() if line.startswith(labels)]


def ten_thousand_entries_less_one():
    with Server() as server:
        session, day = server.session(), str(today())
        session.open_book()
        receipt = session.open_pledge(1, kind="running")
        entries, principal = [], 0
        for seq in range(1, 10000):
            sort, pence = ("draw", 2) if seq % 2 else ("repay", 1)
            principal += pence if sort == "draw" else -pence
            entered = {"day": day, "pence": pence, "seq": seq, "sort": sort}
            expect(
                f"entry {seq}", session.broker("POST", f"/books/7/pledges/1/{sort}", {"pence": pence, "seq": seq}),
                (200, entered),
            )
            entries.append(f"Entry {seq} {day} {sort} {money(pence)}")
        wanted = [f"Principal {money(principal)}", *entries]
        for step, reply in (("the bearer's statement", session.bearer(receipt, "GET", "/books/7/held")),
                            ("the broker's statement", session.broker("GET", "/books/7/pledges/1"))):
            expect(step, lines(step, reply, "Principal", "Entry"), wanted)
        for sort in ("draw", "repay"):
            refused = session.broker("POST", f"/books/7/pledges/1/{sort}", {"pence": 1, "seq": 10000})
            expect(f"one more to {sort}", refused, (409, {"code": 206, "name": "EntriesFull"}))
        again = session.broker("POST", "/books/7/pledges/1/draw", {"pence": 2, "seq": 9999})
        expect("the last again", again, (200, {"day": day, "pence": 2, "seq": 9999, "sort": "draw"}))
        step = "the statement again"
        expect(step, lines(step, session.bearer(receipt, "GET", "/books/7/held"), "Principal", "Entry"), wanted)


def a_hundred_declarations():
    with Server() as server:
        session = server.session()
        session.open_book()
        receipts = [session.open_pledge(1)]
        for count in range(1, 101):
            status, said = session.broker("POST", "/books/7/pledges/1/declare", {"paper": "sworn"})
            expect(f"declaration {count}", status, 200)
            receipts.append(said["receipt"])
        refused = session.broker("POST", "/books/7/pledges/1/declare", {"paper": "sworn"})
        expect("one more", refused, (409, {"code": 309, "name": "DeclarationsFull"}))
        step = "the last receipt"
        expect(step, lines(step, session.bearer(receipts[-1], "GET", "/books/7/held"), "Pledge"), ["Pledge 1"])
        for count, receipt in enumerate(receipts[:-1], 1):
            unknown = session.bearer(receipt, "GET", "/books/7/held")
            expect(f"receipt {count}, which was replaced", unknown, (404, {"code": 402, "name": "NoSuchReceipt"}))


def ninety_nine_extensions():
    with Server() as server:
        session = server.session()
        session.open_book()
        receipt, taken = session.open_pledge(1), today()
        end, extended = six_months_after(taken), []
        for _ in range(99):
            end += datetime.timedelta(days=1)
            expect(
                f"until {end}", session.broker("POST", "/books/7/pledges/1/extend", {"until": str(end)}),
                (200, {"ends": str(end)}),
            )
            extended.append(f"Extended {taken} to {end}")
        later = end + datetime.timedelta(days=1)
        refused = session.broker("POST", "/books/7/pledges/1/extend", {"until": str(later)})
        expect("one more", refused, (409, {"code": 316, "name": "ExtensionsFull"}))
        expect(
            "the last again", session.broker("POST", "/books/7/pledges/1/extend", {"until": str(end)}),
            (200, {"ends": str(end)}),
        )
        step = "the statement"
        expect(
            step, lines(step, session.bearer(receipt, "GET", "/books/7/held"), "Ends", "Extended"),
            [f"Ends {end}", *extended],
        )


def one_to_thirty_two_receipts():
    with Server() as server:
        session = server.session()
        session.open_book()
        receipt = session.open_pledge(1)
        _, text = session.bearer(receipt, "GET", "/books/7/held")
        session.close()
        for count in range(1, 34):
            with server.connect() as peer:
                peer.sendall(
                    request("GET", "/books/7/held", *[f"Pledge-Receipt: {receipt}"] * count, "Connection: close")
                )
                said = read_all(peer)
            if count > 32:
                expect(f"{count} receipts", said, refusal(711, "TooManyReceipts", "400 Bad Request"))
            else:
                expect(f"{count} receipts", said.partition(b"\r\n\r\n")[2].decode(), "\n".join([text] * count))


def more_than_a_thousand_pledges():
    with Server() as server:
        session = server.session()
        session.open_book()
        receipts = [session.open_pledge(number) for number in range(1, 1002)]
        for number in (1, 500, 1000, 1001):
            status, said = session.bearer(receipts[number - 1], "GET", "/books/7/held")
            expect(f"pledge {number}", (status, said.splitlines()[0]), (200, f"Pledge {number}"))
        expect(
            "one that is not there", session.broker("GET", "/books/7/pledges/1002"),
            (404, {"code": 403, "name": "NoSuchPledge"}),
        )
        ends = said.splitlines()[4].removeprefix("Ends ")
        sheet = "".join(f"Pledge {number}\n" for number in range(1, 1002))
        expect("the day on which they end", session.broker("GET", f"/books/7/days/{ends}"),
               (200, f"Day sheet {ends}\nAsked 0\nEnds 1001\n{sheet}"))


def every_window_of_a_day():
    with Server() as server:
        session, day = server.session(), str(today() + datetime.timedelta(days=1))
        session.open_book(capacity=1)
        receipts = [session.open_pledge(number) for number in range(1, 18)]
        for number, receipt in enumerate(receipts, 1):
            booking = {"booking": "asked", "day": day, "window": (17 - number) % 16}
            asked = session.bearer(receipt, "POST", "/books/7/held/ask", {"day": day, "window": booking["window"]})
            expect(f"pledge {number} asks", asked, (200, booking))
            decided = session.broker("POST", f"/books/7/pledges/{number}/decide", {"yes": True})
            full = (409, {"code": 408, "name": "WindowFull"})
            wanted = (200, {**booking, "booking": "confirmed"}) if number < 17 else full
            expect(f"pledge {number} is confirmed", decided, wanted)
        windows = "".join(
            f"Window {window} confirmed 1 of 1\nPledge {(16 - window) % 16 + 1}\n" for window in range(16)
        )
        expect("the day's sheet", session.broker("GET", f"/books/7/days/{day}"),
               (200, f"Day sheet {day}\n{windows}Asked 1\nPledge 17 window 0\nEnds 0\n"))


def the_largest_numbers():
    with Server() as server:
        session, unknown = server.session(), (404, {"code": 402, "name": "NoSuchReceipt"})
        session.open_book(book=999_999_999)
        session.open_pledge(1, book=999_999_999)
        none = session.broker("GET", "/books/999999999/pledges/999999999")
        expect("the largest pledge", none, (404, {"code": 403, "name": "NoSuchPledge"}))
        secret = "00000000-0000-0000-0000-000000000001"
        expect("its receipt", session.bearer(f"999999999-{secret}", "GET", "/books/999999999/held"), unknown)
        too_large = session.bearer(f"1000000000-{secret}", "GET", "/books/999999999/held")
        expect("a receipt of a larger one", too_large, (400, {"code": 710, "name": "BadReceipt"}))
        no_route = (404, {"code": 706, "name": "NoRoute"})
        for target in ("/books/1000000000/held", "/books/0/held", "/books/999999999/pledges/1000000000"):
            expect(target, session.broker("GET", target), no_route)


def answers(stream):
    """What the program answers to a stream."""
    ran = subprocess.run(
        [PROGRAM, "answer", ":memory:", "2024-01-31", SEED, OPERATOR], input=stream, stdout=subprocess.PIPE, timeout=60,
    )
    expect("its status", ran.returncode, 0)
    return ran.stdout


def the_longest_body():
    body = f'{{"capacity":2,"key":"{BROKER}","name":"High Street"}}'
    made = b'HTTP/1.1 200 OK\r\nContent-Length: 10\r\nContent-Type: application/json\r\n\r\n{"book":7}'
    key = f"Pledge-Key: {OPERATOR}"
    expect("the longest", answers(request("POST", "/books/7", key, body=body.ljust(1_048_576)) * 2), made * 2)
    too_long = refusal(705, "BodyTooLong", "400 Bad Request")
    expect("one byte more", answers(request("POST", "/books/7", key, body=body.ljust(1_048_577))), too_long)


def a_body_of_too_many_levels():
    made = 'HTTP/1.1 200 OK\r\nContent-Length: 10\r\nContent-Type: application/json\r\n\r\n{"book":7}'.encode()
    key = f"Pledge-Key: {OPERATOR}"
    for levels, wanted in ((100, made), (200, refusal(708, "BadBody", "400 Bad Request"))):
        body = f'{{"capacity":2,"key":"{BROKER}","name":"High Street","more":{"[" * levels}{"]" * levels}}}'
        expect(f"{levels} levels", answers(request("POST", "/books/7", key, body=body)), wanted)


def heads_at_their_limits():
    none, bad = refusal(712, "NoReceipt", "400 Bad Request"), refusal(701, "BadHead", "400 Bad Request")
    for length, wanted in ((8191, none), (8192, none), (8193, bad)):
        empty = len(request("GET", "/books/7/held", "Filler: "))
        head = request("GET", "/books/7/held", "Filler: " + "x" * (length - empty))
        expect(f"a head of {len(head)} bytes", answers(head), wanted)
    for count, wanted in ((64, none), (65, bad)):
        expect(f"{count} fields", answers(request("GET", "/books/7/held", *["Field: x"] * count)), wanted)


main(
    ten_thousand_entries_less_one, a_hundred_declarations, ninety_nine_extensions, one_to_thirty_two_receipts,
    more_than_a_thousand_pledges, every_window_of_a_day, the_largest_numbers, the_longest_body,
    a_body_of_too_many_levels, heads_at_their_limits,
)
