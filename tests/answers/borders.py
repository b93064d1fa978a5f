"""Which rows make a book: each border met from both sides. A book of three pledges is bent at one place so that
requests can still produce its rows, and imported; bent a unit further it is refused. Over a file and in memory."""
import json
import os
import subprocess
import tempfile

from tests.library.book_texts import COLUMNS
from tests.library.checks import expect, main
from tests.library.keys import BROKER, OPERATOR, SEED
from tests.library.paths import PROGRAM
from tests.library.program import check
from tests.library.requests import request
from tests.library.sums import LARGE

IMPORT = "44444444-4444-4444-4444-444444444444"
# The largest credit that is small, in pence. A written statement is enough for it, and its article passes to the broker.
SMALL_CREDIT = 7_500
TERMS = [(0, 0, 0), (0, 1, 1), (20_000, 10_000_000, 10_000_000)]


def day(text):
    """A day of 2024 of its month and day."""
    month, date = text.split("-")
    return f"2024-{int(month):02}-{int(date):02}"


def pledge(number, **own):
    """A pledge for a large credit, taken on 1 February under version 2, to which nothing happened but this."""
    plain = {
        "number": number, "ref": f"A{number}", "kind": "fixed", "sum": LARGE, "five": "no", "version": 2, "held": "no",
        "last": "2-1", "closed": "open", "closed_on": "", "amount": "", "secrets": [("2-1", "opening", 1)],
        "entries": [], "extensions": [], "booking": None,
    }
    return {**plain, **own}


def book():
    """Pledge 1 with three secrets, two repayments, a longer period and a confirmed booking; pledge 2, a running
    account for the largest small credit that was redeemed on the last day with 25 that were owing; pledge 3, sold on the day after
    its period for a million."""
    return {
        1: pledge(
            1, version=1, secrets=[("2-1", "opening", 1), ("3-1", "sworn", 2), ("3-1", "sworn", 3)],
            entries=[(1, "2-1", "repay", 1000), (2, "2-2", "repay", 500)], extensions=[("7-31", "9-30")],
            booking=("8-10", 3, "confirmed"), last="8-5",
        ),
        2: pledge(
            2, version=1, kind="running", sum=SMALL_CREDIT, secrets=[("2-1", "opening", 1), ("3-1", "written", 2)],
            entries=[(1, "2-1", "draw", 2000), (2, "4-1", "draw", 500)], booking=("8-1", 15, "cancelled"),
            **redeemed("8-1", 2500),
        ),
        3: pledge(3, **sold("8-2", 100_000_000)),
    }


def redeemed(on, paid, last=None):
    return {"closed": "redeemed", "closed_on": on, "amount": paid, "last": last or on}


def sold(on, net, last=None):
    return {"closed": "sold", "closed_on": on, "amount": net, "last": last or on}


def still_open(last):
    return {"closed": "open", "closed_on": "", "amount": "", "last": last}


def row(*columns):
    return ",".join([*map(str, columns), *[""] * (15 - len(columns))]) + "\n"


def lines_of_pledge(it):
    """The rows of a pledge."""
    n = it["number"]
    closed_on = day(it["closed_on"]) if it["closed_on"] else ""
    yield row(
        "P", n, it["ref"], "Gold ring", it["kind"], it["sum"], day("2-1"), "", it["five"], it["version"], it["held"],
        day(it["last"]), it["closed"], closed_on, it["amount"],
    )
    for place, (on, sort, secret) in enumerate(it["secrets"], 1):
        yield row("S", n, place, day(on), sort, f"00000000-0000-0000-0000-{secret:012}")
    for seq, on, sort, pence in it["entries"]:
        yield row("E", n, seq, day(on), sort, pence)
    for place, (on, until) in enumerate(it["extensions"], 1):
        yield row("X", n, place, day(on), day(until))
    if it["booking"]:
        on, window, state = it["booking"]
        yield row("K", n, day(on), window, state)


def text(pledges, terms=TERMS):
    lines = [
        COLUMNS + "\n", row("B", 2, len(terms), len(pledges)),
        *(row("T", version, *it) for version, it in enumerate(terms, 1)),
    ]
    return "".join([*lines, *(line for it in pledges.values() for line in lines_of_pledge(it))])


def bent(number, *bends):
    """The book with pledge NUMBER bent: each bend is members in place of its own, or a member and the value at a
    place of it or after its last."""
    pledges = book()
    for bend in bends:
        for member, value in bend.items():
            if isinstance(value, At):
                rows = list(pledges[number][member])
                rows[value.place:value.place + 1] = [value.row]
                value = rows
            pledges[number][member] = value
    return text(pledges)


class At:
    """A row at a place of a list, from 0."""

    def __init__(self, place, row):
        self.place, self.row = place, row


def entry(place, *row):
    return {"entries": At(place, row)}


def secret(place, *row):
    return {"secrets": At(place, row)}


def extension(place, *row):
    return {"extensions": At(place, row)}


def booking(*it):
    return {"booking": it}


GRACE = {"five": "yes"}
RUNNING = {"kind": "running", "sum": LARGE}

# What is bent: the pledge, how it is bent first, the last form that requests can produce, and one that they can't.
BORDERS = [
    ("a version that exists", 3, [], {"version": 2}, {"version": 4}),
    ("no version before the first", 1, [], {"version": 1}, {"version": 0}),
    ("a version below that of the pledge before", 1, [], {"version": 1}, {"version": 2}),
    ("the largest sum", 3, [], {"sum": 100_000_000}, {"sum": 100_000_001}),
    ("the smallest sum", 3, [still_open("2-1")], {"sum": 1}, {"sum": 0}),
    ("a written statement on a small credit", 2, [], {"sum": SMALL_CREDIT}, {"sum": SMALL_CREDIT + 1}),
    ("the first secret is the opening's", 1, [], secret(0, "2-1", "opening", 1), secret(0, "2-1", "sworn", 1)),
    ("the first secret of the day taken", 1, [], secret(0, "2-1", "opening", 1), secret(0, "2-2", "opening", 1)),
    ("one opening", 1, [], secret(2, "3-1", "sworn", 3), secret(2, "3-1", "opening", 3)),
    ("secrets differ", 1, [], secret(2, "3-1", "sworn", 3), secret(2, "3-1", "sworn", 1)),
    ("days of secrets don't fall", 1, [], secret(2, "3-1", "sworn", 3), secret(2, "2-29", "sworn", 3)),
    ("no secret after the last change", 1, [], secret(2, "8-5", "sworn", 3), secret(2, "8-6", "sworn", 3)),
    ("no drawing on a fixed sum", 1, [], entry(1, 2, "2-2", "repay", 500), entry(1, 2, "2-2", "draw", 500)),
    ("no repayment of nothing", 1, [], entry(1, 2, "2-2", "repay", 1), entry(1, 2, "2-2", "repay", 0)),
    (
        "no repayment above what is owing", 1, [], entry(1, 2, "2-2", "repay", LARGE - 1000),
        entry(1, 2, "2-2", "repay", LARGE - 999),
    ),
    ("days of entries don't fall", 1, [], entry(0, 1, "2-2", "repay", 1), entry(0, 1, "2-3", "repay", 1)),
    ("no entry before the day taken", 1, [], entry(0, 1, "2-1", "repay", 1), entry(0, 1, "1-31", "repay", 1)),
    ("no entry after the last change", 1, [], entry(1, 2, "8-5", "repay", 1), entry(1, 2, "8-6", "repay", 1)),
    (
        "no drawing above the limit", 2, [still_open("8-1")], entry(1, 2, "8-1", "draw", SMALL_CREDIT - 2000),
        entry(1, 2, "8-1", "draw", SMALL_CREDIT - 1999),
    ),
    (
        "no drawing after the end", 3, [still_open("8-2"), RUNNING], entry(0, 1, "8-1", "draw", 1),
        entry(0, 1, "8-2", "draw", 1),
    ),
    ("redeemed with no less than is owing", 2, [], redeemed("8-1", 2500), redeemed("8-1", 2499)),
    ("redeemed with no more than is owing", 2, [], redeemed("8-1", 2500), redeemed("8-1", 2501)),
    ("redeemed on the day of the last change", 2, [], redeemed("8-1", 2500), redeemed("7-31", 2500, last="8-1")),
    ("no held pledge is redeemed", 2, [], {"held": "no"}, {"held": "yes"}),
    ("the largest net of a sale", 3, [], sold("8-2", 100_000_000), sold("8-2", 100_000_001)),
    ("no sale within the period", 3, [], sold("8-2", 0), sold("8-1", 0)),
    ("sold on the day of the last change", 3, [], sold("8-3", 0), sold("8-2", 0, last="8-3")),
    ("no sale within the five days", 3, [GRACE], sold("8-7", 0), sold("8-6", 0)),
    ("no change once the property passed", 2, [], still_open("8-1"), still_open("8-2")),
    ("nor after the five days", 2, [GRACE], still_open("8-6"), still_open("8-7")),
    ("no last change before the day taken", 3, [], still_open("2-1"), still_open("1-31")),
    ("an open pledge has no closing day", 3, [], still_open("8-2"), {**still_open("8-2"), "closed_on": "8-2"}),
    ("an open pledge has no amount", 3, [], still_open("8-2"), {**still_open("8-2"), "amount": 1}),
    ("no booking before the day taken", 1, [], booking("2-1", 0, "confirmed"), booking("1-31", 0, "confirmed")),
    ("sixteen windows", 1, [], booking("2-1", 15, "confirmed"), booking("2-1", 16, "confirmed")),
    (
        "no booking for a day on which the property passed", 2, [], booking("8-1", 0, "refused"),
        booking("8-2", 0, "refused"),
    ),
    ("no visit is to come for what was closed", 2, [], booking("8-1", 0, "refused"), booking("8-1", 0, "asked")),
    ("nor is confirmed", 2, [], booking("8-1", 0, "refused"), booking("8-1", 0, "confirmed")),
    ("no extension before the day taken", 1, [], extension(0, "2-1", "9-30"), extension(0, "1-31", "9-30")),
    ("no extension past the end", 1, [], extension(0, "8-1", "9-30"), extension(0, "8-2", "9-30")),
    ("an extension to a later end", 1, [], extension(0, "7-31", "8-2"), extension(0, "7-31", "8-1")),
    ("days of extensions don't fall", 1, [], extension(1, "7-31", "10-31"), extension(1, "7-30", "10-31")),
    ("no extension after the last change", 1, [], extension(1, "8-5", "10-31"), extension(1, "8-6", "10-31")),
    ("references differ", 3, [], {"ref": "A4"}, {"ref": "A1"}),
    ("and from the last", 3, [], {"ref": "A4"}, {"ref": "A2"}),
]


def terms_of(*third, versions=3):
    """The book with these terms as its third version, which no pledge is under, and so many versions."""
    return text(book(), [*TERMS[:2], *[third] * (versions - 2)])


# The same of terms.
TERMS_BORDERS = [
    ("the highest rate", terms_of(20_000, 0, 0), terms_of(20_001, 0, 0)),
    ("the highest charge before the end", terms_of(0, 10_000_000, 0), terms_of(0, 10_000_001, 0)),
    ("no higher charge after the end", terms_of(0, 0, 0), terms_of(0, 0, 1)),
]


def pairs():
    """What each border is of, the text on its near side, and the one beyond it with its refusal."""
    for step, number, first, kept, beyond in BORDERS:
        yield step, bent(number, *first, kept), bent(number, *first, beyond)
    yield from TERMS_BORDERS


def others():
    """Texts beyond a border that is reported before the end: of the order, of a count, and of a limit."""
    yield "numbers of pledges in order", bent(3, {"number": 4}), (604, "Order", "\nP,4,")
    yield "entries in order", bent(1, entry(1, 3, "2-2", "repay", 500)), (604, "Order", "\nE,1,3,")
    yield "a pledge has a secret", bent(1, {"secrets": []}), (604, "Order", "\nE,1,1,")
    yield "at most 99 versions", terms_of(0, 0, 0, versions=100), (606, "TooMany", "\nB,")


def making(number):
    body = json.dumps({"capacity": 1, "key": BROKER, "name": "High Street"})
    return request("POST", f"/books/{number}", f"Pledge-Key: {OPERATOR}", body=body)


def importing(number, rows):
    return request("POST", f"/books/{number}/import", f"Pledge-Key: {BROKER}", f"Import-Key: {IMPORT}", body=rows)


def expect_replies(database, stream, wanted):
    ran = subprocess.run(
        [PROGRAM, "answer", database, "2024-12-31", SEED, OPERATOR], input=b"".join(stream), capture_output=True,
        timeout=120,
    )
    expect("how it ended", (ran.returncode, ran.stderr), (0, b""))
    bodies = [it.split(b"HTTP/1.1 ")[0].decode() for it in ran.stdout.split(b"\r\n\r\n")[1:]]
    for (step, want), said in zip(wanted, bodies, strict=True):
        expect(step, said, want)


def refusal(code, name, row):
    return f'{{"code":{code},"name":"{name}","row":{row}}}'


def each_border(database):
    """In each book the row beyond is refused, and then the one on the near side is imported."""
    stream, wanted = [], []
    for number, (step, kept, beyond) in enumerate(pairs(), 1):
        stream += [making(number), importing(number, beyond), importing(number, kept)]
        wanted += [
            (step, f'{{"book":{number}}}'), (f"{step}: beyond", refusal(605, "NotReplayable", beyond.count("\n") + 1)),
            (f"{step}: kept", '{"imported":3}'),
        ]
    for step, rows, (code, name, line) in others():
        stream.append(importing(1, rows))
        wanted.append((step, refusal(code, name, rows[:rows.index(line) + 1].count("\n") + 1)))
    expect_replies(database, stream, wanted)


def in_memory():
    each_border(":memory:")


def over_a_file():
    with tempfile.TemporaryDirectory() as room:
        path = os.path.join(room, "books")
        each_border(path)
        status, said, _ = check(path)
        expect(
            "its check", (status, said.split()[:4]),
            (0, ["books", str(len(list(pairs()))), "pledges", str(3 * len(list(pairs())))]),
        )


def more_bookings_than_a_window_confirms():
    """An import may bring more than the capacity allows, and the day's sheet shows them."""
    two = bent(3, still_open("8-2"), booking("8-10", 3, "confirmed"))
    sheet = request("GET", "/books/7/days/2024-08-10", f"Pledge-Key: {BROKER}")
    shown = "Day sheet 2024-08-10\nWindow 3 confirmed 2 of 1\nPledge 1\nPledge 3\nAsked 0\nEnds 0\n"
    expect_replies(
        ":memory:", [making(7), importing(7, two), sheet],
        [("a book", '{"book":7}'), ("its rows", '{"imported":3}'), ("a sheet", shown)],
    )


main(in_memory, over_a_file, more_bookings_than_a_window_confirms)
