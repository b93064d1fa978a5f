"""Lists of a page's rows, one fewer and one more, of two pages and of many, in memory and in a file: the same bytes,
and the lines that were put in."""
import json
import os
import random
import subprocess
import tempfile

from tests.library.book_texts import COLUMNS, row
from tests.library.checks import expect, main
from tests.library.keys import BROKER, OPERATOR, SEED
from tests.library.paths import PROGRAM
from tests.library.requests import request

# A page has 64 rows.
SIZES = (0, 1, 63, 64, 65, 128)
IMPORT = "44444444-4444-4444-4444-444444444444"
TAKEN, ASKED, SIX = "2024-01-31", "2024-02-01", "2024-07-31"


def secret(number, place=1):
    digits = f"{number * 1000 + place:032x}"
    return f"{digits[:8]}-{digits[8:12]}-{digits[12:16]}-{digits[16:20]}-{digits[20:]}"


def text(pledges):
    """The rows of a book whose terms charge nothing, with these rows of each pledge."""
    lines = [line for lines in pledges for line in lines]
    return "\n".join([COLUMNS, row("B", 2, 1, len(pledges)), row("T", 1, 0, 0, 0), *lines, ""])


def pledge(number, agreed="", last=TAKEN, kind="fixed"):
    return row("P", number, f"A{number}", "Ring", kind, 10000000, TAKEN, agreed, "no", 1, "no", last, "open")


def first_secret(number):
    return row("S", number, 1, TAKEN, "opening", secret(number))


def replies_to(store, asked):
    """The replies' bodies of a run over a store, and all its bytes."""
    ran = subprocess.run(
        [PROGRAM, "answer", store, ASKED, SEED, OPERATOR], input=b"".join(asked), stdout=subprocess.PIPE, timeout=120,
    )
    expect("the run", ran.returncode, 0)
    bodies, rest = [], ran.stdout
    while rest:
        head, _, rest = rest.partition(b"\r\n\r\n")
        expect("a reply", head.split(b"\r\n")[0], b"HTTP/1.1 200 OK")
        length = int(next(line for line in head.split(b"\r\n") if line.startswith(b"Content-Length:")).split()[1])
        bodies.append(rest[:length].decode())
        rest = rest[length:]
    return bodies, ran.stdout


def in_both(asked):
    """The replies' bodies, which are the same in memory and in a file."""
    with tempfile.TemporaryDirectory() as room:
        bodies, whole = replies_to(":memory:", asked)
        expect("a file answers the same", replies_to(os.path.join(room, "books.db"), asked)[1], whole)
    return bodies


def filling(rows, book=7):
    made = json.dumps({"capacity": 2, "key": BROKER, "name": "High Street"})
    return [
        request("POST", f"/books/{book}", f"Pledge-Key: {OPERATOR}", body=made),
        request("POST", f"/books/{book}/import", f"Pledge-Key: {BROKER}", f"Import-Key: {IMPORT}", body=rows),
    ]


def broker(target):
    return request("GET", f"/books/7/{target}", f"Pledge-Key: {BROKER}")


def lines_of(body, label):
    return [line for line in body.splitlines() if line.startswith(label)]


def entries_by_the_page():
    sizes = (*SIZES, 9999)
    pledges = [
        [
            pledge(number, kind="running"), first_secret(number),
            *(row("E", number, seq, TAKEN, "draw", 1) for seq in range(1, size + 1)),
        ]
        for number, size in enumerate(sizes, 1)
    ]
    rows = text(pledges)
    _, imported, *statements, exported = in_both(
        [*filling(rows), *(broker(f"pledges/{number}") for number in range(1, len(sizes) + 1)), broker("export")]
    )
    expect("the import", imported, f'{{"imported":{len(sizes)}}}')
    for size, statement in zip(sizes, statements):
        expect(
            f"{size} entries", lines_of(statement, "Entry "),
            [f"Entry {seq} {TAKEN} draw 0.01" for seq in range(1, size + 1)],
        )
        expect(
            f"what is owed after {size}", lines_of(statement, "Principal "),
            [f"Principal {size // 100}.{size % 100:02}"],
        )
    expect("the export", exported, rows)


def secrets_and_extensions_by_the_page():
    counts = [(secrets, extensions) for secrets in (1, 63, 64, 65, 101) for extensions in (0, 1, 63, 64, 65, 99)]
    pledges = []
    for number, (secrets, extensions) in enumerate(counts, 1):
        later = [row("S", number, place, TAKEN, "sworn", secret(number, place)) for place in range(2, secrets + 1)]
        until = [f"2024-{8 + at // 25:02}-{1 + at % 25:02}" for at in range(extensions)]
        longer = [row("X", number, place, TAKEN, day) for place, day in enumerate(until, 1)]
        pledges.append([pledge(number), first_secret(number), *later, *longer])
    rows = text(pledges)
    _, _, *statements, exported = in_both(
        [*filling(rows), *(broker(f"pledges/{number}") for number in range(1, len(counts) + 1)), broker("export")]
    )
    for (_, extensions), statement in zip(counts, statements):
        expect(f"{extensions} extensions", len(lines_of(statement, "Extended ")), extensions)
    expect("the export", exported, rows)


def laid_out(number, counts, booked):
    """The rows of a pledge with so many secrets, entries and extensions, and with a booking or without."""
    secrets, entries, extensions = counts
    return [
        pledge(number, kind="running"), first_secret(number),
        *(row("S", number, place, TAKEN, "sworn", secret(number, place)) for place in range(2, secrets + 1)),
        *(row("E", number, seq, TAKEN, "draw", 1) for seq in range(1, entries + 1)),
        *(
            row("X", number, place, TAKEN, f"2024-{8 + place // 25:02}-{1 + place % 25:02}")
            for place in range(1, extensions + 1)
        ),
        *([row("K", number, "2024-02-10", number % 16, "asked")] if booked else []),
    ]


def exported_as_imported(name, shapes):
    rows = text([laid_out(number, counts, booked) for number, (counts, booked) in enumerate(shapes, 1)])
    _, imported, exported = in_both([*filling(rows), broker("export")])
    expect(f"the import: {name}", imported, f'{{"imported":{len(shapes)}}}')
    expect(f"the export: {name}", exported, rows)


def exports_by_the_range():
    # 32 pledges are read at once, and at most 64 rows of each kind
    short = ((1, 0, 0), False)
    for size in (0, 1, 31, 32, 33, 63, 64, 65, 95, 96, 97, 127, 128, 129, 191, 192, 193):
        exported_as_imported(f"{size} pledges", [short] * size)
    for counts in ((64, 0, 0), (65, 0, 0), (101, 0, 0), (1, 63, 0), (1, 64, 0), (1, 65, 0),
                   (1, 999, 0), (1, 0, 65), (2, 2, 99), (101, 300, 99)):
        for at in (0, 15, 30, 31, 32, 33, 63):
            shapes = [short] * 66
            shapes[at] = (counts, at % 2 == 0)
            exported_as_imported(f"{counts} of the pledge at {at}", shapes)
    # rows that fill a page at the end of a pledge, and one fewer and one more
    for each in (2, 3, 4, 8, 16, 32):
        for more in (-1, 0, 1):
            shapes = [((1, each, 0), True)] * 70
            shapes[64 // each - 1] = ((1, each + more, 0), True)
            exported_as_imported(f"{each} entries each, and {each + more} of one", shapes)
    seeded = random.Random(32)
    for turn in range(10):
        shapes = [
            (
                (
                    seeded.choice((1, 1, 1, 2, 5, 63, 64, 65, 101)), seeded.choice((0, 0, 1, 2, 3, 9, 63, 64, 65, 130)),
                    seeded.choice((0, 0, 0, 1, 2, 63, 64, 65, 99)),
                ),
                seeded.random() < 0.3,
            )
            for _ in range(seeded.randrange(1, 60))
        ]
        exported_as_imported(f"mixed, {turn}", shapes)


def sheet_of(day, booked, ends, states=("confirmed", "asked")):
    """The sheet of a day, by the bookings and the ends of the pledges, whose numbers count from 1."""
    lines, comes = [f"Day sheet {day}"], {}
    for number, (on, window, state) in booked.items():
        if on == day and state == states[0]:
            comes.setdefault(window, []).append(number)
    for window in sorted(comes):
        lines += [
            f"Window {window} confirmed {len(comes[window])} of 2",
            *(f"Pledge {number}" for number in sorted(comes[window])),
        ]
    asked = sorted(number for number, (on, _, state) in booked.items() if on == day and state == states[1])
    lines += [f"Asked {len(asked)}", *(f"Pledge {number} window {booked[number][1]}" for number in asked)]
    ending = sorted(number for number, end in ends.items() if end == day)
    lines += [f"Ends {len(ending)}", *(f"Pledge {number}" for number in ending)]
    return "\n".join([*lines, ""])


def day_sheets_by_the_page():
    seeded = random.Random(64)
    # on one day so many come in each of some windows; on others so many asked to, or so many periods end
    wanted = [
        ("2024-02-05", window, "confirmed")
        for window, size in zip((0, 3, 4, 9, 12, 15), (65, 0, 1, 64, 63, 128)) for _ in range(size)
    ]
    wanted += [
        (f"2024-02-{10 + at}", seeded.randrange(16), "asked") for at, size in enumerate(SIZES) for _ in range(size)
    ]
    wanted += [
        ("2024-02-05", seeded.randrange(16), state) for state in ("asked", "refused", "cancelled") for _ in range(20)
    ]
    wanted += [None] * sum(SIZES)
    seeded.shuffle(wanted)
    ends_left = [f"2024-09-{1 + at:02}" for at, size in enumerate(SIZES) for _ in range(size)]
    booked, ends, pledges = {}, {}, []
    for number, booking in enumerate(wanted, 1):
        agreed = "" if booking else ends_left.pop()
        ends[number] = agreed or SIX
        rows = [pledge(number, agreed), first_secret(number)]
        if booking:
            booked[number] = booking
            rows.append(row("K", number, booking[0], booking[1], booking[2]))
        pledges.append(rows)
    days = [
        "2024-02-05", *(f"2024-02-{10 + at}" for at in range(len(SIZES))),
        *(f"2024-09-{1 + at:02}" for at in range(len(SIZES))), SIX, "2024-02-29",
    ]
    _, imported, *sheets = in_both([*filling(text(pledges)), *(broker(f"days/{day}") for day in days)])
    expect("the import", imported, f'{{"imported":{len(wanted)}}}')
    for day, sheet in zip(days, sheets):
        expect(f"the sheet of {day}", sheet, sheet_of(day, booked, ends))


def a_sheet_of_thousands_of_lines():
    many = 7000
    rows = text([[pledge(number), first_secret(number)] for number in range(1, many + 1)])
    _, imported, sheet, exported = in_both([*filling(rows), broker(f"days/{SIX}"), broker("export")])
    expect("the import", imported, f'{{"imported":{many}}}')
    expect("the sheet", sheet, sheet_of(SIX, {}, dict.fromkeys(range(1, many + 1), SIX)))
    expect("the export", exported, rows)


main(
    entries_by_the_page, secrets_and_extensions_by_the_page, exports_by_the_range, day_sheets_by_the_page,
    a_sheet_of_thousands_of_lines,
)
