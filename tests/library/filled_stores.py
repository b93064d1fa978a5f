"""Large stores, filled row by row as the program would, and without a request."""
import subprocess

from tests.library.keys import BROKER
from tests.library.paths import PROGRAM
from tests.library.tables import opened

DAY_TAKEN, DAY_OF_END = 19753, 19935  # 2024-01-31 and 2024-07-31, as days since 1970-01-01


def secret_number(book, number):
    """The secret of a pledge's receipt, as a number."""
    return book * 10_000_000 + number


def receipt_of(book, number):
    """The receipt of a pledge of a store that `fill_store` made."""
    digits = f"{secret_number(book, number):032x}"
    return f"{number}-{digits[:8]}-{digits[8:12]}-{digits[12:16]}-{digits[16:20]}-{digits[20:]}"


def fill_store(path, books, each, entries=0, long=0, bookings=False):
    """Makes a store of so many books of so many pledges, taken on 2024-01-31, with so many entries each and so many
    more on the first book's first, each with a booking or none, row by row as the program would."""
    subprocess.run([PROGRAM, "check", path], stdout=subprocess.DEVNULL, check=True)
    key, names = bytes.fromhex(BROKER.replace("-", "")), [
        (book, number) for book in range(1, books + 1) for number in range(1, each + 1)
    ]
    counts = {(book, number): entries + (long if (book, number) == (1, 1) else 0) for book, number in names}
    with opened(path) as tables:
        tables.executemany(
            "INSERT INTO books VALUES (?, ?, 'High Street', 2, 1, ?, NULL, NULL)",
            ((book, key, each) for book in range(1, books + 1)),
        )
        tables.executemany("INSERT INTO terms VALUES (?, 1, 0, 0, 0)", ((book,) for book in range(1, books + 1)))
        tables.executemany(
            "INSERT INTO pledges VALUES (?, ?, ?, 'Gold ring', 0, 10000, ?, NULL, 0, 1, ?, 0, ?, 0, NULL, NULL)",
            ((book, number, f"A{number}", DAY_TAKEN, DAY_OF_END, DAY_TAKEN) for book, number in names),
        )
        tables.executemany(
            "INSERT INTO entries VALUES (?, ?, ?, ?, 1, 1)",
            ((*name, seq, DAY_TAKEN) for name in names for seq in range(1, counts[name] + 1)),
        )
        tables.executemany(
            "INSERT INTO secrets VALUES (?, ?, 1, ?, 0, ?)",
            ((*name, DAY_TAKEN, secret_number(*name).to_bytes(16, "big")) for name in names),
        )
        tables.executemany(
            "INSERT INTO totals VALUES (?, ?, ?, ?, 0)", ((*name, DAY_TAKEN, 10000 - counts[name]) for name in names)
        )
        if bookings:
            tables.executemany(
                "INSERT INTO bookings VALUES (?, ?, ?, ?, 0)",
                ((*name, DAY_OF_END - name[1] % 150, name[1] % 16) for name in names),
            )
        rows = 2 * books + (3 if bookings else 2) * len(names) + sum(counts.values())
        tables.execute("UPDATE meta SET value = ? WHERE name = 'rows'", (rows,))
