"""A file with one large book, which is put in by SQL, as the program stores it."""
import datetime
import random
import uuid

from tests.library.checks import expect
from tests.library.dates import six_months_after, today
from tests.library.keys import BROKER, OPERATOR
from tests.library.program import answer
from tests.library.requests import keyed_request
from tests.library.tables import opened

EPOCH = datetime.date(1970, 1, 1)
ARTICLES = (
    "Gold ring", "Silver spoon", "Violin by an unknown maker", "Watch, steel", "Brooch with a garnet", "Clock", "Medal",
    "Camera with two lenses",
)


def number_of(day):
    return (day - EPOCH).days


def filled(path, count):
    """A file with book 7, whose pledges are put in by SQL, as the program stores them: a third are closed, some wait
    for an answer."""
    book = keyed_request("POST", "/books/7", {"capacity": 2, "key": BROKER, "name": "High Street"}, OPERATOR)
    terms = keyed_request("POST", "/books/7/terms", {"keep_after": 0, "keep_before": 0, "rate": 0, "version": 1})
    expect("the book", [status for status, _ in answer(path, book, terms)], [200, 200])
    draw, now = random.Random(count), today()
    pledges, secrets, totals, bookings = [], [], [], []
    for number in range(1, count + 1):
        taken = now - datetime.timedelta(days=700 - 700 * number // count)
        ends, pence = six_months_after(taken), draw.choice((5000, 7500, 12345, 60000))
        closed = 1 if draw.random() < 0.33 else 0
        day = number_of(min(now, taken + datetime.timedelta(days=draw.randrange(150)))) if closed else None
        pledges.append(
            (
                7, number, f"HS-{number:06}", draw.choice(ARTICLES), 0, pence, number_of(taken), None, number % 2, 1,
                number_of(ends), 0, day or number_of(taken), closed, day, pence if closed else None,
            )
        )
        secrets.append((7, number, 1, number_of(taken), 0, uuid.UUID(int=draw.getrandbits(128)).bytes))
        totals.append((7, number, number_of(taken), pence, 0))
        if not closed and ends > now and number % 50 == 0:
            bookings.append((7, number, number_of(now) + number % 9, number % 16, 0))
    with opened(path) as tables:
        for table, rows in (("pledges", pledges), ("secrets", secrets), ("totals", totals), ("bookings", bookings)):
            tables.executemany(f"INSERT INTO {table} VALUES ({', '.join('?' * len(rows[0]))})", rows)
        tables.execute("UPDATE books SET pledges = ?", (count,))
        tables.execute(
            "UPDATE meta SET value = value + ? WHERE name = 'rows'", (len(pledges) + len(secrets) + len(bookings),),
        )
    return path
