"""Books that came about by requests that follow from a seed: taken out as text, put into others, and taken out again
as the same bytes, over a file and in memory. On each day every pledge is shown, so that each record that came about
is read back from its rows."""
import datetime
import itertools
import json
import os
import random
import re
import subprocess
import tempfile

from tests.library.checks import expect, main
from tests.library.keys import BROKER, OPERATOR
from tests.library.paths import PROGRAM
from tests.library.program import check
from tests.library.requests import request

BOOKS, DAYS, STEPS, SEED = 60, 10, 10, 2024
REFERENCES = ["A,1", '"', "A 3 ", ' \u00e9,""', "-", "row"]
ARTICLES = ['Gold ring, "old"', ",,,", '"Uhr" \u2013 18 Karat', "#"]
# What some of the texts have to contain: each kind of row, and each word of a column.
WORDS = [
    "\nE,", "\nX,", "\nK,", "\nT,3,", "\nP,4,", ",running,", ",redeemed,", ",sold,", ",sworn,", ",written,", ",draw,",
    ",repay,", ",asked,", ",confirmed,", ",cancelled,", ',"""',
]


class Book:
    """What is known of a book from its replies: its versions of terms, and of each pledge the receipt, the entries,
    and what was owing when it was asked last."""

    def __init__(self, number):
        self.number, self.versions, self.pledges = number, 0, []

    def keyed(self, method, target, body=None):
        return request(
            method, f"/books/{self.number}{target}", f"Pledge-Key: {BROKER}",
            body="" if body is None else json.dumps(body, ensure_ascii=True),
        )

    def borne(self, pledge, target, body):
        return request(
            "POST", f"/books/{self.number}/held/{target}", f"Pledge-Receipt: {pledge['receipt']}",
            body=json.dumps(body),
        )

    def choose(self, chance, day):
        """A request, which may be refused, and the function that its reply is passed to."""
        way = chance.randrange(10)
        if way == 0 or not self.versions:
            terms = {
                "version": chance.choice([self.versions, self.versions + 1]), "rate": chance.randrange(20_001),
                "keep_before": 5_000_000, "keep_after": chance.randrange(5_000_001),
            }
            return self.keyed("POST", "/terms", terms), self.put
        if way < 3 or not self.pledges:
            return self.keyed("POST", "/pledges", opening(chance, day)), self.taken
        return self.command(chance, chance.choice(self.pledges), day)

    def command(self, chance, pledge, day):
        number, seq = pledge["number"], pledge["entries"] + 1
        later = str(day_after(day, chance.randrange(300)))
        what = chance.choice(
            [
                "draw", "draw", "repay", "repay", "hold", "declare", "declare", "ask", "decide", "redeem", "redeem",
                "redeem", "sell", "extend",
            ]
        )
        if what in ("repay", "ask", "redeem"):
            body = {
                "repay": {"seq": seq, "pence": chance.randrange(1, 4000)},
                "ask": {"day": later, "window": chance.randrange(17)}, "redeem": {"paid": pledge["owing"]},
            }
            return self.borne(pledge, what, body[what]), lambda status, said: self.commanded(pledge, what, status, said)
        body = {
            "draw": {"seq": seq, "pence": chance.randrange(1, 4000)},
            "declare": {"paper": chance.choice(["sworn", "written"])}, "decide": {"yes": chance.random() < 0.5},
            "sell": {"net": chance.randrange(4000)}, "extend": {"until": later},
        }.get(what)
        asked = self.keyed("POST", f"/pledges/{number}/{what}", body)
        return asked, lambda status, said: self.commanded(pledge, what, status, said)

    def put(self, status, said):
        if status == 200:
            self.versions = max(self.versions, said["version"])

    def taken(self, status, said):
        if status == 200 and said["number"] > len(self.pledges):
            self.pledges.append({"number": said["number"], "receipt": said["receipt"], "entries": 0, "owing": 0})

    def commanded(self, pledge, what, status, said):
        if status == 200 and what in ("draw", "repay"):
            pledge["entries"] += 1
        if status == 200 and what == "declare":
            pledge["receipt"] = said["receipt"]
        pledge["owing"] = said.get("total", pledge["owing"])


def opening(chance, day):
    return {
        "ref": chance.choice(REFERENCES), "article": chance.choice(ARTICLES),
        "kind": chance.choice(["fixed", "running"]), "pence": chance.randrange(20_000),
        "agreed": None if chance.random() < 0.3 else str(day_after(day, chance.randrange(400))),
        "five_days": chance.random() < 0.5,
    }


def day_after(day, count):
    return day + datetime.timedelta(days=count)


def answers(database, day, seed, stream):
    """The statuses and the bodies of the replies to requests over a store."""
    ran = subprocess.run(
        [PROGRAM, "answer", database, str(day), f"{seed:064x}", OPERATOR], input=b"".join(stream), capture_output=True,
        timeout=120,
    )
    expect("how it ended", (ran.returncode, ran.stderr), (0, b""))
    replies, rest = [], ran.stdout
    while rest:
        head, rest = rest.split(b"\r\n\r\n", 1)
        length = int(re.search(rb"Content-Length: (\d+)", head)[1])
        replies.append((int(head.split()[1]), rest[:length]))
        rest = rest[length:]
    expect("how many replies", len(replies), len(stream))
    return replies


def making(number):
    return request(
        "POST", f"/books/{number}", f"Pledge-Key: {OPERATOR}",
        body=json.dumps({"capacity": 2, "key": BROKER, "name": "High Street"}),
    )


def export(number):
    return request("GET", f"/books/{number}/export", f"Pledge-Key: {BROKER}")


def importing(number, rows):
    return request("POST", f"/books/{number}/import", f"Pledge-Key: {BROKER}", f"Import-Key: {BROKER}", body=rows)


def live(path, chance, books):
    """What happens to the books over a year or two."""
    day, seeds = datetime.date(2024, 1, 1), itertools.count(1)
    expect("books", {it[0] for it in answers(path, day, next(seeds), [making(it.number) for it in books])}, {200})
    for _ in range(DAYS):
        # A request depends on the reply to the last one on its book, so each book asks once in a stream.
        for _ in range(STEPS):
            chosen = [book.choose(chance, day) for book in books]
            for (status, said), (_, learn) in zip(answers(path, day, next(seeds), [it for it, _ in chosen]), chosen):
                expect("no fault of the store", status == 503, False)
                learn(status, json.loads(said))
        shown = [book.keyed("GET", f"/pledges/{pledge['number']}") for book in books for pledge in book.pledges]
        for at in range(0, len(shown), 1000):
            expect(
                "every pledge is shown", {status for status, _ in answers(path, day, next(seeds), shown[at:at + 1000])},
                {200},
            )
        day = day_after(day, chance.randrange(60))
    expect("its check", check(path)[0], 0)
    return day, next(seeds)


def texts_of(database, day, seed, *streams):
    """The bodies of the last of these streams' requests, as they came."""
    replies = answers(database, day, seed, [it for stream in streams for it in stream])
    expect("the statuses", {status for status, _ in replies}, {200})
    return [said.decode() for _, said in replies[-len(streams[-1]):]]


def books_are_read_as_they_were_written():
    chance, books = random.Random(SEED), [Book(number) for number in range(1, BOOKS + 1)]
    with tempfile.TemporaryDirectory() as room:
        path = os.path.join(room, "books")
        day, seed = live(path, chance, books)
        first = texts_of(path, day, seed, [export(it.number) for it in books])
        others = [it.number + 1000 for it in books]
        made = [making(number) for number in others]
        filled = [importing(number, rows) for number, rows in zip(others, first)]
        exported = [export(number) for number in others]
        expect("the same rows over the file", texts_of(path, day, seed, made, filled, exported), first)
        expect("the same rows in memory", texts_of(":memory:", day, seed, made, filled, exported), first)
        expect("its check", check(path)[0], 0)
    for word in WORDS:
        expect(f"{word!r} is in a text", any(word in text for text in first), True)


main(books_are_read_as_they_were_written)
