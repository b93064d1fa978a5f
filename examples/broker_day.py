#!/usr/bin/env python3
"""A broker's day: terms, a pledge, a repayment over the counter, tomorrow's bookings, and the book as rows in the
evening.

usage: broker_day.py URL BOOK KEY [LOST]      or the variables PLEDGE_URL, PLEDGE_BOOK and PLEDGE_KEY

LOST is the number of a pledge whose receipt was lost. Run twice on one day, it does everything else once.
"""
import datetime
import sys

from client import Book, Lost, Refused, lines, money, next_entry, settings

TERMS = {"keep_after": 0, "keep_before": 0, "rate": 2667, "version": 1}


def put_terms(book):
    """The first terms, which may stand already: with the same numbers they are answered again."""
    try:
        print("terms", book.post("/terms", TERMS)["version"])
    except Refused as why:
        if why.code != 406:
            raise
        print("the book has other terms, and they stay")


def take_in(book, today):
    """A pledge under a reference of our own, by which a repeat is known: it never makes a second pledge."""
    opening = {"article": "Gold ring", "five_days": True, "kind": "fixed", "pence": 10000, "ref": f"{today} 1"}
    taken = book.post("/pledges", opening)
    print("pledge", taken["number"], "receipt", taken["receipt"])
    return taken["number"]


def counter(book, number):
    """Ten pounds, under a number of our own, so that they are never entered twice; and then too much."""
    entry = book.post(f"/pledges/{number}/repay", {"pence": 1000, "seq": 1})
    print("repaid", money(entry["pence"]), "on", entry["day"])
    try:
        book.post(f"/pledges/{number}/repay", {"pence": 1_000_000, "seq": next_entry(book.get(f"/pledges/{number}"))})
    except Refused as why:
        if why.code == 204:
            print("too much: owing is", money(why.said["total"]))
        elif why.code == 305:
            print("the pledge is closed by now")
        else:
            raise


def bookings(book, day):
    """Confirms what is asked for a day, as long as there is room, and refuses the rest."""
    sheet = book.get(f"/days/{day}")
    for line in lines(sheet):
        if " window " not in line:
            continue
        _, number, _, window = line.split()
        try:
            said = book.post(f"/pledges/{number}/decide", {"yes": True})
        except Refused as why:
            if why.code != 408:
                raise
            said = book.post(f"/pledges/{number}/decide", {"yes": False})
        print("booking of pledge", number, "for window", window, said["booking"])


def declare_lost(book, number):
    """A new receipt. It is never sent again by itself: a second one would make the first new receipt worthless."""
    try:
        print("new receipt", book.post(f"/pledges/{number}/declare", {"paper": "sworn"}, repeat=False)["receipt"])
    except Lost as why:
        if why.sent:
            print("no reply: a new receipt may have been made. Declare again only if the pawnor did not get it.")
        else:
            print("nothing was sent, so no receipt was made")


def evening(book, today):
    print(book.get(f"/days/{today}"), end="")
    rows = lines(book.get("/export"))
    pledges, entries = (sum(row.startswith(kind) for row in rows) for kind in ("P,", "E,"))
    print("the book has", pledges, "pledges and", entries, "entries")


def main():
    url, number, key, *lost = settings("broker_day.py URL BOOK KEY [LOST]", "PLEDGE_URL", "PLEDGE_BOOK", "PLEDGE_KEY")
    book = Book(url, number, Pledge_Key=key)
    today = datetime.datetime.now(datetime.timezone.utc).date()
    try:
        put_terms(book)
        pledge = take_in(book, today)
        counter(book, pledge)
        bookings(book, today + datetime.timedelta(1))
        for number in lost:
            declare_lost(book, number)
        evening(book, today)
    except (Refused, Lost) as why:
        sys.exit(f"stopped: {why}")


if __name__ == "__main__":
    main()
