#!/usr/bin/env python3
"""A pawnor's visit: looks at a pledge by its receipt, asks for a window tomorrow, pays ten pounds, and redeems the
rest.

usage: pawnor_visit.py URL BOOK RECEIPT      or the variables PLEDGE_URL, PLEDGE_BOOK and PLEDGE_RECEIPT

Who has the receipt has the article, so better say it by the environment: a command line is seen by others of the
machine.
"""
import datetime
import sys

from client import Book, Lost, Refused, money, next_entry, pence, settings, value

SEEMS = "redeemed, it seems: the reply was lost, and the receipt is not live any more. The broker can tell."


def ask_for_tomorrow(book):
    """A window of tomorrow. Asked again for the same one nothing changes, so it may be repeated."""
    tomorrow = datetime.datetime.now(datetime.timezone.utc).date() + datetime.timedelta(1)
    try:
        said = book.post("/held/ask", {"day": str(tomorrow), "window": 3})
        print("window", said["window"], "of", said["day"], said["booking"])
    except Refused as why:
        print("no booking:", why)


def pay(book, amount):
    """Pays once: the number of the entry is taken from the statement before the first sending, and is the same in
    a repeat."""
    entry = {"pence": amount, "seq": next_entry(book.get("/held"))}
    try:
        said = book.post("/held/repay", entry)
        print("repaid", money(said["pence"]), "as entry", said["seq"])
    except Refused as why:
        if why.code == 204:
            print("that is more than is owing:", money(why.said["total"]))
        elif why.code == 301:
            print("another entry came first; look at the statement")
        else:
            raise


def agreed(question):
    """Whether a person says yes. The end of the input means no."""
    print(question, end=" ", flush=True)
    said = sys.stdin.readline().strip()
    print()
    return said == "yes"


def redeem(book):
    """Pays all that is owing. A repeat can't pay twice: where the first was done it is refused as 402, since the
    receipt was surrendered. Where another sum is owing by now, as on the next day, it is paid only if a person says
    so."""
    paid = pence(value(book.get("/held"), "Owing"))
    while True:
        try:
            said = book.post("/held/redeem", {"paid": paid})
            return print("redeemed on", said["redeemed"], "for", money(said["paid"]))
        except Refused as why:
            if why.code == 310:
                total = why.said["total"]
                if not agreed(f"Owing is {money(total)} now, and not {money(paid)}. Pay that? (yes)"):
                    return print("not redeemed")
                paid = total
            elif why.code == 303:
                return print("the broker holds it back")
            elif why.code == 402 and why.repeated:
                return print(SEEMS)
            else:
                raise


def main():
    url, number, receipt = settings("pawnor_visit.py URL BOOK RECEIPT", "PLEDGE_URL", "PLEDGE_BOOK", "PLEDGE_RECEIPT")
    book = Book(url, number, Pledge_Receipt=receipt)
    try:
        print(book.get("/held"), end="")
        ask_for_tomorrow(book)
        pay(book, 1000)
        redeem(book)
    except Refused as why:
        sys.exit("this receipt is not live" if why.code == 402 else f"stopped: {why}")
    except Lost as why:
        sys.exit(f"stopped: {why}")


if __name__ == "__main__":
    main()
