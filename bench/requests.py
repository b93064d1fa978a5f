"""Prints requests a second and peak memory of openings, views, day sheets, exports and repayments
through `pawnd answer :memory:`.

usage: python3 -m bench.requests [PROGRAM]     (default: build/pawnd)

A stream has at most 1,000 requests, so a run is one book, its terms, and up to 998 openings, views
or repayments. What a view costs is the time of 499 openings and 499 views less that of 499 openings,
and so for sheets of a day without visits and of one on which all 499 periods end, for exports
of the book and imports of it into other books, told for each pledge, and for repayments of one penny
on each of 499 pledges. Repayments
on one pledge are timed as its entries grow, each span less the one before it. Start and the reading
of the stream are included where nothing is taken off.
"""
import os
import resource
import subprocess
import sys
import time

if len(sys.argv) > 1:
    os.environ["PAWND"] = sys.argv[1]

from tests.library.keys import BROKER, OPERATOR, SEED  # noqa: E402
from tests.library.paths import PROGRAM  # noqa: E402
from tests.library.requests import request  # noqa: E402

RUNS = 9


def start():
    yield request(
        "POST", "/books/7", f"Pledge-Key: {OPERATOR}", body=f'{{"capacity":2,"key":"{BROKER}","name":"High Street"}}',
    )
    yield request(
        "POST", "/books/7/terms", f"Pledge-Key: {BROKER}", body='{"keep_after":0,"keep_before":0,"rate":0,"version":1}',
    )


def opening(n):
    return request("POST", "/books/7/pledges", f"Pledge-Key: {BROKER}",
                   body=f'{{"article":"Gold ring","five_days":false,"kind":"fixed","pence":10000,"ref":"A{n}"}}')


def view(receipt):
    return request("GET", "/books/7/held", f"Pledge-Receipt: {receipt}")


def sheet(day):
    return request("GET", f"/books/7/days/{day}", f"Pledge-Key: {BROKER}")


def export():
    return request("GET", "/books/7/export", f"Pledge-Key: {BROKER}")


def fill(book, rows):
    yield request(
        "POST", f"/books/{book}", f"Pledge-Key: {OPERATOR}",
        body=f'{{"capacity":2,"key":"{BROKER}","name":"High Street"}}',
    )
    yield request("POST", f"/books/{book}/import", f"Pledge-Key: {BROKER}", f"Import-Key: {BROKER}", body=rows)


def repayment(receipt, seq):
    return request("POST", "/books/7/held/repay", f"Pledge-Receipt: {receipt}", body=f'{{"pence":1,"seq":{seq}}}')


def answer(program, stream):
    """The replies and the best time of some runs."""
    best, replies = None, b""
    for _ in range(RUNS):
        begun = time.perf_counter()
        replies = subprocess.run([program, "answer", ":memory:", "2024-01-31", SEED, OPERATOR],
                                 input=stream, stdout=subprocess.PIPE, check=True).stdout
        taken = time.perf_counter() - begun
        best = taken if best is None else min(best, taken)
    return replies, best


def receipts(replies):
    return [part.split(b'"')[0].decode() for part in replies.split(b'"receipt":"')[1:]]


def line(name, count, seconds):
    print(f"{name:32}{count / seconds:12.0f} a second{seconds / count * 1e6:10.1f} microseconds each")


def main():
    program = PROGRAM
    if not os.path.exists(program):
        sys.exit("no program: run make first, or name one")
    _, nothing = answer(program, b"".join(start()))
    many, openings = answer(program, b"".join(start()) + b"".join(map(opening, range(998))))
    assert many.count(b"200 OK") == 1000
    half = b"".join(start()) + b"".join(map(opening, range(499)))
    replies, half_time = answer(program, half)
    shown, viewed = answer(program, half + b"".join(map(view, receipts(replies))))
    assert shown.count(b"Status inside") == 499
    print(f"start, a book and its terms: {nothing * 1e3:.1f} ms")
    line("openings, start included", 998, openings)
    line("views in a book of 499 pledges", 499, viewed - half_time)
    for name, day, ending in (
        ("sheets of a day without any", "2024-03-04", 0), ("sheets of a day with all 499", "2024-07-31", 499),
    ):
        told, sheets = answer(program, half + sheet(day) * 499)
        assert told.count(f"Ends {ending}\n".encode()) == 499
        line(name, 499, sheets - half_time)
    once, _ = answer(program, half + export())
    assert once.count(b"\nP,") == 499
    _, exports = answer(program, half + export() * 100)
    line("exports, for each pledge", 100 * 499, exports - half_time)
    rows = once.decode().split("\r\n\r\n")[-1]
    filled, imports = answer(program, b"".join(part for book in range(8, 108) for part in fill(book, rows)))
    assert filled.count(b'{"imported":499}') == 100
    line("imports, for each pledge", 100 * 499, imports)
    repaid, repayments = answer(program, half + b"".join(repayment(r, 1) for r in receipts(replies)))
    assert repaid.count(b'"sort":"repay"') == 499
    line("repayments, one a pledge", 499, repayments - half_time)
    first, before = answer(program, b"".join(start()) + opening(0))
    entries = 0
    for most in (100, 400, 700, 997):
        one = b"".join(start()) + opening(0) + b"".join(repayment(receipts(first)[0], n) for n in range(1, most + 1))
        told, taken = answer(program, one)
        assert told.count(b'"sort":"repay"') == most
        line(f"repayments {entries + 1} to {most} of one", most - entries, taken - before)
        entries, before = most, taken
    peak = resource.getrusage(resource.RUSAGE_CHILDREN).ru_maxrss
    print(f"peak memory: {peak} KiB")


if __name__ == "__main__":
    main()
