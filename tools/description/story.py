"""The examples, which are one story: a ring, a guitar and a clock are pledged in the High Street. The program
answers each step byte for byte as it is written here, with the number of the step as its seed."""
from typing import NamedTuple

from .parts import HEADER

OPERATOR = "11111111-1111-1111-1111-111111111111"
BROKER = "22222222-2222-2222-2222-222222222222"
AS_OPERATOR = [["Pledge-Key", OPERATOR]]
AS_BROKER = [["Pledge-Key", BROKER]]
AS_IMPORTER = [*AS_BROKER, ["Import-Key", "33333333-3333-3333-3333-333333333333"]]
RING = "1-1d509255-dc83-913c-3c06-6c6b975af069"
NEW_RING = "1-bc1e4503-e359-8beb-4b30-9774186b5832"
GUITAR = "2-8bc938ab-f3e3-7866-2826-90ae2c294a89"
CLOCK = "3-9147c637-d264-5597-5585-1470e10fafa1"


class Step(NamedTuple):
    """A request on a day, with the name of its body's example, and what it is answered, with the name of that."""
    day: str
    operation: str
    target: str
    fields: list
    sends: str
    body: object
    words: str
    status: int
    answered: str
    reply: object


def bearing(*receipts):
    return [["Pledge-Receipt", it] for it in receipts]


RING_LINES = """\
Pledge 1
Article Gold ring
Kind fixed 100.00
Taken 2024-01-31
Ends 2024-07-31
Status inside
"""

RING_SHOWN = RING_LINES + """\
Principal 100.00
Charges 2.76
Owing 102.76
Held no
Booking none
"""

GUITAR_SHOWN = """\
Pledge 2
Article Guitar
Kind running 200.00
Taken 2024-01-31
Ends 2024-10-31
Status inside
Principal 46.30
Charges 0.00
Owing 46.30
Held no
Booking none
Entry 1 2024-02-01 draw 50.00
Entry 2 2024-02-10 repay 5.00
"""

MARCH_SHEET = """\
Day sheet 2024-03-04
Window 3 confirmed 1 of 2
Pledge 1
Asked 0
Ends 0
"""

LOST_SHOWN = "Unknown receipt\n\n" + RING_LINES + """\
Principal 92.76
Charges 2.58
Owing 95.34
Held no
Booking 2024-03-04 3 cancelled
Entry 1 2024-02-10 repay 10.00
"""

HIGH_STREET = f"""{HEADER}
B,2,1,3,,,,,,,,,,,
T,1,2667,1000000,500000,,,,,,,,,,
P,1,A1,Gold ring,fixed,10000,2024-01-31,,no,1,no,2024-03-04,redeemed,2024-03-04,9868
S,1,1,2024-01-31,opening,1d509255-dc83-913c-3c06-6c6b975af069,,,,,,,,,
S,1,2,2024-02-20,sworn,bc1e4503-e359-8beb-4b30-9774186b5832,,,,,,,,,
E,1,1,2024-02-10,repay,1000,,,,,,,,,
K,1,2024-03-04,3,cancelled,,,,,,,,,,
P,2,A2,Guitar,running,20000,2024-01-31,2024-10-31,yes,1,no,2024-02-20,open,,
S,2,1,2024-01-31,opening,8bc938ab-f3e3-7866-2826-90ae2c294a89,,,,,,,,,
E,2,1,2024-02-01,draw,5000,,,,,,,,,
E,2,2,2024-02-10,repay,500,,,,,,,,,
X,2,1,2024-02-20,2024-12-31,,,,,,,,,,
K,2,2024-03-04,3,refused,,,,,,,,,,
P,3,A3,Clock,fixed,9000,2024-02-21,,no,1,no,2024-09-02,sold,2024-09-02,14000
S,3,1,2024-02-21,opening,9147c637-d264-5597-5585-1470e10fafa1,,,,,,,,,
"""

STEPS = [
    Step(
        "2024-01-31", "makeBook", "/books/7", AS_OPERATOR, "highStreet",
        {"capacity": 2, "key": "22222222-2222-2222-2222-222222222222", "name": "High Street"},
        "The operator makes a book.", 200, "highStreet", {"book": 7},
    ),
    Step(
        "2024-01-31", "addTerms", "/books/7/terms", AS_BROKER, "first",
        {"keep_after": 500000, "keep_before": 1000000, "rate": 2667, "version": 1},
        "Its first terms: some eight per cent a month, and a penny a day for safe keeping.", 200, "first",
        {"version": 1},
    ),
    Step(
        "2024-01-31", "takePledge", "/books/7/pledges", AS_BROKER, "ring",
        {"article": "Gold ring", "five_days": False, "kind": "fixed", "pence": 10000, "ref": "A1"},
        "A ring is taken for a hundred pounds.", 200, "ring", {"number": 1, "receipt": RING},
    ),
    Step(
        "2024-01-31", "takePledge", "/books/7/pledges", AS_BROKER, "ring",
        {"article": "Gold ring", "five_days": False, "kind": "fixed", "pence": 10000, "ref": "A1"},
        "The reply was lost, so it is sent again: the same pledge, the same receipt.", 200, "ring",
        {"number": 1, "receipt": RING},
    ),
    Step(
        "2024-01-31", "takePledge", "/books/7/pledges", AS_BROKER, "guitar",
        {
            "agreed": "2024-10-31", "article": "Guitar", "five_days": True, "kind": "running", "pence": 20000,
            "ref": "A2",
        },
        "A guitar is taken against an account, for nine months.", 200, "guitar", {"number": 2, "receipt": GUITAR},
    ),
    Step(
        "2024-02-01", "draw", "/books/7/pledges/2/draw", AS_BROKER, "fifty", {"pence": 5000, "seq": 1},
        "Fifty pounds are drawn on the account.", 200, "fifty",
        {"day": "2024-02-01", "pence": 5000, "seq": 1, "sort": "draw"},
    ),
    Step(
        "2024-02-10", "showHeld", "/books/7/held", bearing(RING), None, None, "The bearer looks.", 200, "ring",
        RING_SHOWN,
    ),
    Step(
        "2024-02-10", "repayHeld", "/books/7/held/repay", bearing(RING), "ten", {"pence": 1000, "seq": 1},
        "And pays ten pounds.", 200, "ten", {"day": "2024-02-10", "pence": 1000, "seq": 1, "sort": "repay"},
    ),
    Step(
        "2024-02-10", "repayHeld", "/books/7/held/repay", bearing(RING), "tooMuch", {"pence": 100000, "seq": 2},
        "A thousand pounds are too much, and the reply has the sum that is owing.", 409, "OverOwing",
        {"code": 204, "name": "OverOwing", "total": 9276},
    ),
    Step(
        "2024-02-10", "repay", "/books/7/pledges/2/repay", AS_BROKER, "five", {"pence": 500, "seq": 2},
        "Five pounds come back over the counter.", 200, "five",
        {"day": "2024-02-10", "pence": 500, "seq": 2, "sort": "repay"},
    ),
    Step(
        "2024-02-10", "repay", "/books/7/pledges/2/repay", AS_BROKER, "tooMuch", {"pence": 100000, "seq": 3},
        "Here, too, a thousand are too much.", 409, "OverOwing", {"code": 204, "name": "OverOwing", "total": 4630},
    ),
    Step(
        "2024-02-10", "showPledge", "/books/7/pledges/2", AS_BROKER, None, None, "The account as the broker sees it.",
        200, "guitar", GUITAR_SHOWN,
    ),
    Step(
        "2024-02-10", "hold", "/books/7/pledges/1/hold", AS_BROKER, None, None, "The ring is put on hold.", 200, "held",
        {"held": True},
    ),
    Step(
        "2024-02-11", "release", "/books/7/pledges/1/release", AS_BROKER, None, None, "And released.", 200, "released",
        {"held": False},
    ),
    Step(
        "2024-02-12", "askBooking", "/books/7/held/ask", bearing(RING), "march", {"day": "2024-03-04", "window": 3},
        "The bearer asks to come on the fourth of March.", 200, "march",
        {"booking": "asked", "day": "2024-03-04", "window": 3},
    ),
    Step(
        "2024-02-12", "askBooking", "/books/7/held/ask", bearing(GUITAR), "march", {"day": "2024-03-04", "window": 3},
        "So does the other.", 200, "march", {"booking": "asked", "day": "2024-03-04", "window": 3},
    ),
    Step(
        "2024-02-13", "decideBooking", "/books/7/pledges/1/decide", AS_BROKER, "yes", {"yes": True},
        "One is confirmed.", 200, "yes", {"booking": "confirmed", "day": "2024-03-04", "window": 3},
    ),
    Step(
        "2024-02-13", "decideBooking", "/books/7/pledges/2/decide", AS_BROKER, "no", {"yes": False},
        "The other is refused.", 200, "no", {"booking": "refused", "day": "2024-03-04", "window": 3},
    ),
    Step(
        "2024-02-14", "showDay", "/books/7/days/2024-03-04", AS_BROKER, None, None, "The sheet of that day.", 200,
        "march", MARCH_SHEET,
    ),
    Step(
        "2024-02-15", "cancelBooking", "/books/7/held/cancel", bearing(RING), None, None,
        "The bearer can't come after all.", 200, "march", {"booking": "cancelled", "day": "2024-03-04", "window": 3},
    ),
    Step(
        "2024-02-20", "declareLost", "/books/7/pledges/1/declare", AS_BROKER, "sworn", {"paper": "sworn"},
        "The receipt of the ring is lost, and another issued.", 200, "sworn", {"receipt": NEW_RING},
    ),
    Step(
        "2024-02-20", "showHeld", "/books/7/held", bearing(RING, NEW_RING), None, None,
        "The lost one is unknown from now on.", 200, "lost", LOST_SHOWN,
    ),
    Step(
        "2024-02-20", "extend", "/books/7/pledges/2/extend", AS_BROKER, "december", {"until": "2024-12-31"},
        "The guitar may stay until the end of the year.", 200, "december", {"ends": "2024-12-31"},
    ),
    Step(
        "2024-02-21", "takePledge", "/books/7/pledges", AS_BROKER, "clock",
        {"agreed": None, "article": "Clock", "five_days": False, "kind": "fixed", "pence": 9000, "ref": "A3"},
        "A clock is taken.", 200, "clock", {"number": 3, "receipt": CLOCK},
    ),
    Step(
        "2024-03-04", "redeem", "/books/7/held/redeem", bearing(NEW_RING), "short", {"paid": 9000},
        "The ring is to be redeemed, with too little. The reply has the sum that is owing.", 409, "WrongAmount",
        {"code": 310, "name": "WrongAmount", "total": 9868},
    ),
    Step(
        "2024-03-04", "redeem", "/books/7/held/redeem", bearing(NEW_RING), "ring", {"paid": 9868},
        "With the whole sum it is redeemed.", 200, "ring", {"paid": 9868, "redeemed": "2024-03-04"},
    ),
    Step(
        "2024-03-04", "redeem", "/books/7/held/redeem", bearing(NEW_RING), "ring", {"paid": 9868},
        "Sent again, the receipt is no longer live: it was surrendered.", 404, "NoSuchReceipt",
        {"code": 402, "name": "NoSuchReceipt"},
    ),
    Step(
        "2024-09-02", "sell", "/books/7/pledges/3/sell", AS_BROKER, "clock", {"net": 14000},
        "The pawnor did not come for the clock, and it is sold.", 200, "clock",
        {"net": 14000, "shortfall": 0, "surplus": 156},
    ),
    Step(
        "2024-09-02", "exportBook", "/books/7/export", AS_BROKER, None, None, "The book as rows.", 200, "highStreet",
        HIGH_STREET,
    ),
    Step(
        "2024-09-02", "makeBook", "/books/8", AS_OPERATOR, "lowStreet",
        {"capacity": 2, "key": "22222222-2222-2222-2222-222222222222", "name": "Low Street"}, "Another book is made.",
        200, "lowStreet", {"book": 8},
    ),
    Step(
        "2024-09-02", "importBook", "/books/8/import", AS_IMPORTER, "shortRow", f"{HEADER}\nB,2\n",
        "A row of two columns.", 400, "Csv", {"code": 601, "name": "Csv", "row": 2},
    ),
    Step(
        "2024-09-02", "importBook", "/books/8/import", AS_IMPORTER, "noHeader", "B,2,0,0\n", "No header.", 400,
        "Columns", {"code": 602, "name": "Columns", "row": 1},
    ),
    Step(
        "2024-09-02", "importBook", "/books/8/import", AS_IMPORTER, "leadingZero", f"{HEADER}\nB,2,00,0,,,,,,,,,,,\n",
        "A number with a leading zero.", 400, "BadField", {"code": 603, "name": "BadField", "row": 2},
    ),
    Step(
        "2024-09-02", "importBook", "/books/8/import", AS_IMPORTER, "noCounts", f"{HEADER}\nT,1,0,0,0,,,,,,,,,,\n",
        "The counts are missing.", 400, "Order", {"code": 604, "name": "Order", "row": 2},
    ),
    Step(
        "2024-09-02", "importBook", "/books/8/import", AS_IMPORTER, "steepRate",
        f"{HEADER}\nB,2,1,0,,,,,,,,,,,\nT,1,20001,0,0,,,,,,,,,,\n", "A rate that no terms may have.", 400,
        "NotReplayable", {"code": 605, "name": "NotReplayable", "row": 4},
    ),
    Step(
        "2024-09-02", "importBook", "/books/8/import", AS_IMPORTER, "manyVersions", f"{HEADER}\nB,2,100,0,,,,,,,,,,,\n",
        "A hundred versions of terms.", 400, "TooMany", {"code": 606, "name": "TooMany", "row": 2},
    ),
    Step(
        "2024-09-02", "importBook", "/books/8/import", AS_IMPORTER, "highStreet", HIGH_STREET,
        "The rows of the first fill it.", 200, "highStreet", {"imported": 3},
    ),
]
