"""Stories of the scripts that refuse calls of the machine: requests of one day, each with what it shows."""
from tests.library.checks import Failed, expect
from tests.library.keys import BROKER, KEY, OPERATOR
from tests.library.refusing import Story, body_of
from tests.library.requests import request
from tests.library.sums import LARGE, SMALL

IMPORT = "Import-Key: 44444444-4444-4444-4444-444444444444"


def begun(name, capacity=2):
    """A book with terms that charge nothing."""
    story = Story(name)
    story.ask(
        "POST", "/books/7", f"Pledge-Key: {OPERATOR}", {"capacity": capacity, "key": BROKER, "name": "High Street"},
    )
    story.ask("POST", "/books/7/terms", KEY, {"keep_after": 0, "keep_before": 0, "rate": 0, "version": 1})
    return story


def opened(story, number, pence=LARGE):
    """The receipt of the story's next pledge."""
    said = story.ask(
        "POST", "/books/7/pledges", KEY,
        {"article": "Gold ring", "five_days": False, "kind": "fixed", "pence": pence, "ref": f"A{number}"},
    )
    expect(f"pledge {number} of {story.name}", said.get("number"), number)
    return said["receipt"]


def a_first_pledge():
    """Four requests, like those of the stored run in crates/pawnd."""
    story = begun("a first pledge")
    receipt = opened(story, 1)
    story.ask("GET", "/books/7/held", f"Pledge-Receipt: {receipt}")
    return story


def a_lost_receipt():
    """A sworn declaration: the old receipt shows nothing, the new one the pledge, and both at once; redeemed by the
    new one."""
    story = begun("a lost receipt")
    old = [opened(story, number) for number in (1, 2, 3)][2]
    new = story.ask("POST", "/books/7/pledges/3/declare", KEY, {"paper": "sworn"})["receipt"]
    for receipts in ((old,), (new,), (old, new)):
        story.ask("GET", "/books/7/held", *[f"Pledge-Receipt: {it}" for it in receipts])
    story.ask("POST", "/books/7/held/redeem", f"Pledge-Receipt: {new}", {"paid": LARGE})
    story.ask("GET", "/books/7/held", f"Pledge-Receipt: {old}", f"Pledge-Receipt: {new}")
    story.ask("GET", "/books/7/pledges/3", KEY)
    return story


def two_for_a_window():
    """Two bearers ask for one window, which takes one of them."""
    story = begun("two for a window", capacity=1)
    receipts = [opened(story, number) for number in (1, 2)]
    for receipt in receipts:
        story.ask("POST", "/books/7/held/ask", f"Pledge-Receipt: {receipt}", {"day": "2024-03-04", "window": 3})
    for number in (1, 2):
        story.ask("POST", f"/books/7/pledges/{number}/decide", KEY, {"yes": True})
    story.ask("GET", "/books/7/held", f"Pledge-Receipt: {receipts[1]}")
    story.ask("GET", "/books/7/days/2024-03-04", KEY)
    return story


def a_book_that_moves():
    """A book with a receipt that was replaced, an entry and a booking, taken out and put into another."""
    story = begun("a book that moves")
    receipt = opened(story, 1)
    opened(story, 2, pence=SMALL)
    story.ask("POST", "/books/7/held/repay", f"Pledge-Receipt: {receipt}", {"pence": 1000, "seq": 1})
    story.ask("POST", "/books/7/held/ask", f"Pledge-Receipt: {receipt}", {"day": "2024-03-04", "window": 3})
    story.ask("POST", "/books/7/pledges/2/declare", KEY, {"paper": "written"})
    rows = story.ask("GET", "/books/7/export", KEY)
    story.ask("POST", "/books/8", f"Pledge-Key: {OPERATOR}", {"capacity": 1, "key": BROKER, "name": "Low Street"})
    add(story, "POST", "/books/8/import", KEY, IMPORT, body=rows)
    add(story, "POST", "/books/8/import", KEY, IMPORT, body=rows)
    story.ask("GET", "/books/8/export", KEY)
    return story


def add(story, *asked, body):
    """Adds a request whose body is a text."""
    story.requests.append(request(*asked, body=body))
    said = body_of(story.run_clean(())[0][-1])
    if said != b'{"imported":2}':
        raise Failed(f"{story.name}: {said!r}")


STORIES = (a_first_pledge, a_lost_receipt, two_for_a_window, a_book_that_moves)
