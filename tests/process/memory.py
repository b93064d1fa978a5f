"""Memory that is refused: each allocation of each story and of a migration in turn, and in a service that runs. Each
answer is as the rules have it with some requests answered 491, and the content is that of the others.

Over a file, and with all allocations that follow refused too, one in so many is tried, from a place that depends
on a seed. With EVERY=1 in the environment, as under `make fuzz`, each is."""
import http.client
import os
import random
import sys
import tempfile

from tests.library import refusing
from tests.library.checks import expect, main
from tests.library.program import Server
from tests.library.refusing import each_refused, each_refused_in_a_migration
from tests.library.stories import a_book_that_moves, a_first_pledge, a_lost_receipt, two_for_a_window

EVERY = bool(os.environ.get("EVERY"))
CHANCE = random.Random(2)
# How a run may end whose store could not be opened, or whose settings found no memory.
ENDS = ((1, "fault 491 Memory\n"), (1, "fault 504 Memory\n"))
NOT_MOVED = ((1, "", "fault 491 Memory\n"), (1, "", "fault 504 Memory\n"), (1, "", "fault 515 Memory\n"))


def one_in(step):
    """Which allocations are tried."""
    return {} if EVERY else {"step": step, "first": CHANCE.randrange(1, step + 1)}


def print_count(count):
    print(f"        {count} allocations", flush=True)


def each_allocation_over_memory():
    for story in (a_first_pledge(), a_lost_receipt(), two_for_a_window(), a_book_that_moves()):
        print_count(each_refused(story, "memory", "m", ENDS))


def each_allocation_over_a_file():
    for story in (a_first_pledge(), a_lost_receipt(), two_for_a_window(), a_book_that_moves()):
        print_count(each_refused(story, "file", "m", ENDS, **one_in(41)))


def all_memory_from_some_allocation_on():
    for story in (a_first_pledge(), a_book_that_moves()):
        print_count(each_refused(story, "memory", "m", ENDS, mode="on", **one_in(29)))
        print_count(each_refused(story, "file", "m", ENDS, mode="on", **one_in(97)))


def each_allocation_of_a_migration():
    """An allocation that is refused while a store of an older schema is moved leaves the store for another try,
    which moves it to the same books."""
    for count in each_refused_in_a_migration("m", NOT_MOVED, books=1):
        print_count(count)


def while_it_serves():
    """An allocation that is refused in a service that runs costs the request at hand at most: the next is answered,
    and nothing is done twice or in part."""
    for mode, places in (
        ("once", sorted(CHANCE.sample(range(1, 601), 600 if EVERY else 40))), ("on", (1, 2, 3, 40, 200)),
    ):
        for at in places:
            with tempfile.TemporaryDirectory() as room:
                one_while_it_serves(os.path.join(room, "books"), os.path.join(room, "during"), mode, at)


def one_while_it_serves(path, during, mode, at):
    with Server(path, env=refusing.refusing("m", at=at, mode=mode, during=during)) as server:
        session = server.session()
        session.open_book()
        receipts = [session.open_pledge(1)]
        session.close()
        with open(during, "w"):
            pass
        opening = {"article": "Gold ring", "five_days": False, "kind": "fixed", "pence": 10000, "ref": "A2"}
        for _ in range(3):
            try:
                status, said = session.broker("POST", "/books/7/pledges", opening)
                expect(
                    f"an opening, {mode} {at}",
                    status == 200 or (status, said) == (503, {"code": 491, "name": "Memory"}), True,
                )
            except (OSError, http.client.HTTPException):
                pass
            session.close()
        os.remove(during)
        status, said = session.broker("POST", "/books/7/pledges", opening)
        expect(f"the same with memory, {mode} {at}", (status, said["number"]), (200, 2))
        for receipt in (*receipts, said["receipt"]):
            expect(f"a view, {mode} {at}", session.bearer(receipt, "GET", "/books/7/held")[0], 200)
        expect(f"the book, {mode} {at}", session.broker("GET", "/books/7/export")[1].count("\nP,"), 2)
        session.close()


if refusing.library() is None:
    print("not tried: memory that is refused, since no C compiler is there\n0 passed, 0 failed")
    sys.exit(0)
main(
    each_allocation_over_memory, each_allocation_over_a_file, all_memory_from_some_allocation_on,
    each_allocation_of_a_migration, while_it_serves,
)
