"""A disk that fails: each read, write, sync and cut of a story's files in turn, refused, short or torn, once or from
then on, with each error once. Each answer is as the rules have it with some requests answered 492, and the next
start holds all that was acknowledged, with or without the request in hand. So in a migration. And a disk that is
full for a while."""
import errno
import os
import sys
import tempfile

from tests.library import refusing
from tests.library.checks import expect, main
from tests.library.program import Server, check
from tests.library.refusing import each_refused, each_refused_in_a_migration
from tests.library.small_disks import small_disk
from tests.library.stories import a_book_that_moves, a_first_pledge, a_lost_receipt

ENDS = ((1, "fault 503 Store\n"),)
NOT_MOVED = ((1, "", "fault 514 Store\n"),)


def print_count(count):
    print(f"        {count} calls")


def each_call_is_refused_once():
    for story in (a_first_pledge(), a_lost_receipt(), a_book_that_moves()):
        print_count(each_refused(story, "file", "rwst", ENDS))


def each_write_is_short_or_torn():
    story = a_book_that_moves()
    print_count(each_refused(story, "file", "w", ENDS, mode="short"))
    print_count(each_refused(story, "file", "w", ENDS, mode="torn"))
    print_count(each_refused(story, "file", "r", ENDS, mode="short"))


def each_error():
    story = a_first_pledge()
    for error in (errno.ENOSPC, errno.EDQUOT, errno.EFBIG, errno.EINTR, errno.EROFS, errno.EBADF):
        print_count(each_refused(story, "file", "rwst", ENDS, step=3, error=error))


def every_call_from_one_on():
    story = a_book_that_moves()
    print_count(each_refused(story, "file", "rwst", ENDS, step=3, mode="on"))
    print_count(each_refused(story, "file", "ws", ENDS, step=3, mode="on", error=errno.ENOSPC))


def calls_of_a_migration():
    """A call that is refused while a store of an older schema is moved, once or from then on, leaves the store for
    another try, which moves it to the same books."""
    for mode, first in (("once", 1), ("on", 2)):
        for count in each_refused_in_a_migration("rwst", NOT_MOVED, 3, lambda: first, mode=mode):
            print_count(count)


def a_disk_that_is_full_for_a_while():
    """A file system of 14 MiB is filled while the service writes to it; when there is room again the service goes
    on, and nothing acknowledged is lost."""
    with small_disk("14m") as room:
        if room is None:
            print("not tried: a disk that is full, which asks for the right to mount one")
        else:
            fill_and_empty(os.path.join(room, "books"), os.path.join(room, "filler"))


def fill_and_empty(path, filler):
    with Server(path) as server:
        session, receipts, seen = server.session(), [], set()
        session.open_book()
        receipts += [session.open_pledge(number) for number in range(1, 21)]
        with open(filler, "wb", buffering=0) as it:
            try:
                while it.write(b"x" * 4096):
                    pass
            except OSError:
                pass
        for _ in range(200):
            opening = {
                "article": "y" * 80, "five_days": False, "kind": "fixed", "pence": 10000,
                "ref": f"A{len(receipts) + 1}",
            }
            status, said = session.broker("POST", "/books/7/pledges", opening)
            seen.add(status)
            if status == 200:
                receipts.append(said["receipt"])
        expect("what is answered while it is full", 503 in seen, True)
        expect("a view while it is full", session.bearer(receipts[0], "GET", "/books/7/held")[0], 200)
        os.remove(filler)
        # The one that was refused last may have been done.
        status, said = session.broker("POST", "/books/7/pledges", opening)
        expect("an opening once there is room", status, 200)
        receipts.append(said["receipt"])
        session.close()
    all_is_served(path, receipts)


def opens(session, number):
    """The status of an opening on a connection of its own, and its receipt if the reply has it; None if no service
    listens."""
    opening = {"article": "Gold ring", "five_days": False, "kind": "fixed", "pence": 10000, "ref": f"A{number}"}
    try:
        status, said = session.broker("POST", "/books/7/pledges", opening)
        session.close()
    except OSError:
        return None, None
    return status, said.get("receipt")


def meets_a_fault(path, at, calls, error):
    """Twelve openings over a store one of whose calls is refused, or fewer where the service ends: the receipts of
    the replies, and how it ended, if it did."""
    during = path + "-during"
    with Server(path, env=refusing.refusing(calls, at=at, error=error, during=during)) as server:
        session, receipts, before = server.session(), [], 200
        session.open_book()
        session.close()
        with open(during, "w"):
            pass
        for number in range(1, 13):
            status, receipt = opens(session, number)
            if status is None:
                expect("what was answered before it ended", before, 503)
                return receipts, (server.program.wait(timeout=10), server.program.stderr.read().decode())
            expect("two faults in a row", (before, status) == (503, 503), False)
            before = status
            receipts += [receipt] if receipt else []
        return receipts, None


def all_is_served(path, receipts):
    with Server(path) as server:
        session = server.session()
        for receipt in receipts:
            expect("what was acknowledged", session.bearer(receipt, "GET", "/books/7/held")[0], 200)
        session.close()
    expect("its check", check(path)[0], 0)


def a_store_that_a_fault_has_shut_ends_the_service():
    """After a fault that shuts the store the service ends with its line, once the connection at hand has ended, and
    a second start serves all that was acknowledged. After any other fault it goes on. No two requests in a row are
    told of a fault."""
    ended = 0
    for calls, error, most in (
        ("s", errno.EIO, 18), ("w", errno.ENOSPC, 12), ("w", errno.EIO, 12), ("r", errno.EIO, 6),
    ):
        for at in range(1, most + 1):
            with tempfile.TemporaryDirectory() as room:
                path = os.path.join(room, "books")
                receipts, end = meets_a_fault(path, at, calls, error)
                if end:
                    expect(f"how it ended, {calls} {at}", end, (1, "fault 503 Store\n"))
                    ended += 1
                all_is_served(path, receipts)
    print(f"        {ended} times it ended")
    expect("it ended some times", ended > 0, True)


def a_conversation_goes_on_to_its_end():
    """What is asked on the connection at hand is answered by faults until its peer is done; then the service ends,
    and takes no further one."""
    with tempfile.TemporaryDirectory() as room:
        path, during = os.path.join(room, "books"), os.path.join(room, "during")
        with Server(path, env=refusing.refusing("s", at=1, mode="on", during=during)) as server:
            session = server.session()
            session.open_book()
            receipt = session.open_pledge(1)
            with open(during, "w"):
                pass
            expect("a view before the fault", session.bearer(receipt, "GET", "/books/7/held")[0], 200)
            refused = (503, {"code": 492, "name": "Store"})
            expect(
                "a change",
                session.broker("POST", "/books/7/terms", {"keep_after": 0, "keep_before": 0, "rate": 1, "version": 2}),
                refused,
            )
            expect("a view behind it", session.bearer(receipt, "GET", "/books/7/held"), refused)
            expect("the service meanwhile", server.program.poll(), None)
            session.close()
            expect(
                "how it ended", (server.program.wait(timeout=10), server.program.stderr.read().decode()),
                (1, "fault 503 Store\n"),
            )
        all_is_served(path, [receipt])


if refusing.library() is None:
    print("not tried: a disk that fails, since no C compiler is there\n0 passed, 0 failed")
    sys.exit(0)
main(
    each_call_is_refused_once, each_write_is_short_or_torn, each_error, every_call_from_one_on, calls_of_a_migration,
    a_disk_that_is_full_for_a_while, a_store_that_a_fault_has_shut_ends_the_service, a_conversation_goes_on_to_its_end,
)
