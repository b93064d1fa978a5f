"""What becomes of a store whose log is taken away, cut, bent, or changed for another while the program does not run.
Much of it can't be seen at the next start, and is reported nowhere. This script shows that the first changes up to some
place are served, each of them whole; and when the log is copied into the database, so that nothing depends on it."""
import os
import random
import shutil
import tempfile

from tests.library.checks import expect, main
from tests.library.keys import BROKER, OPERATOR
from tests.library.program import Server, answer, check
from tests.library.requests import keyed_request

CHANCE = random.Random(33)
EXPORT = keyed_request("GET", "/books/7/export")


def lengths(path):
    """The lengths of the database and of its log."""
    return tuple(os.path.getsize(path + end) if os.path.exists(path + end) else 0 for end in ("", "-wal"))


def killed(path, pledges, first=1):
    """A service makes a book where there is none, and takes pledges, and is killed. The book's text after each
    change, of which the first is that it began with."""
    with Server(path) as server:
        session = server.session()
        texts = []
        if first == 1:
            session.ask("POST", "/books/7", {"capacity": 2, "key": BROKER, "name": "High Street"}, Pledge_Key=OPERATOR)
            texts.append(session.broker("GET", "/books/7/export")[1])
            session.open_book()
        texts.append(session.broker("GET", "/books/7/export")[1])
        for number in range(first, first + pledges):
            session.open_pledge(number)
            texts.append(session.broker("GET", "/books/7/export")[1])
        session.close()
    return texts


def served(path):
    """The book's text at the next start, or None where there is no such book."""
    status, said = answer(path, EXPORT)[0]
    return said if status == 200 else None


class Copied:
    """A copy of a store, in a folder of its own."""

    def __init__(self, path):
        self.room = tempfile.mkdtemp()
        self.path = os.path.join(self.room, "books")
        for end in ("", "-wal"):
            shutil.copyfile(path + end, self.path + end)

    def __enter__(self):
        return self.path

    def __exit__(self, *_):
        shutil.rmtree(self.room)


def a_front(step, texts, path):
    """A check finds nothing wrong, and the book is as after some of the changes. After how many, and none where
    there is no such book."""
    status, said, complained = check(path)
    expect(f"{step}: a check", (status, complained), (0, ""))
    text = served(path)
    expect(f"{step}: it is the book after some changes", text is None or text in texts, True)
    return None if text is None else texts.index(text)


def a_start_copies_the_log_in():
    """A service that is killed leaves changes in its log alone, be they all of them or a few. The next one copies
    them in, so what becomes of its log is no matter to them."""
    with tempfile.TemporaryDirectory() as room:
        path = os.path.join(room, "books")
        texts = []
        for pledges, first in ((5, 1), (1, 6)):
            texts = killed(path, pledges, first)
            expect("the log holds changes", lengths(path)[1] > 4096, True)
            with Server(path) as server:
                file, log = lengths(path)
                expect("the file holds all", (file > 4096, log < 4096), (True, True))
                expect("it serves", server.session().broker("GET", "/books/7/export"), (200, texts[-1]))
            is_whole_without_its_log(path, texts[-1])


def a_start_through_a_link_copies_the_log_in():
    """The log is next to the file that a symbolic link leads to."""
    with tempfile.TemporaryDirectory() as room, tempfile.TemporaryDirectory() as other:
        path, link = os.path.join(room, "books"), os.path.join(other, "link")
        texts = killed(path, 5)
        os.symlink(path, link)
        expect("the log holds changes", lengths(path)[1] > 4096, True)
        with Server(link) as server:
            file, log = lengths(path)
            expect("the file holds all", (file > 4096, log < 4096), (True, True))
            expect("it serves", server.session().broker("GET", "/books/7/export"), (200, texts[-1]))
        is_whole_without_its_log(path, texts[-1])


def is_whole_without_its_log(path, text):
    if os.path.exists(path + "-wal"):
        os.remove(path + "-wal")
    expect("what is served without the log", served(path), text)


def an_orderly_end_copies_the_log_in():
    with tempfile.TemporaryDirectory() as room:
        path = os.path.join(room, "books")
        texts = killed(path, 5)
        check(path)
        expect("the log after a check", lengths(path)[1] < 64, True)
        is_whole_without_its_log(path, texts[-1])


def a_log_that_was_taken_away():
    with tempfile.TemporaryDirectory() as room:
        path = os.path.join(room, "books")
        texts = killed(path, 5)
        with Copied(path) as copy:
            os.remove(copy + "-wal")
            expect("a check of what was in the log alone", check(copy), (0, "books 0 pledges 0 rows 0\n", ""))
            expect("the book", served(copy), None)
        check(path)
        more = killed(path, 3, first=6)
        with Copied(path) as copy:
            os.remove(copy + "-wal")
            expect("what was copied in before", a_front("taken away", texts + more, copy), len(texts) - 1)


def a_log_that_was_cut():
    with tempfile.TemporaryDirectory() as room:
        path = os.path.join(room, "books")
        texts, seen = killed(path, 12), set()
        _, log = lengths(path)
        for length in sorted(CHANCE.sample(range(log), 24)):
            with Copied(path) as copy:
                os.truncate(copy + "-wal", length)
                seen.add(a_front(f"cut at {length}", texts, copy))
        expect("some of the changes, and not always the same", len(seen - {None}) > 2, True)


def a_log_in_which_one_bit_was_bent():
    """The changes behind it are lost with it, though they are whole."""
    with tempfile.TemporaryDirectory() as room:
        path = os.path.join(room, "books")
        texts, seen = killed(path, 12), set()
        _, log = lengths(path)
        for _ in range(24):
            at = CHANCE.randrange(log)
            with Copied(path) as copy:
                with open(copy + "-wal", "r+b") as it:
                    it.seek(at)
                    byte = it.read(1)[0]
                    it.seek(at)
                    it.write(bytes([byte ^ (1 << CHANCE.randrange(8))]))
                seen.add(a_front(f"a bit of byte {at}", texts, copy))
        expect("some of the changes, and not always the same", len(seen - {None}) > 2, True)


def a_log_of_another_store():
    """It is taken for the store's own: the other store's book is served, also in the place of one that the database
    holds."""
    with tempfile.TemporaryDirectory() as room:
        path, other = os.path.join(room, "books"), os.path.join(room, "other")
        killed(path, 5)
        others = killed(other, 8)
        for step in ("beside a log alone", "beside a file that holds all"):
            with Copied(path) as copy:
                shutil.copyfile(other + "-wal", copy + "-wal")
                a_front(step, others, copy)
                expect(step, served(copy), others[-1])
            check(path)


def an_older_log():
    """The log of a copy that was made earlier, beside the file of today: the store of then is served."""
    with tempfile.TemporaryDirectory() as room:
        path, older = os.path.join(room, "books"), os.path.join(room, "older")
        texts = killed(path, 5)
        shutil.copyfile(path + "-wal", older)
        check(path)
        killed(path, 3, first=6)
        check(path)
        with Copied(path) as copy:
            shutil.copyfile(older, copy + "-wal")
            expect("what is served", a_front("an older log", texts, copy), len(texts) - 1)


main(
    a_start_copies_the_log_in, a_start_through_a_link_copies_the_log_in, an_orderly_end_copies_the_log_in,
    a_log_that_was_taken_away, a_log_that_was_cut, a_log_in_which_one_bit_was_bent, a_log_of_another_store,
    an_older_log,
)
