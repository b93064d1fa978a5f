"""The verbs of `pawnd-admin` that stop a store or turn a book, killed at some of their steps and run again:
admin_killing.py says how."""
import os

from tests.library.checks import expect
from tests.library.operator.admin_killing import ALL, FarStory, expect_well, killed
from tests.library.operator.admin_machine import PACKAGES
from tests.library.operator.admin_places import books_in
from tests.library.packages import main_with


def killed_split():
    def after(story):
        expect_well(story, {7}, {10})
        expect("the new store", books_in(story.machine.path("north")), {8, 9})
        for caller in story.callers.values():
            caller.look_up()

    killed(["split", "main", "north", "8", "9"], after, named=("/lib/north'",))


def killed_restore():
    def after(story):
        expect_well(story, *ALL)
        for number in ALL[0]:
            expect(f"book {number}", story.callers[number].entries(), 1)

    killed(["restore", "main", "COPY"], after, goes_back=ALL[0])


def killed_restore_of_the_newest():
    """What the store had before becomes a copy, and is never the newest one: the second run restores the same copy."""
    def after(story):
        expect_well(story, *ALL)
        for number in ALL[0]:
            expect(f"book {number}", story.callers[number].entries(), 1)

    killed(["restore", "main", "newest"], after, goes_back=ALL[0], named=(
        "/backups/main/2", "/lib/main/books.db-wal'", "/lib/main/books.db', -1", "'reload', 'nginx'",
    ))


def killed_restore_book():
    """There is a newer copy by then, with more of the book: a second run of a command that has begun goes on with the
    first one."""
    def meanwhile(story):
        has_begun = os.path.exists(story.machine.place("etc/pending/restore-8.json"))
        if has_begun and story.machine.lines().get(8) != "north":
            story.callers[8].repay()
            story.machine.admin("copy", "main")

    def after(story):
        expect_well(story, *ALL)
        expect("the new store", books_in(story.machine.path("north")), {8})
        expect("book 8", story.callers[8].entries(), 1)

    killed(["restore-book", "8", "FOLDER", "north"], after, goes_back={8}, named=(
        "books.map.new", "restore-8.json', -1",
    ), meanwhile=meanwhile)


def killed_remove_book():
    def after(story):
        expect_well(story, {7, 9}, {10})
        expect("book 8", story.callers[8].request("GET", "/pledges/1")[0], 404)
        removed = story.machine.place("backups/removed")
        expect("its last state", {8} in [books_in(os.path.join(removed, it, "books.db")) for it in os.listdir(removed)],
               True)

    killed(["remove-book", "8"], after, goes_back={8})


def killed_removal_of_a_last_book():
    """The store that had it holds less than its newest copy, on purpose: it has a newer copy in the end."""
    def meanwhile(story):
        wrong = [line for line in story.machine.status()["wrong"] if "book 10 " in line]
        expect(f"what is to be done: {wrong}", ["`pawnd-admin remove-book 10`" in line for line in wrong],
               [True] * len(wrong))

    def after(story):
        expect_well(story, ALL[0], set())
        expect("book 10", story.callers[10].request("GET", "/pledges/1")[0], 404)
        expect("the newest copy of its store", books_in(os.path.join(story.machine.newest("west"), "books.db")), set())

    killed(["remove-book", "10"], after, goes_back={10}, named=(
        "/backups/west/2", "/lib/west/books.db-wal'", "/lib/west/books.db', -1", "'reload', 'nginx'",
    ), meanwhile=meanwhile)


def expect_far(story, **stores):
    """Which books each store of a second machine has, and that nothing is wrong."""
    it = story.machine
    expect("the books", {name: books_in(it.path(name)) for name in stores}, stores)
    expect("what is wrong", it.status()["wrong"], [])
    expect("what commands left", it.leftovers(), [])


def killed_split_on_a_second_machine():
    killed(["split", "west", "north", "8", "9"],
           lambda story: expect_far(story, west={7, 10}, north={8, 9}), kind=FarStory)


def killed_restore_book_on_a_second_machine():
    def after(story):
        expect_far(story, west={7, 8, 9, 10}, north={8})
        expect("book 8", story.callers[8].entries(), 1)

    killed(["restore-book", "8", "FOLDER", "north"], after, goes_back={8}, kind=FarStory)


def killed_remove_book_on_a_second_machine():
    def after(story):
        expect_far(story, west={7, 9, 10})
        expect("book 8", story.callers[8].request("GET", "/pledges/1")[0], 404)

    killed(["remove-book", "8"], after, goes_back={8}, kind=FarStory)


if __name__ == "__main__":
    main_with(
        PACKAGES,
        killed_split,
        killed_restore,
        killed_restore_of_the_newest,
        killed_restore_book,
        killed_remove_book,
        killed_removal_of_a_last_book,
        killed_split_on_a_second_machine,
        killed_restore_book_on_a_second_machine,
        killed_remove_book_on_a_second_machine,
    )
