"""`pawnd-admin split` while brokers work: every change that was acknowledged is looked up afterwards, faults are
planted, and disks are full."""
import os
import random

from tests.library.checks import expect, not_tried
from tests.library.operator.admin_killing import without_main
from tests.library.operator.admin_machine import PACKAGES, Machine, await_load, load
from tests.library.operator.admin_places import books_in, expect_no_fewer_places, places_of
from tests.library.packages import main_with


def expect_all_is_well(machine):
    expect("what is wrong", machine.status()["wrong"], [])
    expect("what commands left", machine.leftovers(), [])


def a_store_is_divided_under_load():
    """Both parts answer afterwards, nothing that was acknowledged is missing, and no book was in fewer places at any
    time. Then the store is divided again."""
    with Machine() as it:
        callers = {number: it.book(number, pledges=2) for number in (7, 8, 9, 10)}
        with load(*callers.values()):
            await_load(*callers.values())
            before = places_of(it)
            it.admin("split", "main", "west", 8, 10)
            await_load(*callers.values())
        expect_no_fewer_places(before, places_of(it), callers)
        expect("the books", (books_in(it.path("main")), books_in(it.path("west"))), ({7, 9}, {8, 10}))
        for caller in callers.values():
            caller.look_up()
        with load(*callers.values()):
            it.admin("split", "west", "north", 10)
            await_load(*callers.values())
        for caller in callers.values():
            caller.look_up()
        expect("the map", sorted(it.lines().items()), [(8, "west"), (10, "north")])
        for words in (("main", "east", 8), ("main", "west", 7), ("main", "main", 7), ("main", "east", 77)):
            it.admin("split", *words, wanted=1)
        expect("no store for a split that is refused", sorted(it.lines().values()), ["north", "west"])
        expect_all_is_well(it)


def a_store_for_the_proxy_of_another_machine():
    """A machine without `main` serves stores for another one's proxy, whose map says nothing of what happens here: a relay
    passes a book without a line to `west`. A store is divided there, a book comes back out of a copy, and one leaves."""
    with Machine() as it:
        it.store("west")
        callers = {number: it.book(number, "west", pledges=2) for number in (10, 11, 12, 13)}
        without_main(it)
        it.admin("copy", "west")
        with load(*callers.values()):
            await_load(*callers.values())
            it.admin("split", "west", "north", 11, 13)
            await_load(*callers.values())
        expect("the books", (books_in(it.path("west")), books_in(it.path("north"))), ({10, 12}, {11, 13}))
        for caller in callers.values():
            caller.look_up()
        it.admin("split", "west", "north", 11, 13)
        it.admin("copy", "west"), it.admin("restore-book", 12, it.newest("west"), "south")
        callers[12].repay(), callers[12].look_up()
        expect("the map", it.lines(), {11: "north", 12: "south", 13: "north"})
        it.admin("remove-book", 12), it.admin("remove-book", 10), it.admin("remove-book", 13)
        for number in (10, 12, 13):
            expect(f"book {number}, which left", callers[number].request("GET", "/pledges/1")[0], 404)
        expect("the books", [books_in(it.path(name)) for name in ("west", "north", "south")], [set(), {11}, set()])
        callers[11].look_up()
        for words in (("book", 14, "--name", "New Street", "--store", "west"), ("new-key", 11)):
            said = it.admin(*words, "--key-to", it.place("new"), wanted=1)
            expect(f"{words}: {said}", "on the machine of the proxy" in said, True)
        expect("no key was made", os.path.exists(it.place("new")), False)
        expect_all_is_well(it)


def a_book_of_a_store_that_was_moved_away():
    """The copies that are left here are older than the move. One that is named is put back all the same."""
    with Machine() as it:
        it.store("west")
        caller = it.book(7, "west", pledges=2)
        it.admin("copy", "west")
        caller.repay()
        with open(it.place("etc/stores/west.conf")) as file:
            port = file.read().partition("PORT=")[2].strip()
        it.write("etc/stores/west.conf", f"ADDRESS=127.0.0.1:{port}\n")
        it.admin("reload")
        it.admin("restore-book", 7, it.newest("west"), "back")
        expect("the copy that was named", (it.lines(), caller.entries()), ({7: "back"}, 0))


def parts_that_are_not_the_whole_are_refused():
    """Faults that are planted in the division of a store: the old store is served again as it was."""
    with Machine() as it:
        callers = {number: it.book(number, pledges=2) for number in (7, 8)}
        for caller in callers.values():
            for _ in range(3):
                caller.repay(2)
        before = {number: caller.export() for number, caller in callers.items()}
        for plant in ("an_entry_is_lost", "an_article_is_changed", "a_book_stays_behind"):
            for words in (("split", "main", "west", 8), ("remove-book", 8)):
                said = it.admin_with(*words, PLANT=plant, wanted=1)
                expect(f"{plant}: {said}", "not what they were" in said, True)
                expect(f"the books after {words}", books_in(it.path("main")), {7, 8})
                for number, caller in callers.items():
                    expect(f"book {number} after {words}", caller.export(), before[number])
        expect("the map", it.lines(), {})
        it.admin("copy", "main")
        expect_all_is_well(it)


def a_part_without_a_copy_changes_nothing():
    """The copies of the parts fail on a full disk. The store goes on as it was. When both parts are served, both have a
    copy, and there is one of the store as it was before."""
    with Machine() as it:
        callers = {number: it.book(number, pledges=1) for number in (7, 8)}
        said = it.admin_with("split", "main", "west", 8, PLANT="no_copy_of_a_part_can_be_made", wanted=1)
        expect(f"what is said: {said}", "the disk is full" in said and "did not end" not in said, True)
        for caller in callers.values():
            caller.repay(), caller.look_up()
        expect("the books", (books_in(it.path("main")), it.lines()), ({7, 8}, {}))
        expect_all_is_well(it)
        it.admin("split", "main", "west", 8)
        copies = {name: [books_in(os.path.join(it.copies, name, made, "books.db")) for made in
                         sorted(os.listdir(os.path.join(it.copies, name)))] for name in ("main", "west")}
        expect("the copies", copies, {"main": [{7, 8}, {7, 8}, {7}], "west": [{8}]})
        expect_all_is_well(it)


def a_division_that_stops_after_the_map_was_turned():
    """Its message says that the same command ends it; the old store serves the other books meanwhile."""
    with Machine() as it:
        callers = {number: it.book(number, pledges=1) for number in (7, 8)}
        it.admin("copy", "main")
        for verb, *others in (("split", "main", "west", "8"), ("restore-book", "8", "west", "east")):
            words = [verb, *(it.newest(word) if verb == "restore-book" and word == "west" else word for word in others)]
            said = it.admin_with(*words, PLANT="the_new_store_does_not_start", wanted=1)
            expect(f"what is said: {said}", f"run it again, `pawnd-admin {' '.join(words)}`" in said, True)
            callers[7].repay(), callers[7].look_up()
            expect("the newest copy", books_in(os.path.join(it.newest("main"), "books.db")), books_in(it.path("main")))
            it.admin(*words)
            it.admin("copy", "main"), it.admin("copy", "west")
        expect_all_is_well(it)


def nobody_opens_a_store_that_is_divided():
    """Another machine that shares its folder, or an operator by hand: what they acknowledged would be lost."""
    with Machine() as it:
        callers = [it.book(number, pledges=1) for number in (7, 8)]
        said = it.admin_with("split", "main", "west", 8, PLANT="another_program_opens_the_store")
        expect(f"another program: {said}", "fault 503 Store" in said, True)
        for caller in callers:
            caller.repay(), caller.look_up()


def a_full_disk():
    """It is named, with what is missing, and nothing has changed."""
    if os.geteuid():
        not_tried("a full disk", "this is not root")
        return
    with Machine(small="32m") as it:
        caller = it.book(7, pledges=2)
        it.admin("copy", "main")
        both = ("split", "main", "west", 7), ("remove-book", 7)
        others = ("restore", "main", "newest"), ("restore-book", 7, it.newest("main"), "west"), ("store", "west")
        of_copies = ("copy", "main"), *both, *others[:2]
        for folder, commands in ((it.copies, of_copies), (it.stores, (*both, *others))):
            with it.filled(folder):
                for words in commands:
                    said = it.admin(*words, wanted=1)
                    expect(f"{words}: {said}", f"the disk of {folder}" in said and "are missing" in said, True)
                    caller.look_up()
        expect("the books", (books_in(it.path("main")), it.lines()), ({7}, {}))
        it.admin("split", "main", "west", 7), caller.look_up()


def a_disk_that_fills_meanwhile():
    """The disk that is full is named, and no other. When there is room again, the command does the rest."""
    if os.geteuid():
        not_tried("a disk that fills meanwhile", "this is not root")
        return
    with Machine(small="40m") as it:
        callers = [it.book(number, pledges=1) for number in (7, 8)]
        it.admin("copy", "main")
        said = it.admin_with("split", "main", "west", 8, PLANT="another_program_fills_the_disk", wanted=1)
        expect(f"the disk that is named: {said}", f"the disk of {it.stores}" in said and "are missing" in said, True)
        callers[0].repay(), callers[0].look_up()
        os.unlink(os.path.join(it.stores, "filler"))
        it.admin("split", "main", "west", 8)
        for caller in callers:
            caller.repay(), caller.look_up()
        expect("the books", (books_in(it.path("main")), books_in(it.path("west"))), ({7}, {8}))
        expect_all_is_well(it)


def a_store_on_a_disk_of_its_own():
    """A command that is killed while it gives new files to the store leaves the old state or the new one, and the command
    that is run again ends it."""
    if os.geteuid():
        not_tried("a store on a disk of its own", "this is not root")
        return
    with Machine() as it, it.own_disk("main"):
        callers = {number: it.book(number, pledges=1) for number in (7, 8)}
        it.admin("copy", "main")
        copy = it.newest("main")
        callers[7].repay()
        it.admin_with("restore", "main", copy, KILL_AT="0", STEPS=it.place("steps"))
        steps = len(it.steps())
        expect("the restored state", callers[7].entries(), 0)
        for step in random.Random(1).sample(range(steps // 3, steps), 4):
            callers[7].acknowledged[1] = 0
            callers[7].repay()
            it.admin_with("restore", "main", copy, KILL_AT=str(step), wanted=-9)
            it.systemctl("unmask", "pawnd@main")
            it.systemctl("start", "pawnd@main")
            it.await_store("main")
            expect(f"one of two states after step {step}", callers[7].entries() in (0, 1), True)
            it.admin("restore", "main", copy)
            expect(f"the restored state after step {step}", callers[7].entries(), 0)
            expect(f"what commands left after step {step}", it.leftovers(), [])
            expect(f"the files after step {step}", sorted(os.listdir(it.place("lib/main")))[0], "books.db")
        callers[7].acknowledged[1] = callers[7].sent[1] = 0
        it.admin("split", "main", "west", 8)
        callers[7].repay(), callers[7].look_up(), callers[8].look_up()
        expect_all_is_well(it)


def a_full_disk_of_a_store():
    """A store's own disk is named when it is full, by the commands and by the state, and nothing has changed."""
    if os.geteuid():
        not_tried("a store on a full disk of its own", "this is not root")
        return
    with Machine() as it, it.own_disk("main"):
        callers = [it.book(number, pledges=1) for number in (7, 8)]
        it.admin("copy", "main")
        folder = os.path.join(it.stores, "main")
        with it.filled(folder):
            for words in (("split", "main", "west", 8), ("remove-book", 8), ("restore", "main", "newest")):
                said = it.admin(*words, wanted=1)
                expect(f"{words}: {said}", f"the disk of {folder} is full" in said and "are missing" in said, True)
                for caller in callers:
                    caller.look_up()
            wrong = it.status()["wrong"]
            expect(f"what is wrong: {wrong}", [f"the disk of {folder} is nearly full" in line for line in wrong], [True])
        expect("the books", (books_in(it.path("main")), it.lines()), ({7, 8}, {}))


def the_name_of_a_store_elsewhere():
    """No command makes a store here by the name of one that another machine serves: the map would turn books to that
    machine, which does not have them."""
    with Machine() as it:
        caller = it.book(7, pledges=1)
        it.admin("copy", "main")
        it.write("etc/stores/east.conf", "ADDRESS=127.0.0.1:1\n")
        it.admin("reload")
        for words in (("split", "main", "east", 7), ("restore-book", 7, it.newest("main"), "east"), ("store", "east")):
            said = it.admin(*words, wanted=1)
            expect(f"{words}: {said}", "choose another name. Nothing was changed" in said, True)
            caller.look_up()
        expect("what was made", (it.lines(), os.path.exists(it.path("east")), it.status()["wrong"]), ({}, False, []))
        it.admin("split", "main", "west", 7)
        caller.look_up()


if __name__ == "__main__":
    main_with(
        PACKAGES,
        a_store_is_divided_under_load,
        a_store_for_the_proxy_of_another_machine,
        a_book_of_a_store_that_was_moved_away,
        parts_that_are_not_the_whole_are_refused,
        a_part_without_a_copy_changes_nothing,
        a_division_that_stops_after_the_map_was_turned,
        nobody_opens_a_store_that_is_divided,
        a_full_disk,
        a_disk_that_fills_meanwhile,
        a_store_on_a_disk_of_its_own,
        a_full_disk_of_a_store,
        the_name_of_a_store_elsewhere,
    )
