"""Verbs of `pawnd-admin` that run at the same time: the same one twice, two on one store, and one store beside another
that is held up; all while brokers work. Every change that was acknowledged is looked up."""
import fcntl
import os
import shutil
import subprocess
import time

from tests.library.checks import expect
from tests.library.operator.admin_machine import ADMIN, PACKAGES, Machine, await_load, load
from tests.library.operator.admin_places import books_in, expect_no_fewer_places, places_of
from tests.library.packages import main_with


def begun(machine, *words, **environment):
    return subprocess.Popen(
        [ADMIN, *map(str, words)], env={**machine.environment, **environment}, stdin=subprocess.DEVNULL,
        stdout=subprocess.PIPE, stderr=subprocess.PIPE, text=True,
    )


def both(machine, first, second):
    """How two commands end that run at the same time, and what they say."""
    running = [begun(machine, *words) for words in (first, second)]
    said = [" ".join(it.communicate(timeout=900)) for it in running]
    return [it.returncode for it in running], said


def the_same_verb_twice():
    """Each ends, and what is there afterwards is what one of them alone would have left."""
    with Machine() as it:
        callers = {number: it.book(number, pledges=2) for number in (7, 8, 9)}
        with load(callers[7], callers[9]):
            await_load(callers[7])
            before = places_of(it)
            ends, said = both(it, ("copy", "main"), ("copy", "main"))
            expect(f"two copies: {said}", ends, [0, 0])
            ends, said = both(it, ("split", "main", "west", 8), ("split", "main", "west", 8))
            expect(f"two splits: {said}", ends, [0, 0])
            ends, said = both(it, *(("new-key", 8, "--key-to", it.place(name)) for name in "ab"))
            expect(f"two new keys: {said}", ends, [0, 0])
            keys = [open(it.place(name)).read().strip() for name in "ab"]
            taken = [key for key in keys if callers[8].request("GET", "/pledges/1", key=key)[0] == 200]
            expect("how many of two new keys are taken", len(taken), 1)
            callers[8].key = taken[0]
            await_load(callers[7])
        expect_no_fewer_places(before, places_of(it), callers)
        for caller in callers.values():
            caller.look_up()
        ends, said = both(it, ("remove-book", 8), ("remove-book", 8))
        expect(f"two removals: {said}", ends, [0, 0])
        expect("book 8", callers[8].request("GET", "/pledges/1")[0], 404)
        ends, said = both(it, *(("book", 11, "--name", name, "--key-to", it.place(name)) for name in "AB"))
        expect(f"two books of one number: {said}", sorted(ends), [0, 1])
        ends, said = both(it, ("store", "north"), ("store", "south"))
        expect(f"two stores: {said}", ends, [0, 0])
        ports = {open(it.place("etc/stores", name + ".conf")).read() for name in ("north", "south")}
        expect("their ports", len(ports), 2)
        it.admin("copy", "north"), it.admin("copy", "south")
        expect("what is wrong", it.status()["wrong"], [])
        expect("what commands left", it.leftovers(), [])


def a_restore_that_waits_for_a_copy():
    """The newest copy is the one that is the newest when the wait ends."""
    with Machine() as it:
        it.book(7, pledges=1)
        it.admin("copy", "main")
        older = it.newest("main")
        with it.held_up("main"):
            running = begun(it, "restore", "main", "newest")
            expect("it waits", "waiting for it" in running.stderr.readline(), True)
            newer = older
            while os.path.exists(newer):
                newer = os.path.join(os.path.dirname(older), time.strftime("%Y%m%dT%H%M%SZ", time.gmtime()))
            shutil.copytree(older, newer)
        said = " ".join(running.communicate(timeout=900))
        expect(f"the copy that was restored: {said}", (running.returncode, f"as at {os.path.basename(newer)}" in said), (0, True))


def two_verbs_on_one_store():
    """A copy, a split, a restore and a removal at the same time: one after the other, in an order of their own."""
    with Machine() as it:
        callers = {number: it.book(number, pledges=2) for number in (7, 8, 9)}
        it.admin("copy", "main")
        with load(callers[7]):
            before = places_of(it)
            running = [begun(it, *words) for words in (
                ("split", "main", "west", 8), ("copy", "main"), ("remove-book", 9),
                ("restore-book", 8, it.newest("main"), "north"),
            )]
            said = [" ".join(one.communicate(timeout=900)) for one in running]
            await_load(callers[7])
        ends = [one.returncode for one in running]
        # Whichever of the two comes first with book 8, the other one is refused.
        expect(f"the ends: {said}", (ends[1:3], sorted((ends[0], ends[3]))[0]), ([0, 0], 0))
        del callers[9]
        expect_no_fewer_places(before, places_of(it), callers)
        for caller in callers.values():
            caller.look_up()
        expect("the books of main", books_in(it.path("main")), {7} if ends[0] == 0 else {7, 8})
        expect("what commands left", it.leftovers(), [])


def a_store_that_is_held_up():
    """A command that works for long on one store holds up no other; a second one on the same store says that it waits,
    and gives up in the end."""
    with Machine() as it:
        it.store("west")
        callers = {7: it.book(7, pledges=1), 8: it.book(8, "west", pledges=1)}
        handle = os.open(it.place("backups/main"), os.O_RDONLY)
        fcntl.flock(handle, fcntl.LOCK_EX)
        it.admin("copy", "west"), it.admin("new-key", 8, "--key-to", it.place("new"))
        it.admin("store", "north"), it.admin("restore-book", 8, it.newest("west"), "east")
        begin = time.monotonic()
        for words in (
            ("copy", "main"), ("split", "main", "south", 7), ("remove-book", 7), ("restore", "main", "newest"),
        ):
            said = it.admin(*words, wanted=1, WAIT="1")
            named = "waiting for it" in said and "still works on the store main" in said or "no copy of" in said
            expect(f"{words} when main is held up: {said}", named, True)
        expect("how long they waited", time.monotonic() - begin < 60, True)
        it.status()
        callers[7].look_up()
        os.close(handle)
        it.admin("copy", "main")
        expect("what is wrong", [line for line in it.status()["wrong"] if "north" not in line], [])


if __name__ == "__main__":
    main_with(
        PACKAGES, the_same_verb_twice, a_restore_that_waits_for_a_copy, two_verbs_on_one_store, a_store_that_is_held_up,
    )
