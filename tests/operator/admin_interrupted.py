"""Verbs of `pawnd-admin` that are ended by Ctrl-C in their middle, and run again. Ctrl-C reaches the verb and the program
that it runs at that moment. And verbs whose terminal is lost, and another verb in the place of the repeat of one that has
begun."""
import os
import shlex
import shutil
import signal
import subprocess

from tests.library.checks import expect
from tests.library.operator.admin_machine import ADMIN, PACKAGES, Machine
from tests.library.operator.admin_places import books_in
from tests.library.packages import main_with
from tests.library.paths import PROGRAM

# In the place of the program: at its check of this number the keys are pressed, or the terminal is lost.
PRESSED = """#!/bin/sh
if [ "$1" = check ]; then
    echo >>{count}
    [ $(wc -l <{count}) != {at} ] || {{ kill -{signal} 0; sleep 20; }}
fi
exec {program} "$@"
"""


def run_until(it, at, name, output, *words):
    """Runs a verb. At a check of the program, it and the program get the signal of this name."""
    count = it.place("checks")
    if os.path.exists(count):
        os.unlink(count)
    paths = {"count": shlex.quote(count), "program": shlex.quote(PROGRAM)}
    it.write("pressed", PRESSED.format(at=at, signal=name, **paths), 0o755)
    return subprocess.run(
        [ADMIN, *map(str, words)], env={**it.environment, "PAWND": it.place("pressed")}, stdout=output, stderr=output,
        text=True, timeout=300, stdin=subprocess.DEVNULL, start_new_session=True,
        preexec_fn=lambda: signal.signal(signal.SIGINT, signal.SIG_DFL),
    )


def interrupted(it, at, *words):
    """What a verb says that is interrupted at a check of the program."""
    ran = run_until(it, at, "INT", subprocess.PIPE, *words)
    said = ran.stdout + ran.stderr
    expect(f"how {words} ends that is interrupted at check {at}: {said}", (ran.returncode, "told to end" in said), (1, True))
    return said


def a_restore():
    """Whatever the store had becomes a copy. If the verb is interrupted before, the newest copy is the same as before."""
    with Machine() as it:
        caller = it.book(7, pledges=1)
        it.admin("copy", "main")
        copy = os.path.basename(it.newest("main"))
        for at in (1, 2):
            caller.acknowledged[1] = caller.sent[1] = caller.entries()
            caller.repay()
            rows, copies = caller.entries(), sorted(os.listdir(os.path.join(it.copies, "main")))
            interrupted(it, at, "restore", "main", copy)
            expect(f"the copies after check {at}", sorted(os.listdir(os.path.join(it.copies, "main"))), copies)
            expect(f"it is served as before after check {at}", caller.entries(), rows)
            it.admin("restore", "main", copy)
            expect(f"the restored state after check {at}", caller.entries(), 0)
            names = os.listdir(os.path.join(it.copies, "main"))
            expect("what is kept as unsound", [name for name in names if "unsound" in name], [])
        expect("what commands left", it.leftovers(), [])


def a_removal():
    with Machine() as it:
        callers = {number: it.book(number, pledges=1) for number in (7, 9)}
        interrupted(it, 3, "remove-book", 9)
        expect("the books of the newest copy", books_in(os.path.join(it.newest("main"), "books.db")), {7, 9})
        for caller in callers.values():
            caller.repay(), caller.look_up()
        it.admin("remove-book", 9)
        callers[7].look_up()
        expect("the books", books_in(it.path("main")), {7})
        expect("what commands left", it.leftovers(), [])


def a_split():
    with Machine() as it:
        callers = {number: it.book(number, pledges=1) for number in (7, 8)}
        it.admin("copy", "main")
        for at in (1, 2, 3):
            interrupted(it, at, "split", "main", "west", 8)
            for caller in callers.values():
                caller.repay(), caller.look_up()
            expect(f"the books after check {at}", (books_in(it.path("main")), it.lines()), ({7, 8}, {}))
            expect("those of the newest copy", books_in(os.path.join(it.newest("main"), "books.db")), {7, 8})
        it.admin("split", "main", "west", 8)
        for caller in callers.values():
            caller.look_up()
        expect("the books", (books_in(it.path("main")), books_in(it.path("west"))), ({7}, {8}))
        expect("what commands left", it.leftovers(), [])


def a_lost_terminal():
    """Nothing that the verb says can be written any more, as when the operator's line to the machine is cut. With the
    signal of a terminal that is lost, the verb ends, and the store is served as before. Without it, the verb does all."""
    with Machine() as it:
        callers = {number: it.book(number, pledges=1) for number in (7, 8)}
        for at in (1, 2, 0):
            reader, writer = os.pipe()
            os.close(reader)
            ran = run_until(it, at, "HUP", writer, "split", "main", "west", 8)
            os.close(writer)
            expect(f"how it ends if the terminal is lost at check {at}", ran.returncode, 1 if at else 0)
            for caller in callers.values():
                caller.repay(), caller.look_up()
            expect(f"the books after check {at}", books_in(it.path("main")), {7, 8} if at else {7})
        expect("the books of the new store", books_in(it.path("west")), {8})
        expect("what commands left", it.leftovers(), [])


def begun_and_not_ended(it, *words):
    """A verb has turned its lines when nginx refuses its files. They are mended then, and the store is served."""
    with open(it.place("nginx.conf"), "a") as file:
        file.write("nonsense;\n")
    said = it.admin(*words, wanted=1)
    expect(f"{words}: {said}", "nothing else ends it" in said, True)
    with open(it.place("nginx.conf")) as file:
        whole = file.read().removesuffix("nonsense;\n")
    it.write("nginx.conf", whole)


def another_verb_in_its_place():
    """A verb has begun, and did not end. No other verb that moves or makes books begins with one of its stores: the first
    one could never end then. When it was run again, they do."""
    with Machine() as it:
        it.store("west")
        callers = {number: it.book(number, pledges=1) for number in (7, 8, 9)}
        callers[10] = it.book(10, "west", pledges=1)
        it.admin("copy", "main")
        begun_and_not_ended(it, "split", "main", "north", 8, 9)
        others = (
            ("remove-book", 9), ("restore-book", 8, it.newest("main"), "east"), ("split", "west", "north", 10),
            ("split", "main", "east", 7), ("book", 12, "--name", "New Street", "--store", "north", "--key-to", it.place("12")),
        )
        for words in others[:-1]:
            said = it.admin(*words, wanted=1)
            expect(f"{words}: {said}", "first run it again: `pawnd-admin split main north 8 9`" in said, True)
        for words in (("store", "north"), others[-1]):
            said = it.admin(*words, wanted=1)
            expect(f"{words}: {said}", "first run it again: `pawnd-admin split main north 8 9`" in said, True)
        it.admin("restore", "main", "newest")
        it.admin("split", "main", "north", 8, 9)
        expect("the books", (books_in(it.path("main")), books_in(it.path("north"))), ({7}, {8, 9}))
        it.admin("copy", "west")
        again = "restore-book", 10, it.newest("west"), "back"
        begun_and_not_ended(it, *again)
        said = it.admin("remove-book", 10, wanted=1)
        expect(f"a removal: {said}", f"first run it again: `pawnd-admin {' '.join(map(str, again))}`" in said, True)
        said = it.admin(*again)
        expect(f"what it says of the store that answers: {said}", "the store back may have" in said, False)
        for words in (("remove-book", 9), others[-1]):
            it.admin(*words)
        for number in (7, 8, 10):
            callers[number].repay(), callers[number].look_up()
        expect("what is wrong", [line for line in it.status()["wrong"] if "has no copy" not in line], [])
        expect("what commands left", it.leftovers(), [])


def a_line_that_was_written_by_hand():
    """The status does not advise it while a command is to be run again. If it was done all the same, the command ends with a
    store that is served at the next boot, and copied."""
    with Machine() as it:
        caller = it.book(7, pledges=1)
        it.admin("copy", "main")
        words = "restore-book", 7, it.newest("main"), "back"
        it.admin_with(*words, PLANT="the_new_store_does_not_start", wanted=1)
        it.systemctl("unmask", "--runtime", "pawnd@back"), it.systemctl("start", "pawnd@back")
        it.await_store("back")
        wrong = it.status()["wrong"]
        expect(f"what is to be done: {wrong}", ["`pawnd-admin restore-book 7" in line for line in wrong], [True])
        it.write("etc/books.map", "7 back;\n")
        it.admin("reload"), caller.repay()
        it.admin(*words)
        caller.look_up()
        expect("what is wrong", [line for line in it.status()["wrong"] if "has no copy" not in line], [])


def a_copy_that_is_gone():
    """A book was to be put back out of a copy that is gone by now. No other command begins in the place of this one until it
    is given up, as the message says."""
    with Machine() as it:
        caller = it.book(7, pledges=1)
        it.admin("copy", "main")
        older, path = it.place("older"), it.place("etc/pending/restore-7.json")
        shutil.copytree(it.newest("main"), older)
        caller.repay()
        words = "restore-book", 7, older, "back"
        it.admin_with(*words, PLANT="the_new_store_does_not_start", wanted=1)
        shutil.rmtree(older)
        for place in ("back", "north"):
            said = it.admin("restore-book", 7, it.newest("main"), place, wanted=1)
            expect(f"into {place}: {said}", f"first run it again: `pawnd-admin {' '.join(map(str, words))}`" in said, True)
        said = it.admin(*words, wanted=1)
        expect(f"what it says: {said}", f"give it up: `rm {path}`, then `pawnd-admin store back`" in said, True)
        caller.look_up()
        os.unlink(path), it.admin("store", "back")
        it.admin("restore-book", 7, it.newest("main"), "north")
        expect("book 7", (it.lines(), caller.entries()), ({7: "north"}, 0))


if __name__ == "__main__":
    main_with(PACKAGES, a_restore, a_removal, a_split, a_lost_terminal, another_verb_in_its_place,
              a_line_that_was_written_by_hand, a_copy_that_is_gone)
