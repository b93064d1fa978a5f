"""`pawnd-admin status`: each thing that keeps a broker from working is WRONG, whatever else is wrong; and what it reads
of a served store is what SQLite reads of a copy."""
import json
import os
import shlex
import shutil
import sqlite3
import sys
import time

from tests.library.checks import expect, not_tried
from tests.library.filled_stores import fill_store
from tests.library.operator.admin_machine import PACKAGES, Machine, await_load, load
from tests.library.packages import main_with
from tests.library.paths import PROGRAM, TOP
from tests.library.tables import opened


def expect_wrong(machine, *wanted):
    """Each of these texts is in a complaint of its own, and nothing else is complained of."""
    wrong = machine.status()["wrong"]
    for text in wanted:
        expect(f"{text!r} in {wrong}", sum(text in line for line in wrong), 1)
    expect(f"what else is wrong: {wrong}", len(wrong), len(wanted))


def tables_of_a_served_store():
    """Read page by page, while it is written, and compared with what SQLite finds in the same file when it stands
    still."""
    sys.path.insert(0, os.path.join(TOP, "deploy/admin"))
    import reading

    with Machine() as it:
        callers = [it.book(number, pledges=2) for number in range(1, 6)]
        with load(*callers):
            for _ in range(10):
                await_load(*callers)
                least = sum(sum(caller.acknowledged.values()) for caller in callers)
                found = reading.contents_of(it.path("main"))
                most = sum(sum(caller.sent.values()) for caller in callers)
                entries = found.meta["rows"] - 5 - 5 - 20
                expect(f"{least} {entries} {most}", least <= entries <= most, True)
                expect("the books", sorted(found.books), [1, 2, 3, 4, 5])
        it.systemctl("stop", "pawnd@main")
        for path in (it.path("main"), large_store(it.place("large"))):
            found = reading.contents_of(path)
            with opened(path) as tables:
                books = {
                    book: {"key": key, "name": name, "capacity": capacity, "pledges": pledges}
                    for book, key, name, capacity, pledges in tables.execute(
                        "SELECT book, book_key, title, capacity, pledges FROM books"
                    )
                }
                expect(f"the books of {path}", found.books == books, True)
                expect("its numbers", found.meta, dict(tables.execute("SELECT name, value FROM meta")))


def large_store(path):
    """Many books, so that their table has pages above its rows."""
    fill_store(path, 3000, 1)
    return path


def stores_that_are_away_or_damaged():
    """One bad store hides no other."""
    with Machine() as it:
        for name in ("west", "north", "east"):
            it.store(name)
        callers = {"main": it.book(7, pledges=1), "west": it.book(8, "west", pledges=1), "north": it.book(9, "north"),
                   "east": it.book(10, "east")}
        for name in callers:
            it.admin("copy", name)
        expect_wrong(it)
        it.systemctl("stop", "pawnd@west"), it.systemctl("stop", "pawnd@north"), it.systemctl("stop", "pawnd@east")
        with open(it.path("north"), "r+b") as file:
            file.write(b"x" * 4096)
        shutil.rmtree(it.place("lib/east"))
        told = it.status()
        expect("which answer", {state["store"]: state["answers"] for state in told["stores"]},
               {"main": True, "west": False, "north": False, "east": False})
        wrong = told["wrong"]
        for text in ("store west: does not answer on", "store west: does not answer through the proxy: 502",
                     "tables of " + it.path("north"), "store east: its file"):
            expect(f"{text!r} in {wrong}", any(text in line for line in wrong), True)
        expect("of main nothing is wrong", [line for line in wrong if "store main" in line], [])
        it.write("etc/stores/west.conf", "PORT=none\n")
        expect("a file of a store that is no good", "neither a line PORT" in str(it.status()["wrong"]), True)
        it.write("etc/books.map", "8 west;\nnonsense\n")
        expect("a line that is none", "books.map, line 2" in str(it.status()["wrong"]), True)
        expect("how long it takes", timed(it.status) < 15, True)


def a_store_that_is_being_started():
    """It reads its file before it listens: the status says so, and that nothing has to be done as long as it does. If it
    has failed again and again, the status says that."""
    with Machine() as it:
        it.book(7)
        it.admin("copy", "main")
        it.systemctl("stop", "pawnd@main")
        it.write("reads-for-long", "#!/bin/sh\nexec sleep 60\n", 0o755)
        it.environment["PAWND"] = it.place("reads-for-long")
        it.systemctl("start", "pawnd@main")
        expect_wrong(it, "it is being started, and answers when", "store main: does not answer through the proxy")
        it.write("journal", "pawnd@main.service: Failed with result 'exit-code'.\n" * 3)
        expect_wrong(it, "its service keeps ending, 3 times in the last ten minutes. `journalctl -u pawnd@main.service",
                     "store main: does not answer through the proxy")


def timed(do):
    begun = time.monotonic()
    do()
    return time.monotonic() - begun


def the_proxy_and_its_files():
    with Machine() as it:
        it.book(7)
        it.admin("copy", "main")
        it.write("etc/books.map", "# changed by hand\n")
        expect_wrong(it, "nginx has not taken up " + it.place("etc/books.map"))
        it.admin("reload")
        expect_wrong(it)
        for hours, how in (-1, "came from another machine with its time"), (240, "was written while the clock was ahead"):
            it.write("etc/books.map", f"# {how}\n")
            os.utime(it.place("etc/books.map"), (time.time() + 3600 * hours,) * 2)
            expect_wrong(it, "nginx has not taken up " + it.place("etc/books.map"))
            it.admin("reload")
            expect_wrong(it)
        it.make_certificate(days=5)
        it.admin("reload")
        expect_wrong(it, "the certificate is good for 4 days")
        with open(it.place("nginx.conf")) as file:
            whole = file.read()
        it.write("nginx.conf", whole + "nonsense;\n")
        expect_wrong(it, "nginx refuses its files", "the certificate is good for 4 days")
        it.write("nginx.conf", whole)
        it.stop_nginx()
        expect_wrong(it, "nginx does not run", "store main: does not answer through the proxy")


def books_and_lines():
    """Books without a line, lines without a book, a book that is in two stores, and what was not ended."""
    with Machine() as it:
        it.store("west")
        it.book(7), it.book(8, "west")
        it.admin("copy", "main"), it.admin("copy", "west")
        it.write("etc/books.map", "")
        it.admin("reload")
        expect_wrong(it, "book 8 is in the store west and has no line")
        it.write("etc/books.map", "8 west;\n7 west;\n9 south;\n")
        it.admin("reload")
        expect_wrong(it, "book 7 has a line for the store west, and is not there: main has rows of it. If the line were removed, "
                     f"rows in main would answer, however old they are. `pawnd-admin restore-book 7 {it.newest('main')} NEW`",
                     "book 9 has a line for the store south, and there is no such store: if the store is on another machine, "
                     "`echo ADDRESS=")
        it.write("etc/books.map", "8 west;\n")
        it.admin("reload")
        it.admin_with("split", "main", "north", 7, PLANT="the_new_store_does_not_start", wanted=1)
        expect_wrong(it, "a command did not end: run it again, `pawnd-admin split main north 7`. Until it has ended, north may "
                     "not be served")
        it.write("slow", f'#!/bin/sh\n[ "$1" != serve ] || sleep 3\nexec {shlex.quote(PROGRAM)} "$@"\n', 0o755)
        it.admin("split", "main", "north", 7, PAWND=it.place("slow"))
        expect_wrong(it)
        it.admin("restore-book", 7, it.newest("north"), "south")
        notes = it.status()["notes"]
        in_two = [line for line in notes if "book 7 is in two stores: south answers" in line]
        expect(f"a book in two stores: {notes}", len(in_two), 1)
        expect_wrong(it)


def commands_that_did_not_end():
    """One complaint, which says what to run, whatever the store of the command lacks meanwhile; while a command is at work
    there is none. What another store lacks is said all the same."""
    with Machine() as it:
        it.book(7, pledges=1), it.store("west"), it.book(8, "west")
        it.admin("copy", "main"), it.admin("copy", "west")
        first = "restore-book", 7, it.newest("main"), "first"
        it.admin_with(*first, KILL_AT="0", STEPS=it.place("steps"))
        steps = it.steps()
        named = ("sysusers.d", "lib/first/books.db', -1", "'start', 'pawnd@", "'enable', '--now'", "books.map", "nginx")
        for place, text in enumerate(named):
            step = next(number for number, step in enumerate(steps, 1) if text in step and number > 30)
            words = *first[:3], f"s{place}"
            it.admin_with(*words, KILL_AT=str(step), wanted=-9)
            expect_wrong(it, f"a command did not end: run it again, `pawnd-admin {' '.join(map(str, words))}`")
            with it.held_up(words[3]):
                expect_wrong(it)
                at_work = [line for line in it.status()["notes"] if "a command is at work: `pawnd-admin restore-book 7" in line]
                expect("what is at work", len(at_work), 1)
            it.admin(*words)
        it.admin_with(*first[:3], "last", KILL_AT=str(step), wanted=-9)
        it.systemctl("stop", "pawnd@west")
        expect_wrong(it, "a command did not end", "store west: does not answer on", "store west: does not answer through")


def a_book_that_is_back():
    """The note says how it goes away: the book is taken out again, or its last state is removed."""
    with Machine() as it:
        it.book(7, pledges=1)
        it.admin("copy", "main"), it.admin("remove-book", 7)
        removed = os.path.join(it.copies, "removed")
        for place in ("west", "north"):
            folder = os.path.join(removed, max(os.listdir(removed)))
            it.admin("restore-book", 7, folder, place)
            told = [line for line in it.status()["notes"] if "book 7 was taken out" in line]
            remove, rest = "`pawnd-admin remove-book 7`", f"`rm -r {folder}`"
            expect(f"what it says: {told}", [(remove in line, rest in line) for line in told], [(True, True)])
            if place == "west":
                it.admin("remove-book", 7)
                shutil.rmtree(folder)
        shutil.rmtree(folder)
        expect("the notes", [line for line in it.status()["notes"] if "book 7 was taken out" in line], [])


def copies_and_disks():
    """No copy, an old one, one from the future, one that holds more than the store; none off the machine; a full
    disk."""
    if os.geteuid():
        not_tried("copies and disks", "this is not root")
        return
    with Machine(small="48m") as it:
        caller = it.book(7, pledges=1)
        expect_wrong(it, "store main: has no copy")
        it.admin("copy", "main")
        expect_wrong(it)
        copy = it.newest("main")
        redate(copy, "20200101T000000Z")
        expect_wrong(it, "store main: has no copy of the last 26 hours")
        redate(os.path.join(it.copies, "main", "20200101T000000Z"), "20990101T000000Z")
        expect_wrong(it, "dated in the future", "store main: has no copy:")
        shutil.rmtree(os.path.join(it.copies, "main", "20990101T000000Z"))
        it.admin("copy", "main")
        it.write("units/enabled-pawnd-offsite@main.timer", "")
        expect_wrong(it, "no copy was sent off this machine yet")
        sent(it, "main", 49)
        expect_wrong(it)
        expect("how old it is", it.status()["stores"][0]["offsite"]["hours"], 49.0)
        sent(it, "main", 51)
        expect_wrong(it, "the newest copy off this machine is 51 hours old")
        sent(it, "main", -2)
        expect_wrong(it, "is dated in the future")
        sent(it, "main", 0)
        with it.filled(it.copies):
            expect_wrong(it, f"the disk of {it.copies} is nearly full")
        caller.repay(), it.admin("copy", "main")
        it.systemctl("stop", "pawnd@main")
        tables = sqlite3.connect(it.path("main"), isolation_level=None)
        tables.execute("DELETE FROM entries")
        tables.execute("UPDATE totals SET principal = 1000000")
        tables.execute("UPDATE meta SET value = value - 1 WHERE name = 'rows'")
        tables.close()
        it.systemctl("start", "pawnd@main")
        it.await_store("main")
        expect_wrong(it, "store main: holds less than its newest copy")


def a_disk_that_other_files_fill():
    """What fills the disk of the copies may be beside them."""
    if os.geteuid():
        not_tried("a disk that other files fill", "this is not root")
        return
    with Machine(small="48m") as it:
        it.book(7)
        it.environment["COPIES"] = os.path.join(it.copies, "below")
        os.makedirs(os.path.join(it.copies, "below"))
        with it.filled(it.copies):
            expect_wrong(it, f"`du -xh {it.copies} | sort -h`", "store main: has no copy")


def sent(machine, store, hours):
    """The newest copy off the machine was sent just now, and was made so many hours ago."""
    machine.write(f"offsite/{store}", time.strftime("%Y%m%dT%H%M%SZ\n", time.gmtime(time.time() - 3600 * hours)))


def a_clock_that_was_set_back():
    """All copies that were made before are dated in the future then. They are named together, with what to look at first,
    and nothing advises to remove or to rename a good copy. When the clock is right again, nothing is wrong."""
    with Machine() as it:
        caller = it.book(7, pledges=1)
        for _ in range(4):
            caller.repay(), it.admin("copy", "main")
        names = sorted(os.listdir(os.path.join(it.copies, "main")))
        later = [f"2099010{place}T030000Z" for place in range(1, 4)]
        for name, other in zip(names[1:], later, strict=True):
            redate(os.path.join(it.copies, "main", name), other)
        expect_wrong(it, f"3 copies, {later[0]} to {later[2]}, are dated in the future")
        wrong = it.status()["wrong"][0]
        for text in ("`timedatectl`", "leave them where they are", "do not remove them"):
            expect(f"{text!r} in {wrong}", text in wrong, True)
        for text in ("rename", "or remove"):
            expect(f"{text!r} in {wrong}", text in wrong, False)
        said = it.admin("copy", "main")
        expect(f"what `copy` says: {said}", ("are dated in the future" in said, "remove it" in said), (True, False))
        said = it.admin("restore", "main", "newest", wanted=1)
        expect(f"what `restore` says: {said}", f"3 copies, {later[0]} to {later[2]}, are dated in the future" in said, True)
        caller.look_up()
        expect("they stay", [os.path.exists(os.path.join(it.copies, "main", name)) for name in later], [True] * 3)
        away = it.place("away")
        os.mkdir(away)
        for name in later:
            os.rename(os.path.join(it.copies, "main", name), os.path.join(away, name))
        expect_wrong(it)
        it.admin("restore", "main", os.path.join(away, later[2]))
        caller.look_up()


def a_copy_of_a_store_that_lost_its_log():
    """A copy that is made after a loss does not end the complaint. The copy that the status names ends it, and what a
    command takes out causes none."""
    with Machine() as it:
        caller = it.book(7, pledges=2)
        it.admin("copy", "main")
        it.systemctl("stop", "pawnd@main")
        shutil.copytree(os.path.dirname(it.path("main")), it.place("older"))
        it.systemctl("start", "pawnd@main")
        it.await_store("main")
        for _ in range(3):
            caller.repay()
        it.admin("copy", "main")
        whole = os.path.basename(it.newest("main"))
        it.systemctl("stop", "pawnd@main")
        for end in ("", "-wal"):
            shutil.copy(it.place("older", "books.db" + end), it.path("main") + end)
        it.systemctl("start", "pawnd@main")
        it.await_store("main")
        expect_wrong(it, f"store main: holds less than its newest copy, {whole}")
        it.admin("copy", "main")
        expect_wrong(it, f"held less than the one before, {whole}")
        it.book(9, pledges=4)
        it.write("etc/pawnd.conf", "KEEP=2\n")
        for _ in range(4):
            it.admin("copy", "main")
            expect_wrong(it, f"held less than the one before, {whole}")
        it.admin("restore", "main", whole)
        caller.look_up()
        expect_wrong(it)
        it.book(8, pledges=1)
        it.admin("copy", "main"), it.admin("remove-book", 8), it.admin("copy", "main")
        expect_wrong(it)


def less_than_the_copy_by_a_command():
    """What a split takes out of a store is not missed, neither while the status looks nor afterwards."""
    with Machine() as it:
        it.book(7, pledges=1), it.book(8, pledges=1)
        it.admin("copy", "main")
        said = it.admin_with("status", "--json", PLANT="the_store_is_divided_meanwhile")
        expect("what is wrong meanwhile", json.loads(said)["wrong"], [])
        expect_wrong(it)
        it.admin("copy", "main")
        expect_wrong(it)
        expect("what commands left", it.leftovers(), [])


def a_store_that_is_not_sent():
    """If the copies of one store go off the machine, those of a new store have to do so, too."""
    with Machine() as it:
        it.store("west")
        it.admin("copy", "main"), it.admin("copy", "west")
        expect_wrong(it)
        it.write("units/enabled-pawnd-offsite@main.timer", "")
        sent(it, "main", 0)
        expect_wrong(it, "store west: is not sent off this machine, as others are")
        it.write("units/enabled-pawnd-offsite@west.timer", "")
        sent(it, "west", 0)
        expect_wrong(it)
        with open(it.place("etc/stores/west.conf")) as file:
            port = file.read().partition("PORT=")[2].strip()
        it.write("etc/stores/west.conf", f"ADDRESS=127.0.0.1:{port}\n")
        expect_wrong(it, "still sends its old copies")


def redate(copy, name):
    with open(os.path.join(copy, "copy.json")) as file:
        note = json.load(file)
    with open(os.path.join(copy, "copy.json"), "w") as file:
        json.dump({**note, "made": name}, file)
    os.rename(copy, os.path.join(os.path.dirname(copy), name))


def a_machine_without_main():
    """It serves stores for the proxy of another machine. If the proxy's own site is enabled, its file of `main` is lost."""
    with Machine() as it:
        it.store("west")
        it.book(10, "west")
        it.admin("copy", "west")
        os.rename(it.place("etc/stores/main.conf"), it.place("main.conf"))
        it.write("etc/books.map", "")
        it.admin("reload")
        expect_wrong(it)
        it.write("etc/books.map", "10 west;\n")
        os.makedirs(it.place("system/nginx/sites-enabled"))
        it.write("system/nginx/sites-enabled/pawnd", "")
        it.admin("reload")
        expect_wrong(it, "there is no store main")


def a_file_of_another_user():
    """A store that its user may not read is sound, and nothing has to be put back."""
    if os.geteuid():
        not_tried("a file of another user", "this is not root")
        return
    with Machine() as it:
        it.book(7, pledges=1)
        it.admin("copy", "main")
        expect_wrong(it)
        os.link(it.path("main"), it.place("second"))
        expect_wrong(it, "has a second name, so it does not start again")
        os.unlink(it.place("second"))
        os.chown(it.path("main"), 65534, 65534)
        expect_wrong(it, f"`chown -R pawnd-main: {os.path.dirname(it.path('main'))}`")


def a_copy_of_another_store_among_its_own():
    """It is not taken for a copy of this store."""
    with Machine() as it:
        it.store("west")
        it.book(7, pledges=1)
        it.admin("copy", "main")
        own = it.newest("main")
        time.sleep(1.1), it.admin("copy", "west")
        other = os.path.join(it.copies, "main", os.path.basename(it.newest("west")))
        shutil.copytree(it.newest("west"), other)
        found = [one["copy"]["name"] for one in it.status()["stores"] if one["store"] == "main"]
        expect("the newest copy of main", found, [os.path.basename(own)])
        said = it.admin("restore", "main", "newest")
        expect(f"which one is put back: {said}", f"as at {os.path.basename(own)}" in said, True)


def services_that_do_not_start_at_boot():
    with Machine() as it:
        it.book(7)
        it.admin("copy", "main")
        os.unlink(it.place("units/enabled-pawnd@main.service"))
        os.unlink(it.place("units/enabled-pawnd-copy@main.timer"))
        expect_wrong(it, "its service is not enabled", "no copies are made of it")


def a_copy_of_a_replicated_folder_that_is_away():
    """The machine that has it is named, by what the mount of GlusterFS says in its files."""
    with Machine() as it:
        it.book(7)
        it.admin("copy", "main")
        with open(it.place("etc/stores/main.conf"), "a") as file:
            file.write("VOLUME=books\n")
        it.write("units/enabled-pawnd-replicated@main.service", "")
        active = os.path.join(it.stores, "main/.meta/graphs/active")
        os.makedirs(f"{active}/books-replicate-0")
        for number in range(3):
            os.makedirs(f"{active}/books-client-{number}/options")
            it.write(f"lib/main/.meta/graphs/active/books-client-{number}/options/remote-host", f"10.0.0.{number + 1}\n")
        for up, wanted in (("111", []), ("101", ["2 of 3 copies of its folder are in reach, and not the copy of 10.0.0.2."]),
                           ("100", ["1 of 3 copies of its folder are in reach, and not the copy of 10.0.0.2 and 10.0.0.3."])):
            text = "".join(f"child_up[{place}] = {word}\npending_reads[{place}] = 0\n" for place, word in enumerate(up))
            it.write("lib/main/.meta/graphs/active/books-replicate-0/private", text)
            expect_wrong(it, *wanted)


def a_rule_that_is_gone():
    """What keeps the store's user to its port is looked at, for each store that is served; a reload sets it again."""
    with Machine() as it:
        it.book(7)
        it.admin("copy", "main")
        expect_wrong(it)
        os.unlink(it.place("units/rule-pawnd-main"))
        expect_wrong(it, "store main: its rule in nftables is gone")
        it.systemctl("reload", "pawnd@main")
        expect_wrong(it)


def it_copies_nothing():
    """No file is made, and no lock is waited for."""
    with Machine() as it:
        it.book(7)
        it.admin("copy", "main")
        tops = [it.stores, it.copies, it.settings]
        before = [sorted(os.walk(top)) for top in tops]
        it.status()
        expect("the files", [sorted(os.walk(top)) for top in tops], before)


if __name__ == "__main__":
    main_with(
        PACKAGES,
        tables_of_a_served_store,
        stores_that_are_away_or_damaged,
        a_store_that_is_being_started,
        the_proxy_and_its_files,
        books_and_lines,
        commands_that_did_not_end,
        a_book_that_is_back,
        copies_and_disks,
        a_disk_that_other_files_fill,
        a_clock_that_was_set_back,
        a_copy_of_a_store_that_lost_its_log,
        less_than_the_copy_by_a_command,
        a_store_that_is_not_sent,
        a_machine_without_main,
        a_file_of_another_user,
        a_copy_of_another_store_among_its_own,
        services_that_do_not_start_at_boot,
        a_copy_of_a_replicated_folder_that_is_away,
        a_rule_that_is_gone,
        it_copies_nothing,
    )
