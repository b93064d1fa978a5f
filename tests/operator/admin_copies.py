"""`pawnd-admin copy` and `restore`: copies of a store that is written all the time, copies that were looked into, old
ones that are removed, and a restore onto an empty machine."""
import contextlib
import datetime
import json
import os
import re
import shlex
import shutil
import sqlite3
import stat
import subprocess
import time

from tests.library.checks import Failed, expect
from tests.library.filled_stores import fill_store
from tests.library.keys import BROKER
from tests.library.operator.admin_machine import ADMIN, PACKAGES, Caller, Machine, await_load, load
from tests.library.operator.admin_places import books_in, row_counts
from tests.library.packages import main_with
from tests.library.paths import PROGRAM, TOP
from tests.library.waiting import wait_for

TIME = "%Y%m%dT%H%M%SZ"


def copies(machine, name="main"):
    return sorted(it for it in os.listdir(os.path.join(machine.copies, name)) if it[0] == "2")


def note_of(copy):
    with open(os.path.join(copy, "copy.json")) as file:
        return json.load(file)


def copies_under_load():
    """Each copy holds what was acknowledged before it was begun, nothing that was not sent before it ended, and no
    request is held up or refused."""
    with Machine() as it:
        callers = [it.book(number, pledges=2) for number in (7, 8)]
        with load(*callers):
            for _ in range(5):
                await_load(*callers, more=10)
                before = {caller.book: sum(caller.acknowledged.values()) for caller in callers}
                it.admin("copy", "main")
                after = {caller.book: sum(caller.sent.values()) for caller in callers}
                found = {book: rows - 2 for book, rows in row_counts(os.path.join(it.newest("main"), "books.db")).items()}
                expect(f"{before} {found} {after}",
                       all(before[book] <= found[book] <= after[book] for book in found), True)
        for caller in callers:
            caller.look_up()
        expect("what commands left", it.leftovers(), [])


def entered_while_a_copy_is_checked():
    """It is not in the copy, which is named by the time at which it was begun: what brokers enter again after a loss."""
    with Machine() as it:
        caller = it.book(7, pledges=1)
        waits = f'[ "$1" != check ] || {{ touch {it.place("checked")}; sleep 2; }}'
        it.write("slow", f'#!/bin/sh\n{waits}\nexec {shlex.quote(PROGRAM)} "$@"\n', 0o755)
        running = subprocess.Popen(
            [ADMIN, "copy", "main"], env={**it.environment, "PAWND": it.place("slow")}, stdin=subprocess.DEVNULL,
            stdout=subprocess.DEVNULL,
        )
        wait_for(lambda: os.path.exists(it.place("checked")), "the check of the copy", 60)
        entered = time.strftime(TIME, time.gmtime())
        expect("a repayment meanwhile", caller.repay(), True)
        expect("the end of the command", running.wait(300), 0)
        copy = it.newest("main")
        expect("the rows of the copy", row_counts(os.path.join(copy, "books.db")), {7: 1})
        expect(f"its time, {copy}, is not later than {entered}", os.path.basename(copy) <= entered, True)
        expect("the time that is written down", note_of(copy)["made"], os.path.basename(copy))


def a_large_store_that_is_written_without_a_pause():
    """The log is begun anew many times while the database is copied. The copy is of one moment all the same, or the
    command says that there is none."""
    with Machine(COPY_PATIENCE="60") as it:
        caller = it.book(5000, pledges=1)
        it.systemctl("stop", "pawnd@main")
        os.unlink(it.path("main"))
        fill_store(it.path("main"), 100, 150, entries=3, bookings=True)
        it.systemctl("start", "pawnd@main")
        caller = Caller(it, 1, BROKER)
        caller.acknowledged, caller.sent = {1: 3}, {1: 3}
        others = [Caller(it, book, BROKER) for book in range(2, 6)]
        for other in others:
            other.acknowledged, other.sent = {1: 3, 2: 3}, {1: 3, 2: 3}
        with load(caller, *others):
            for _ in range(3):
                await_load(caller, more=20)
                before = caller.acknowledged[1]
                it.admin("copy", "main")
                found = row_counts(os.path.join(it.newest("main"), "books.db"))[1] - 150 * 4
                expect(f"{before} {found + 3} {caller.sent[1]}", before <= found + 3 <= caller.sent[1], True)


def a_log_that_is_begun_anew():
    """Between the copy of the database and that of the log: the first attempt is of two moments, so that there is a
    second one. Without the look at the log there would be no right copy."""
    with Machine() as it:
        callers = [it.book(number, pledges=2) for number in (7, 8, 9)]
        with load(*callers):
            for plant in ("the_log_is_begun_anew", "nobody_looks_at_the_log"):
                await_load(*callers)
                before = {caller.book: sum(caller.acknowledged.values()) for caller in callers}
                said, is_right = "", False
                with contextlib.suppress(Failed):
                    said = it.admin_with("copy", "main", PLANT=plant)
                    found = row_counts(os.path.join(it.newest("main"), "books.db"))
                    after = {caller.book: sum(caller.sent.values()) for caller in callers}
                    is_right = all(before[book] <= found.get(book, 0) - 2 <= after[book] for book in before)
                expect(f"a right copy, {plant}: {said}", is_right, plant == "the_log_is_begun_anew")
                if said:
                    expect(f"a second attempt: {said}", "attempts: 1\n" in said, plant != "the_log_is_begun_anew")


def a_copy_without_its_log_is_noticed():
    """The next copy that lacks what the one before had is kept beside it, and the operator is told."""
    with Machine() as it:
        caller = it.book(7, pledges=3)
        it.admin("copy", "main")
        for _ in range(5):
            caller.repay()
        said = it.admin_with("copy", "main", PLANT="the_log_is_not_copied")
        expect(f"a copy without its log: {said}", "a log may have been lost" in said, True)


def a_store_that_is_damaged():
    """No copy is made of it, and the message says where to read on."""
    with Machine() as it:
        it.book(7, pledges=3)
        it.systemctl("stop", "pawnd@main")
        with open(it.path("main"), "r+b") as file:
            file.write(b"spoilt " * 2000)
        said = it.admin("copy", "main", wanted=1)
        expect(f"what it says: {said}", "OPERATING.md, `A store does not start`" in said, True)
        expect("the copies", copies(it), [])


def a_check_that_says_nothing_of_the_store():
    """It ran out of memory, was killed, or the disk of the copies failed: the message does not say that the store is damaged,
    and the status does not. Nor does it say so of an older schema, which is migrated."""
    with Machine() as it:
        it.book(7, pledges=1)
        it.admin("copy", "main")
        for ends, wanted, unwanted in (
            ("echo 'fault 504 Memory' >&2; exit 1", "ran out of memory", "is damaged"),
            ("kill -KILL $$", "was killed", "is damaged"),
            ("echo 'fault 492 Store' >&2; exit 1", "the disk of", "is damaged"),
            ("echo 'fault 501 OldSchema' >&2; exit 1", "FILES.md, `Moving an older file`", "is damaged"),
        ):
            it.write("ends", f"#!/bin/sh\n[ $1 != check ] || {{ {ends}; }}\nexec {shlex.quote(PROGRAM)} \"$@\"\n", 0o755)
            said = it.admin("copy", "main", wanted=1, PAWND=it.place("ends"))
            expect(f"what it says: {said}", (wanted in said, unwanted in said), (True, False))
            wrong = it.status()["wrong"]
            expect(f"what is wrong: {wrong}", [wanted in line for line in wrong], [True] * ("501" in ends))
        it.admin("copy", "main")
        expect("what is wrong", it.status()["wrong"], [])


def a_damaged_book_of_a_store_that_is_served():
    """The message names the section for it. The status says so until a copy is good again, though there is a copy of
    before, which is then put back."""
    with Machine() as it:
        caller = it.book(7, pledges=3)
        it.admin("copy", "main")
        change_by_hand(it, "UPDATE totals SET principal = principal + 1")
        said = it.admin("copy", "main", wanted=1)
        expect(f"what it says: {said}", "fault 513 Damaged" in said and "OPERATING.md, `A damaged book`" in said, True)
        for _ in range(2):
            wrong = it.status()["wrong"]
            expect(f"what is wrong: {wrong}", [("fault 513 Damaged" in it, "`A damaged book`" in it) for it in wrong],
                   [(True, True)])
        change_by_hand(it, "UPDATE totals SET principal = principal - 1")
        it.admin("copy", "main")
        expect("what is wrong with it as it was", it.status()["wrong"], [])
        change_by_hand(it, "UPDATE totals SET principal = principal + 1")
        it.admin("copy", "main", wanted=1)
        it.admin("restore", "main", "newest")
        expect("what is wrong after a copy was put back", it.status()["wrong"], [])
        caller.look_up()
        expect("what commands left", it.leftovers(), [])


def change_by_hand(machine, statement):
    machine.systemctl("stop", "pawnd@main")
    tables = sqlite3.connect(machine.path("main"), isolation_level=None)
    tables.execute(statement)
    tables.close()
    machine.systemctl("start", "pawnd@main")
    machine.await_store("main")


def a_copy_may_be_looked_into():
    """SQLite and the program bring the log of a copy into its database. It is the same copy then, and is put back; one
    of whose rows one was changed is not."""
    with Machine() as it:
        caller = it.book(7, pledges=2)
        caller.repay()
        it.admin("copy", "main")
        copy, before = it.newest("main"), caller.export()
        path = os.path.join(copy, "books.db")
        subprocess.run(["sqlite3", path, "SELECT count(*) FROM pledges"], check=True, capture_output=True)
        caller.repay()
        it.admin("restore", "main", copy)
        expect("after sqlite3", caller.export(), before)
        subprocess.run([PROGRAM, "check", path], check=True, capture_output=True)
        it.admin("restore", "main", copy)
        expect("after pawnd check", caller.export(), before)
        tables = sqlite3.connect(path, isolation_level=None)
        tables.execute("UPDATE pledges SET article = 'Brass ring' WHERE number = 2")
        tables.close()
        said = it.admin("restore", "main", copy, wanted=1)
        expect(f"one that was changed: {said}", "books 7 are not what they were" in said, True)
        expect("the store after that", caller.export(), before)
        os.unlink(os.path.join(copy, "copy.json"))
        it.admin("restore", "main", copy, wanted=1)
        expect("without its note it is no copy", caller.export(), before)


def without_its_log_a_copy_is_refused():
    """The program finds the database alone sound, but it lacks what was done last."""
    with Machine() as it:
        caller = it.book(7, pledges=2)
        it.admin("copy", "main")
        copy = it.newest("main")
        os.unlink(os.path.join(copy, "books.db-wal"))
        said = it.admin("restore", "main", copy, wanted=1)
        expect(f"what is said: {said}", "pawnd-admin restore:" in said, True)
        caller.look_up()


def what_stood_there_becomes_a_copy():
    """The wrong copy was put back: what the store had is found among its copies, also where it was damaged."""
    with Machine() as it:
        caller = it.book(7, pledges=2)
        it.admin("copy", "main")
        early = it.newest("main")
        for _ in range(3):
            caller.repay()
        before = caller.export()
        it.admin("restore", "main", "newest")
        expect("an older state", caller.entries(), 0)
        replaced = [name for name in copies(it) if row_counts(it.place("backups/main", name, "books.db")) == {7: 5}]
        it.admin("restore", "main", replaced[0])
        expect("what it was before", caller.export(), before)
        it.systemctl("stop", "pawnd@main")
        with open(it.path("main"), "r+b") as file:
            file.seek(0)
            file.write(b"x" * 5000)
        said = it.admin("restore", "main", os.path.basename(early))
        unsound = [name for name in os.listdir(it.place("backups/main")) if name.startswith("unsound-")]
        expect(f"a damaged store is kept as it was: {said}", len(unsound), 1)
        with open(it.place("backups/main", unsound[0], "books.db"), "rb") as file:
            expect("its bytes", file.read(9), b"x" * 9)
        expect("status names it", "unsound-" in str(it.status()["notes"]), True)
        expect("what commands left", it.leftovers(), [])


def a_book_that_was_made_after_the_copy():
    """No line of the map names a book of `main`. The command says that the book is missing now, and how it comes back."""
    with Machine() as it:
        it.book(7, pledges=1)
        it.admin("copy", "main")
        early = it.newest("main")
        caller = it.book(9, pledges=2)
        caller.repay()
        said = it.admin("restore", "main", os.path.basename(early))
        told = re.findall(r"book 9 is missing now, because .*: `pawnd-admin (restore-book 9 \S+) NEW`", said)
        expect(f"what it says: {said}", (len(told), "book 7 is missing" in said), (1, False))
        expect("the book", caller.request("GET", "/pledges/1")[0], 404)
        it.admin(*told[0].split(), "back")
        caller.look_up()
        said = it.admin("restore", "main", early)
        expect(f"when it is in another store: {said}", "is missing now" in said, False)
        it.book(11, pledges=1)
        change_by_hand(it, "UPDATE totals SET principal = principal + 1")
        said = it.admin("restore", "main", early)
        told = [line for line in said.splitlines() if "book 11 is missing now" in line]
        expect(f"where the store was damaged: {said}", ["Give its number to no other broker" in line for line in told], [True])
        it.systemctl("stop", "pawnd@main")
        with open(it.path("main"), "r+b") as file:
            file.write(b"x" * 5000)
        said = it.admin("restore", "main", early)
        expect(f"where it could not be read: {said}", "ask the brokers" in said, True)


def an_empty_file_is_no_store():
    """No copy is made of it: that copy would be the newest, and one day the only one."""
    with Machine() as it:
        it.book(7, pledges=1)
        it.admin("copy", "main")
        it.systemctl("stop", "pawnd@main")
        for end in ("", "-wal"):
            os.truncate(it.path("main") + end, 0)
        said = it.admin("copy", "main", wanted=1)
        expect(f"what it says: {said}", "is empty" in said and "`pawnd-admin restore main newest`" in said, True)
        wrong = [line for line in it.status()["wrong"] if "books.db is empty. Is its disk there?" in line]
        expect(f"what is wrong: {wrong}", len(wrong), 1)
        it.admin("restore", "main", "newest")
        expect("its books", books_in(it.path("main")), {7})


def a_database_that_is_lost():
    """Its log alone is left. A copy is put back, and the log is kept beside the copies."""
    with Machine() as it:
        caller = it.book(7, pledges=1)
        it.admin("copy", "main")
        it.systemctl("stop", "pawnd@main")
        os.unlink(it.path("main"))
        expect("what is left", os.listdir(it.place("lib/main")), ["books.db-wal"])
        it.admin("restore", "main", "newest")
        caller.look_up()
        unsound = [name for name in os.listdir(it.place("backups/main")) if name.startswith("unsound-")]
        kept = [os.listdir(it.place("backups/main", name)) for name in unsound]
        expect("what is beside the copies", kept, [["books.db-wal"]])
        expect("what commands left", it.leftovers(), [])
        expect("the copies", all(os.path.exists(os.path.join(it.copies, "main", name, "books.db"))
                                 for name in copies(it)), True)


def a_link_in_the_place_of_a_store():
    """An intruder in the service of a store put it there. A copy is put back, and what the link leads to stays as it is."""
    with Machine() as it:
        caller = it.book(7, pledges=1)
        it.admin("copy", "main")
        it.systemctl("stop", "pawnd@main")
        os.unlink(it.path("main"))
        os.mkfifo(it.place("other"))
        os.symlink(it.place("other"), it.path("main"))
        it.admin("restore", "main", "newest", within=300)
        caller.look_up()
        expect("what it led to", stat.S_ISFIFO(os.stat(it.place("other")).st_mode), True)


def redate(machine, old, new, name="main"):
    """A copy gets another time, as if it had been made then."""
    folder = os.path.join(machine.copies, name)
    os.rename(os.path.join(folder, old), os.path.join(folder, new))
    note = note_of(os.path.join(folder, new))
    with open(os.path.join(folder, new, "copy.json"), "w") as file:
        json.dump({**note, "made": new}, file)


def days_ago(days):
    return (datetime.datetime.now(datetime.timezone.utc) - datetime.timedelta(days=days)).strftime(TIME)


def old_copies_are_removed():
    """As many stay as pawnd.conf says. One that is dated in the future is none of them, and never the newest. The last
    one that has a book stays, however old."""
    with Machine() as it:
        it.write("etc/pawnd.conf", "# how many copies stay\nKEEP=3\n")
        it.book(7, pledges=1), it.book(8, pledges=1)
        for days in (9, 8, 7):
            it.admin("copy", "main")
            redate(it, copies(it)[-1], days_ago(days))
        it.systemctl("stop", "pawnd@main")
        for end in ("", "-wal"):
            os.rename(it.path("main") + end, it.place("lost" + end))
        shutil.rmtree(it.place("lib/main"))
        it.admin("store", "main")
        again = it.book(7, pledges=1)
        for days in (6, 5, 4, 3, 2):
            it.admin("copy", "main")
            redate(it, copies(it)[-1], days_ago(days))
        expect("the last copies, and the last that has book 8", copies(it),
               sorted([*(name for name in copies(it) if name >= days_ago(4.5)), *copies(it)[:2]]))
        expect("how many, with the first copy after the loss", len(copies(it)), 5)
        expect("the last that has book 8", set(row_counts(it.place("backups/main", copies(it)[0], "books.db"))), {7, 8})
        ahead = days_ago(-3000)
        it.admin("copy", "main")
        redate(it, copies(it)[-1], ahead)
        for _ in range(4):
            again.repay(), it.admin("copy", "main")
        expect("one from the future is none of the three", (len(copies(it)), ahead in copies(it)), (6, True))
        expect("nor the newest", it.status()["stores"][0]["copy"]["name"] < ahead, True)
        expect("and status says so", "dated in the future" in str(it.status()["wrong"]), True)
        said = it.admin("restore", "main", "newest", wanted=1)
        expect(f"which is the newest is not sure: {said}", "Name the copy that you want" in said, True)
        again.look_up()
        it.admin("restore", "main", [name for name in copies(it) if name < ahead][-1])
        again.look_up()
        it.write("etc/pawnd.conf", "KEEP=none\n")
        expect("KEEP has to be a number", "KEEP=none" in it.admin("copy", "main", wanted=1), True)


# In place of borg: it notes the archives that are made, and lists them in the order of their times, as borg does.
BORG = """#!/bin/bash
case $1 in
create) until [[ $1 == ::* ]]; do shift; done; echo "${1#::} $2" >>"$ARCHIVES" ;;
list) cut -d ' ' -f 1 "$ARCHIVES" | sort -t . -k 3 | if [[ "$*" == *'--last 1'* ]]; then tail -n 1; else cat; fi ;;
export-tar) tar -c -C "$ARCHIVES.room" etc ;;
esac
"""


def by_borg(machine, *words, wanted=0):
    """What a command of deploy/offsite prints."""
    machine.write("bin/borg", BORG, 0o755)
    machine.write("bin/runuser", '#!/bin/sh\nshift 3\nexec "$@"\n', 0o755)
    machine.write("passphrase", "x\n", 0o600)
    ran = subprocess.run(
        [os.path.join(TOP, "deploy/offsite", words[0]), *words[1:]], capture_output=True, text=True, timeout=60,
        stdin=subprocess.DEVNULL, env={**machine.environment, "ARCHIVES": machine.place("archives"),
                                       "FOLDER": machine.place("offsite"), "PASSPHRASE": machine.place("passphrase")},
    )
    expect(f"the end of {words}: {ran.stderr}", ran.returncode, wanted)
    return ran.stdout + ran.stderr


def a_certificate_that_is_elsewhere():
    """An archive has the first machine's link to its certificate, and not the certificate. The link of the machine that
    takes the archive stays, so that its nginx goes on."""
    with Machine() as it:
        it.write("archives", "main.20260101T000000Z.20260101T000000Z x\n")
        for room, leads_to in ((it.place("archives.room"), "/etc/letsencrypt/live/it"), (it.place("taken"), "first-certificate")):
            os.makedirs(os.path.join(room, "etc/pawnd"))
            os.symlink(leads_to, os.path.join(room, "etc/pawnd/certificate"))
        it.write("archives.room/etc/pawnd/operator.key", "it\n")
        by_borg(it, "take", "main", it.place("taken"))
        expect("the link", os.readlink(it.place("taken/etc/pawnd/certificate")), "first-certificate")
        expect("a file", os.path.exists(it.place("taken/etc/pawnd/operator.key")), True)


def a_receiver_whose_clock_is_behind():
    """Its daily run names the archives that are dated in the future, and does not say that their store was not sent. Of a
    store that was not sent, it has the command that says so."""
    with Machine() as it:
        os.makedirs(it.place("offsite/copies"))
        old, ahead = f"west.{days_ago(9)}.{days_ago(9)}", f"main.{days_ago(-9)}.{days_ago(-9)}"
        it.write("archives", f"{old} x\n{ahead} x\n")
        said = by_borg(it, "prune", wanted=1)
        expect(f"what it says: {said}", (f"{ahead}, is dated in the future" in said, f"echo {ahead}" in said), (True, False))
        expect("of the other store", (f"echo {old} >>" in said, f"{old}, is dated" in said, "nothing is removed" in said),
               (True, False, True))


def a_folder_that_is_not_there():
    """`take` names it, before it fetches anything."""
    with Machine() as it:
        it.write("archives", "main.20260101T000000Z.20260101T000000Z x\n")
        os.makedirs(it.place("archives.room/etc"))
        said = by_borg(it, "take", "main", it.place("none"), wanted=1)
        expect(f"what it says: {said}", said, f"take: there is no folder {it.place('none')}: make it first, `mkdir -m 700 "
               f"{it.place('none')}`\n")


def a_clock_that_was_ahead():
    """A copy that is dated in the future is not sent, and an archive that is dated in the future is not taken. The copy
    counts again under the name of a time that has passed."""
    with Machine() as it:
        it.book(7, pledges=1)
        it.admin("copy", "main")
        ahead = days_ago(-400)
        redate(it, copies(it)[-1], ahead)
        it.admin("copy", "main")
        wanted = [name for name in copies(it) if name != ahead][-1]
        by_borg(it, "send", "main")
        with open(it.place("archives")) as file:
            sent = file.read().split()
        expect("what is sent", sent[1], it.place("backups/main", wanted))
        with open(it.place("offsite/main")) as file:
            expect("what is noted", file.read().strip(), wanted)
        it.write("archives", f"{sent[0]} x\nmain.{ahead}.{ahead} x\n")
        os.makedirs(it.place("archives.room/etc"))
        expect("what is taken", by_borg(it, "take", "main", it.room).split()[0], sent[0])
        expect("what status says", "dated in the future" in str(it.status()["wrong"]), True)
        os.rename(it.place("backups/main", ahead), it.place("backups/main", days_ago(1)))
        expect("and after the rename that it asks for", it.status()["wrong"], [])
        expect("the newest", it.status()["stores"][0]["copy"]["name"], wanted)


def onto_an_empty_machine():
    """From the copies and the settings alone: each change that was acknowledged before the copies is there."""
    with Machine() as old, Machine(empty=True) as new:
        callers = [old.book(7, pledges=2), old.book(8, pledges=2)]
        with load(*callers):
            await_load(*callers)
            old.admin("split", "main", "west", 8)
            await_load(*callers)
            leaked = callers[1].key
        old.admin("new-key", 8, "--key-to", old.place("new"))
        with open(old.place("new")) as file:
            callers[1].key = file.read().strip()
        for name in ("main", "west"):
            old.admin("copy", name)
        old.end()
        for name in ("books.map", "keys.map", "operator.key"):
            shutil.copy(os.path.join(old.settings, name), new.settings)
        for name in ("main", "west"):
            shutil.copytree(old.newest(name), new.place("carried", name))
            new.admin("restore", name, new.place("carried", name))
        new.start_nginx()
        for caller in callers:
            caller.machine = new
            caller.look_up()
            expect("a change", caller.repay(), True)
        expect("the leaked key", callers[1].request("GET", "/pledges/1", key=leaked)[0], 404)
        expect("what is wrong", new.status()["wrong"], [])


def an_empty_copy_that_is_newer():
    """A machine that receives copies had an empty store of its own, which was copied after the copy that was sent."""
    with Machine() as old, Machine() as new:
        old.book(7)
        old.admin("copy", "main")
        sent = os.path.basename(old.newest("main"))
        new.admin("copy", "main")
        while copies(new)[-1] <= sent:
            new.admin("copy", "main")
        shutil.rmtree(os.path.join(new.copies, "main", sent), ignore_errors=True)
        shutil.copytree(old.newest("main"), os.path.join(new.copies, "main", sent))
        said = new.admin("restore", "main", "newest")
        expect(f"`newest`: {said}", f"`pawnd-admin restore main {sent}`" in said, True)
        said = new.admin("restore", "main", sent)
        expect(f"the copy that was sent: {said}", "holds 1 books" in said and "has no books" not in said, True)


if __name__ == "__main__":
    main_with(
        PACKAGES,
        copies_under_load,
        entered_while_a_copy_is_checked,
        a_large_store_that_is_written_without_a_pause,
        a_log_that_is_begun_anew,
        a_copy_without_its_log_is_noticed,
        a_store_that_is_damaged,
        a_check_that_says_nothing_of_the_store,
        a_damaged_book_of_a_store_that_is_served,
        a_copy_may_be_looked_into,
        without_its_log_a_copy_is_refused,
        what_stood_there_becomes_a_copy,
        a_book_that_was_made_after_the_copy,
        an_empty_file_is_no_store,
        a_database_that_is_lost,
        a_link_in_the_place_of_a_store,
        old_copies_are_removed,
        a_clock_that_was_ahead,
        a_certificate_that_is_elsewhere,
        a_receiver_whose_clock_is_behind,
        a_folder_that_is_not_there,
        onto_an_empty_machine,
        an_empty_copy_that_is_newer,
    )
