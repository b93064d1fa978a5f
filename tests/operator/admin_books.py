"""`pawnd-admin` and single books: one is made, one comes back out of a copy, a key has leaked, a broker leaves."""
import contextlib
import os
import re
import shlex
import shutil
import socket
import stat
import subprocess
import threading
import uuid

from tests.library.checks import expect, not_tried
from tests.library.operator.admin_machine import PACKAGES, Caller, Machine, await_load, load
from tests.library.operator.admin_places import books_in
from tests.library.packages import main_with
from tests.library.program import Server
from tests.library.tables import opened
from tests.library.waiting import wait_for

REFUSED = 404, {"code": 401, "name": "NoSuchBook"}


def a_store_and_books():
    """A book's key is written to a file, and is never shown; a number that is taken is refused."""
    with Machine() as it:
        it.store("west")
        for number, name, store in ((7, "High Street", "main"), (8, "Low Street", "west")):
            path = it.place(f"key-{number}")
            said = it.admin("book", number, "--name", name, "--store", store, "--key-to", path)
            expect("its mode", stat.S_IMODE(os.stat(path).st_mode), 0o600)
            key = key_in(it, f"key-{number}")
            expect("the key in the file", Caller(it, number, key).request("GET", "/pledges/1")[1]["code"], 403)
            expect(f"the key is not shown: {said}", key in said, False)
        for number in (7, 8):
            for store in ("main", "west"):
                words = "--name", "Other", "--store", store, "--key-to", it.place("other")
                said = it.admin("book", number, *words, wanted=1)
                expect(f"a number that is taken: {said}", "Choose another number" in said, True)
        expect("the books", (books_in(it.path("main")), books_in(it.path("west"))), ({7}, {8}))
        expect("no key is left", os.listdir(it.place("etc/pending")), [])
        for word in ("Main", "removed", "a-b", "x" * 21):
            it.admin("store", word, wanted=1)
        expect("the stores", sorted(os.listdir(it.stores)), ["main", "west"])
        it.admin("copy", "main"), it.admin("copy", "west")
        expect("what is wrong", it.status()["wrong"], [])
        expect("what commands left", it.leftovers(), [])


def the_first_book_of_a_store():
    """`store` prints the command that makes one."""
    with Machine() as it:
        command = re.search("`pawnd-admin (.*)`", it.admin("store", "west"))[1]
        words = {"BOOK": 8, "NAME": "Low Street", "FILE": it.place("key-8")}
        it.admin(*(words.get(word, word) for word in shlex.split(command)))
        expect("the books", (books_in(it.path("west")), it.lines()), ({8}, {8: "west"}))


def a_book_that_is_made_again():
    """A command that has ended, and was killed before it said so, is run again: it says that the book is there, and changes
    nothing. With another name, capacity, store or key the number is taken."""
    with Machine() as it:
        it.store("west")
        of_book = {
            7: ("--name", "High Street", "--key-to", it.place("key-7")),
            8: ("--name", "Low Street", "--capacity", 5, "--store", "west", "--key-to", it.place("key-8")),
        }
        for number, words in of_book.items():
            it.admin("book", number, *words)
        shutil.copy(it.place("key-7"), it.place("first"))
        for number, words in of_book.items():
            said = it.admin("book", number, *words)
            expect(f"run again: {said}", "already, and nothing was changed" in said, True)
        expect("the key in the file", key_in(it, "key-7"), key_in(it, "first"))
        it.admin("new-key", 7, "--key-to", it.place("key-7"))
        it.admin("book", 7, *of_book[7])
        it.write("other", str(uuid.uuid4()) + "\n", 0o600)
        for number, *more in (
            (7, "--name", "Other"), (7, "--capacity", 3), (7, "--store", "west"), (7, "--key-to", it.place("other")),
            (7, "--key-to", it.place("none")), (8, "--key-to", it.place("other")),
        ):
            said = it.admin("book", number, *of_book[number], *more, wanted=1)
            expect(f"{more}: {said}", "Choose another number" in said, True)
        expect("the key that was in that file", os.path.exists(it.place("none")), False)
        expect("what commands left", [*it.leftovers(), *os.listdir(it.place("etc/pending"))], [])


def words_that_are_wrong():
    """The command says in a sentence what is wrong, before it begins anything, so that the corrected one is not held up by
    it; and so it does where a file of the settings is not there or cannot be read."""
    with Machine() as it:
        good = {"--name": "Low Street", "--key-to": it.place("key-8")}
        for name, word, what in (
            ("--key-to", it.place("none/key-8"), f"there is no folder {it.place('none')}"), ("--key-to", it.room, "names no file"),
            ("--key-to", "", "names no file"), ("--name", "", "1 to 60 bytes"), ("--name", "x" * 61, "1 to 60 bytes"),
            ("--name", "Low\nStreet", "no control character"), ("--name", "Low \udcff", "1 to 60 bytes of UTF-8"),
            ("--capacity", 0, "from 1 to 1000"), ("--capacity", 1001, "from 1 to 1000"),
        ):
            said = it.admin("book", 8, *(text for pair in {**good, name: word}.items() for text in pair), wanted=1)
            expect(f"{name} {word!r}: {said}", what in said and "Nothing was changed" in said, True)
        it.admin("book", 8, *(text for pair in good.items() for text in pair))
        for path, what in ((it.place("none/key"), "there is no folder"), (it.room, "names no file")):
            said = it.admin("new-key", 8, "--key-to", path, wanted=1)
            expect(f"--key-to {path}: {said}", what in said and "Nothing was changed" in said, True)
        for path, what in ((it.place("none"), f"there is no {it.place('none')}"), (it.path("main"), "does not hold a key")):
            said = it.admin("new-key", 8, "--key-to", it.place("new"), "--inside-file", path, wanted=1)
            expect(f"--inside-file {path}: {said}", what in said, True)
        it.admin("copy", "main")
        for name, what in (("operator.key", "there is no"), ("books.map", "there is no")):
            os.rename(it.place("etc", name), it.place("aside"))
            wrong = it.status()["wrong"]
            expect(f"without {name}: {wrong}", any(f"{what} {it.place('etc', name)}" in line for line in wrong), True)
            said = it.admin("book", 9, *(text for pair in good.items() for text in pair), wanted=1)
            expect(f"without {name}: {said}", f"there is no {it.place('etc', name)}" in said, True)
            os.rename(it.place("aside"), it.place("etc", name))
        for name in ("books.map", "keys.map", "stores/main.conf"):
            shutil.copy(it.place("etc", name), it.place("aside"))
            with open(it.place("etc", name), "ab") as file:
                file.write(b"\xff\n")
            told = " ".join(it.status()["wrong"])
            expect(f"a byte in {name}: {told}", "codec" in told, False)
            shutil.copy(it.place("aside"), it.place("etc", name))


def key_in(machine, name):
    with open(machine.place(name)) as file:
        return file.read().strip()


@contextlib.contextmanager
def a_service_that_says(text):
    """The port of a service that answers all requests with this text."""
    def serve(listener):
        with contextlib.suppress(OSError):
            while True:
                peer, _ = listener.accept()
                with peer:
                    peer.recv(1 << 16)
                    peer.sendall(text)

    with socket.create_server(("127.0.0.1", 0)) as listener:
        threading.Thread(target=serve, args=(listener,), daemon=True).start()
        yield listener.getsockname()[1]


def a_reply_that_is_cut_off():
    """An empty reply with the status 200 does not say that the book was made; the command that is run again makes it, with
    the same key."""
    with Machine() as it:
        it.store("west")
        conf = it.place("etc/stores/west.conf")
        words = "--name", "Far Street", "--store", "west", "--key-to", it.place("key-7")
        with open(conf) as file:
            own = file.read()
        with a_service_that_says(b"HTTP/1.1 200 OK\r\n") as port:
            it.write("etc/stores/west.conf", f"ADDRESS=127.0.0.1:{port}\n")
            said = it.admin("book", 7, *words, wanted=1)
            os.unlink(it.place("units/enabled-pawnd@west.service"))
            it.admin("reload")
            wrong = it.status()["wrong"]
        expect(f"what it says: {said}", "run the command again" in said, True)
        expect(f"a store of another machine is not left stopped: {wrong}", "may not be served" in " ".join(wrong), False)
        expect("that it does not answer is said", "store west: does not answer through the proxy" in " ".join(wrong), True)
        it.write("etc/stores/west.conf", own)
        it.admin("reload"), it.admin("book", 7, *words)
        expect("the book", Caller(it, 7, key_in(it, "key-7")).request("GET", "/pledges/1")[1]["code"], 403)


def a_store_that_refuses():
    """The command says what to do: where a store has another operator's key, where the relay of another machine answers in
    the place of a store that is being started, and where a store is full."""
    with Machine() as it:
        kept = key_in(it, "etc/operator.key")
        it.write("etc/operator.key", str(uuid.uuid4()) + "\n", 0o600)
        words = "book", 7, "--name", "High Street", "--key-to", it.place("key-7")
        said = it.admin(*words, wanted=1)
        expect(f"another key: {said}", "`systemctl restart pawnd@main.service`" in said, True)
        it.write("etc/operator.key", kept + "\n", 0o600)
        it.admin(*words)
        it.store("west")
        away = b'HTTP/1.1 503 Service Unavailable\r\nContent-Length: 31\r\n\r\n{"proxy":503,"handed_on":false}'
        with a_service_that_says(away) as port:
            it.write("etc/stores/west.conf", f"ADDRESS=127.0.0.1:{port}\n")
            words = "--name", "Far Street", "--store", "west", "--key-to", it.place("key-8")
            said = it.admin("book", 8, *words, wanted=1)
        expect(f"a store that is being started: {said}", "run the command again" in said, True)
        it.systemctl("stop", "pawnd@main")
        with opened(it.path("main")) as tables:
            tables.execute("UPDATE meta SET value = 1 WHERE name = 'limit'")
        it.systemctl("start", "pawnd@main")
        it.await_store("main")
        said = it.admin("book", 9, "--name", "New Street", "--key-to", it.place("key-9"), wanted=1)
        expect(f"a full store: {said}", "OPERATING.md, `490, a full store`" in said, True)


def one_book_out_of_a_copy():
    """It comes back as it was, in a new store; the others go on, and its rows in the old store answer no more."""
    with Machine() as it:
        callers = {number: it.book(number, pledges=2) for number in (7, 8)}
        for _ in range(4):
            callers[7].repay(), callers[8].repay()
        old_key = callers[7].key
        it.admin("copy", "main")
        copy, before = it.newest("main"), callers[7].export()
        it.admin("new-key", 7, "--key-to", it.place("new"))
        with open(it.place("new")) as file:
            callers[7].key = file.read().strip()
        for _ in range(3):
            callers[7].repay()
        with load(callers[8]):
            it.admin("restore-book", 7, copy, "west")
            await_load(callers[8])
        expect("book 7", callers[7].export(), before)
        expect("its old key stays refused", callers[7].request("GET", "/export", key=old_key), REFUSED)
        callers[7].acknowledged[1] = callers[7].sent[1] = 4
        callers[7].repay(), callers[7].look_up(), callers[8].look_up()
        notes = it.status()["notes"]
        in_two = [line for line in notes if "book 7 is in two stores: west answers" in line]
        expect(f"it is in two stores: {notes}", len(in_two), 1)
        expect("the stores", (books_in(it.path("main")), books_in(it.path("west"))), ({7, 8}, {7}))
        expect_run_again(it, copy)
        it.admin("restore-book", 9, copy, "north", wanted=1)
        expect("no store for a book that is not there", os.path.exists(it.path("north")), False)
        it.admin("restore-book", 7, copy, "south")
        in_two = "book 7 is in two stores: south answers, and nobody reaches the rows in west"
        expect("a store that no line names any more", (in_two in it.status()["notes"], it.lines()), (True, {7: "south"}))
        it.admin("remove-book", 7)
        expect("book 7 when it was taken out", callers[7].request("GET", "/export"), REFUSED)
        expect("nor does an older state of it answer", books_in(it.path("main")), {8})


def expect_run_again(it, copy):
    """A run of the command that had ended changes nothing and ends well. Where the copy is another one, the command says
    what to do. It takes no time in place of a folder, since copies of several stores can be of one time."""
    before = books_in(it.path("west")), it.lines()
    for named in (copy, os.path.join(copy, "")):
        said = it.admin("restore-book", 7, named, "west")
        expect(f"again by {named}: {said}", "is in the store west already" in said and "othing was changed" in said, True)
    it.admin("copy", "west"), it.admin("copy", "main")
    for named in (it.newest("west"), it.newest("main")):
        said = it.admin("restore-book", 7, named, "west", wanted=1)
        expect(f"another copy: {said}", "othing was changed" in said and "name a new store" in said, True)
    for named in ("newest", os.path.basename(copy)):
        said = it.admin("restore-book", 7, named, "north", wanted=1)
        expect(f"no folder: {said}", "is not the folder of a copy" in said and "grep -l" in said, True)
    expect("what is there", (books_in(it.path("west")), it.lines()), before)


def a_broker_who_leaves():
    """The last state is kept, as a text and as a store, the book answers no more, and the others go on."""
    with Machine() as it:
        callers = {number: it.book(number, pledges=2) for number in (7, 8)}
        with load(callers[8]):
            callers[7].repay(), await_load(callers[8])
            before = callers[7].export()
            it.admin("remove-book", 7)
            await_load(callers[8])
        callers[8].look_up()
        expect("the book", callers[7].request("GET", "/export"), REFUSED)
        folder = os.path.join(it.copies, "removed", os.listdir(os.path.join(it.copies, "removed"))[0])
        with open(os.path.join(folder, "book.csv")) as file:
            expect("its text", file.read(), before)
        said = it.admin("restore-book", 7, folder, "main", wanted=1)
        expect(f"into the old store: {said}", ("already" in said, "name a new store" in said), (False, True))
        it.admin("restore-book", 7, folder, "west")
        expect("the book when it is back", callers[7].export(), before)
        it.admin("remove-book", 7), it.admin("restore-book", 7, folder, "west")
        expect("the book when it is back in a store without books", callers[7].export(), before)
        it.admin("copy", "west")
        said = it.admin("restore", "west", "newest")
        expect(f"the broker is back, and is not to be removed: {said}", "remove-book" in said, False)
        said = it.admin("restore", "main", min(os.listdir(os.path.join(it.copies, "main"))))
        expect(f"the broker is back in an older copy: {said}", "remove-book 7" in said, True)
        it.admin("remove-book", 9, wanted=1)
        expect("what commands left", it.leftovers(), [])


def a_number_of_a_store_elsewhere():
    """A book that was taken out on another machine may come back there. Its line in the map keeps its number."""
    with Machine() as it:
        it.store("west")
        it.book(10, "west")
        it.admin("remove-book", 10)
        shutil.rmtree(it.place("backups/removed"))
        with open(it.place("etc/stores/west.conf")) as file:
            port = file.read().partition("PORT=")[2].strip()
        it.write("etc/stores/west.conf", f"ADDRESS=127.0.0.1:{port}\n")
        it.write("etc/books.map", "10 west;\n")
        words = "--name", "Another Street", "--store", "west", "--key-to", it.place("key-again")
        said = it.admin("book", 10, *words, wanted=1)
        expect(f"what it says: {said}", "Choose another number" in said, True)
        expect("nothing was begun", (os.listdir(it.place("etc/pending")), it.lines()), ([], {10: "west"}))
        it.admin("book", 11, *words)


def a_leaked_key_of_a_book_that_comes_back():
    """The key that leaked before the book left is refused when the book is back, since no other book gets its number."""
    with Machine() as it:
        caller = it.book(7, pledges=1)
        leaked = caller.key
        it.admin("new-key", 7, "--key-to", it.place("new"))
        with open(it.place("new")) as file:
            caller.key = file.read().strip()
        it.admin("remove-book", 7)
        folder = os.path.join(it.copies, "removed", os.listdir(os.path.join(it.copies, "removed"))[0])
        it.admin("restore-book", 7, folder, "west")
        expect("the leaked key", caller.request("GET", "/pledges/1", key=leaked), REFUSED)
        expect("the broker's key", caller.request("GET", "/pledges/1")[0], 200)
        it.admin("remove-book", 7)
        for kept in ("its last state", "its exchange alone"):
            said = it.admin("book", 7, "--name", "Another", "--key-to", it.place("another"), wanted=1)
            expect(f"another book 7 as long as there is {kept}: {said}", "Choose another number" in said, True)
            shutil.move(os.path.join(it.copies, "removed"), it.place("aside")) if kept == "its last state" else None
        it.admin("restore-book", 7, os.path.join(it.place("aside"), os.path.basename(folder)), "north")
        expect("the leaked key", caller.request("GET", "/pledges/1", key=leaked), REFUSED)
        expect("the broker's key", caller.request("GET", "/pledges/1")[0], 200)
        expect("exchanged keys", it.status()["exchanged_keys"], 1)


def spellings(key):
    """A key in each form that the program reads."""
    plain = uuid.UUID(key).hex
    for text in (key, plain, "{" + key + "}", "urn:uuid:" + key, "urn:UUID:" + key):
        yield from (text, text.upper(), f"  {text}", f"\t{text}\t")


def a_leaked_key():
    """The old key is refused in each spelling, the new one is taken in each, and a second leak ends the first."""
    with Machine() as it:
        caller, other = it.book(7, pledges=1), it.book(8, pledges=1)
        for spelling in spellings(caller.key):
            expect(f"{spelling!r} before", caller.request("GET", "/pledges/1", key=spelling)[0], 200)
        keys = [caller.key]
        for turn in range(3):
            with load(other):
                await_load(other)
                it.admin("new-key", 7, "--key-to", it.place(f"new-{turn}"))
                await_load(other)
            with open(it.place(f"new-{turn}")) as file:
                keys.append(file.read().strip())
            caller.key = keys[-1]
            expect("a repayment with the new key", caller.repay(), True)
            for key in keys[:-1]:
                for spelling in spellings(key):
                    expect(f"{spelling!r} when it leaked", caller.request("GET", "/pledges/1", key=spelling), REFUSED)
            for spelling in spellings(keys[-1]):
                expect(f"{spelling!r} now", caller.request("GET", "/pledges/1", key=spelling)[0], 200)
        modes = {stat.S_IMODE(os.stat(it.place(name)).st_mode) for name in ("etc/keys.map", "new-0")}
        expect("the modes", modes, {0o600})
        it.admin("split", "main", "west", 7), it.admin("restore", "main", it.newest("main"))
        caller.look_up(), other.look_up()
        expect("after a split", caller.request("GET", "/pledges/1", key=keys[0]), REFUSED)
        expect("at another book it is any key", Caller(it, 8, keys[0]).request("GET", "/pledges/1"), REFUSED)
        expect("exchanged keys", it.status()["exchanged_keys"], 1)


def a_replicated_store_that_another_machine_serves():
    """The verbs that need the store are refused before they begin anything."""
    with Machine() as it:
        it.book(7, pledges=1)
        it.admin("copy", "main")
        it.systemctl("stop", "pawnd@main")
        with open(it.place("etc/stores/main.conf"), "a") as file:
            file.write("VOLUME=books\n")
        with Server(it.path("main")):
            for words in (("book", 9, "--name", "New Street", "--key-to", it.place("key")), ("split", "main", "west", 7),
                          ("restore", "main", "newest"), ("remove-book", 7)):
                said = it.admin(*words, wanted=1)
                expect(f"{words}: {said}", f"run `pawnd-admin {words[0]}` there. Nothing was changed" in said, True)
                expect(f"only that: {said}", said.count("pawnd-admin"), 2)
            expect("what was begun", os.listdir(it.place("etc/pending")), [])


def a_replicated_store_without_its_file():
    """Where its folder is not mounted no copy is put into it, and the status advises none. Where it is, the copy is put
    back."""
    if os.geteuid():
        not_tried("a folder that is mounted", "this is not root")
        return
    with Machine() as it:
        caller = it.book(7, pledges=1)
        it.admin("copy", "main")
        with open(it.place("etc/stores/main.conf"), "a") as file:
            file.write("VOLUME=books\n")
        it.systemctl("stop", "pawnd@main")
        for name in os.listdir(os.path.join(it.stores, "main")):
            os.unlink(os.path.join(it.stores, "main", name))
        said = it.admin("restore", "main", "newest", wanted=1)
        expect(f"what it says: {said}", "is not mounted here" in said and "Nothing was changed" in said, True)
        wrong = "\n".join(it.status()["wrong"])
        expect(f"what is wrong: {wrong}", ("is not mounted here" in wrong, "pawnd-admin restore" in wrong), (True, False))
        folder = os.path.join(it.stores, "main")
        subprocess.run(["mount", "-t", "tmpfs", "-o", "size=32m", "none", folder], check=True)
        try:
            it.admin("restore", "main", "newest")
            wait_for(lambda: caller.request("GET", "/pledges/1")[0] == 200, "the store", 100)
            caller.look_up()
        finally:
            it.systemctl("stop", "pawnd@main")
            subprocess.run(["umount", "-l", folder], check=True)


def a_leaked_key_of_a_store_elsewhere():
    """The file of --inside-file is compared with what the store says, before anything changes; after one exchange it is
    not needed any more."""
    with Machine() as it:
        it.store("west")
        caller = it.book(10, "west", pledges=1)
        with open(it.place("etc/stores/west.conf")) as file:
            port = file.read().partition("PORT=")[2].strip()
        it.write("etc/stores/west.conf", f"ADDRESS=127.0.0.1:{port}\n")
        it.write("first", caller.key + "\n")
        it.write("wrong", str(uuid.uuid4()) + "\n")
        new = "new-key", 10, "--key-to", it.place("new")
        expect("what it asks for", "--inside-file FILE" in it.admin(*new, wanted=1), True)
        said = it.admin(*new, "--inside-file", it.place("wrong"), wanted=1)
        expect(f"a wrong file: {said}", "nothing was changed" in said, True)
        expect("its key is still in force", caller.request("GET", "/pledges/1")[0], 200)
        it.admin(*new, "--inside-file", it.place("first"))
        shutil.copy(it.place("new"), it.place("second"))
        said = it.admin(*new, "--inside-file", it.place("second"), wanted=1)
        expect(f"the file of the key that leaked last: {said}", "nothing was changed" in said, True)
        keys = {}
        for name in ("first", "second"):
            with open(it.place(name)) as file:
                keys[name] = file.read().strip()
        expect("the first leaked key", caller.request("GET", "/pledges/1", key=keys["first"]), REFUSED)
        expect("the broker's key", caller.request("GET", "/pledges/1", key=keys["second"])[0], 200)
        it.admin(*new)
        with open(it.place("new")) as file:
            expect("a second exchange", caller.request("GET", "/pledges/1", key=file.read().strip())[0], 200)
        expect("the second leaked key", caller.request("GET", "/pledges/1", key=keys["second"]), REFUSED)


if __name__ == "__main__":
    main_with(
        PACKAGES, a_store_and_books, the_first_book_of_a_store, words_that_are_wrong, a_book_that_is_made_again, a_reply_that_is_cut_off,
        a_store_that_refuses, one_book_out_of_a_copy, a_broker_who_leaves, a_leaked_key,
        a_replicated_store_that_another_machine_serves, a_replicated_store_without_its_file,
        a_leaked_key_of_a_store_elsewhere, a_number_of_a_store_elsewhere, a_leaked_key_of_a_book_that_comes_back,
    )
