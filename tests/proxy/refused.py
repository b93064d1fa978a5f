"""What the proxy refuses, delays and notes by itself: no secret of a hundred forms is in a log, no stranger bars a
broker's exports, limits come before the answer for a book that does not exist, and callers of a store that is being
restarted learn that nothing was done, and when to ask again."""
import contextlib
import glob
import json
import os
import random
import signal
import socket
import subprocess
import time

from tests.library.checks import Failed, expect
from tests.library.hosting import BOOKS, NAME, PACKAGES, Hosted, Recorder, proxys, status
from tests.library.keys import BROKER
from tests.library.packages import main_with
from tests.library.proxy.checks import guesses, no_secret_in_a_log, plainly
from tests.library.requests import request
from tests.library.waiting import wait_for


def a_hundred_forms(receipt):
    """Requests that hold a receipt where a client might put it by mistake, at random: by TLS or without, of each
    length, to what is there and to what is not."""
    chance = random.Random(7)
    places = [
        "/?receipt={}",
        "/README.md?{}",
        "/pawn/?receipt={}",
        "/pawn?{}",
        "/broker/?r={}",
        "/api.js?{}",
        "/.well-known/acme-challenge/?{}",
        "/.well-known/acme-challenge/{}",
        "/{}",
        "/pawn/{}/",
        "/index.html/{}",
        "/books/7/held?receipt={}",
        "/books/7/{}",
        "/books?{}",
        "/_refused?{}",
        "/books/7/export?{}",
        "/pawn/pawn.js?{}",
        "/%7b{}",
        "//{}",
        "/nowhere/?{}",
    ]
    for _ in range(100):
        method, length = chance.choice(["GET", "POST", "POST", "PUT", "DELETE"]), chance.choice(
            [0, 0, 10, 1_048_577, 2_000_000, 10**12]
        )
        yield chance.random() < 0.5, request(
            method,
            chance.choice(places).format(receipt),
            f"Host: {NAME}",
            f"Pledge-Receipt: {receipt}",
            *([f"Content-Length: {length}"] if length else []),
        )


def no_secret_of_a_hundred_forms():
    with Hosted() as it:
        receipt = it.open_books(1)[7][0]
        os.makedirs(os.path.join(it.room, "acme/.well-known/acme-challenge"))
        for by_tls, sent in a_hundred_forms(receipt):
            caller = it.caller()
            with contextlib.suppress(OSError, Failed):
                caller.connection = (
                    caller.connect() if by_tls else socket.create_connection(("127.0.0.1", it.plain), timeout=10)
                )
                caller.connection.settimeout(2)
                caller.send(sent)
            caller.close()
        expect("they were noted", it.log("access").count("\n") > 80, True)
        no_secret_in_a_log(it, [receipt])
        expect(
            "each line of the log is JSON", {type(json.loads(line)) for line in it.log("access").splitlines()}, {dict}
        )
        with open(os.path.join(it.room, "acme/.well-known/acme-challenge/a-token"), "w") as file:
            file.write("what the maker of certificates reads")
        for folder, _, _ in os.walk(os.path.join(it.room, "acme")):
            os.chmod(folder, 0o755)
        os.chmod(file.name, 0o644)
        expect(
            "a certificate's challenge",
            plainly(it.plain, request("GET", "/.well-known/acme-challenge/a-token", f"Host: {NAME}")).endswith(
                b"what the maker of certificates reads"
            ),
            True,
        )


def strangers_bar_nobodys_export():
    """Bodies without a key that trickle to a book's import, and exports of books that are not there, hold up no
    broker's export."""
    with Hosted(books={**BOOKS, **{number: 1 for number in range(100, 120)}}) as it:
        it.books = BOOKS
        it.open_books(1)
        stranger, held = "127.203.4.5", []
        for number in range(6):
            caller = it.caller(stranger if number % 2 else None)
            caller.connection = caller.connect()
            caller.connection.sendall(
                f"POST /books/7/import HTTP/1.1\r\nHost: x\r\nContent-Length: 1000\r\n\r\n{'x' * number}".encode()
            )
            held.append(caller)
        time.sleep(0.3)
        for number in range(60):
            caller = it.caller(stranger)
            caller.connection = caller.connect()
            caller.connection.sendall(request("GET", f"/books/{100 + number % 20}/export", "Host: x"))
            held.append(caller)
        time.sleep(0.3)
        told = [status(it.caller().broker("GET", "/books/7/export")) for _ in range(6)]
        for caller in held:
            caller.close()
        expect("the broker's exports", told, [200] * 6)
        busy = [it.caller("127.203.4.6") for _ in range(5)]
        for caller in busy[:4]:
            caller.connection = caller.connect()
            caller.connection.sendall(b"POST /books/7/import HTTP/1.1\r\nHost: x\r\nContent-Length: 1000\r\n\r\n")
        wait_for(lambda: proxys(busy[4].broker("GET", "/books/7/export")) == (429, False), "five of one caller at once")


def limits_come_before_the_answer_for_no_book():
    """A stranger who tries numbers of books learns no more than the limits let: a book that is not there is answered by
    the store `main`, as any other, and slowed down as any other."""
    with Hosted() as it:
        it.open_books()
        told = {}
        for number in (7, 1_000):
            told[number] = {(status(reply), reply.body) for reply in guesses(it.caller(), number, 6)}
        expect("a book and no book are answered alike", told[7], told[1_000])


def when_to_ask_again():
    """A refusal that a later request may pass says when; one that it cannot pass does not."""
    with Hosted(kind=Recorder) as it:
        caller = it.caller()
        for step, sent, wanted in (
            ("no such target", request("GET", "/books/7//held", "Host: x"), 404),
            ("a body that is too long", request("POST", "/books/7/terms", "Host: x", "Content-Length: 1048577"), 413),
            ("a book made from elsewhere", request("POST", "/books/7", "Host: x"), 403),
        ):
            reply = caller.send(sent)
            expect(step, (status(reply), reply.fields.get("retry-after")), (wanted, None))
            caller.close()
        late = [reply for reply in guesses(caller, 7, 6) if status(reply) == 429]
        expect("too often", {reply.fields.get("retry-after") for reply in late}, {"2"})


def a_store_that_is_being_restarted():
    """Meanwhile a request is answered 503 at once, and was not passed on. Nothing is sent twice, and what a store took
    and did not answer is unknown."""
    with Hosted(kind=Recorder) as it:
        store, body = it.stores[1], json.dumps({"seq": 1, "pence": 100}) + " " * 70_000
        sent = request("POST", "/books/8/held/repay", "Host: x", "Pledge-Receipt: 1-1", body=body)
        store.kill()
        before = len(store.seen)
        for reply in [it.caller().send(sent) for _ in range(20)]:
            expect(
                "meanwhile",
                (status(reply), proxys(reply), reply.fields.get("retry-after")), (503, (503, False), "2"),
            )
        store.listen()
        expect("afterwards", (status(it.caller().send(sent)), len(store.seen) - before), (200, 1))
        for way in ("close", "reset"):
            store.way, before = way, len(store.seen)
            reply = it.caller().send(sent)
            expect(f"it took the request, and then: {way}", (proxys(reply), len(store.seen) - before), ((502, True), 1))


def declared_while_a_worker_is_killed(*fields):
    """A GET by curl, then a declaration, after which the worker of nginx that passed it on is killed. Returns which posts
    the store got, what curl showed, and whether it reported no error."""
    with Hosted(kind=Recorder) as it:
        store, url = it.stores[1], f"https://localhost:{it.port}/books"
        store.way = "silence"
        how = ["-sk", "--http1.1", "-m", "30", *fields]
        words = ["curl", *how, f"{url}/7/pledges/1", "--next", *how, "-d", "{}", f"{url}/8/pledges/1/declare"]
        begun = subprocess.Popen(words, stdin=subprocess.DEVNULL, stdout=subprocess.PIPE, stderr=subprocess.DEVNULL)
        wait_for(lambda: store.seen, "the declaration")
        store.way = "answer"
        # All are stopped first: curl must not send again to one that is about to be killed.
        workers = [int(worker) for worker in it.workers()]
        for sent in (signal.SIGSTOP, signal.SIGKILL):
            for worker in workers:
                os.kill(worker, sent)
        shown, _ = begun.communicate(timeout=60)
        return [head.split()[0] for head, _ in store.seen], shown, begun.returncode == 0


def libcurl_sends_a_post_again_by_itself():
    """On a connection that curl uses again it may send a declaration a second time, and report nothing: of five times it
    does so once at least. On a connection of its own it always reports the error."""
    once, twice = (["POST"], b"{}", False), (["POST", "POST"], b"{}{}", True)
    for _ in range(5):
        if (found := declared_while_a_worker_is_killed()) == twice:
            break
        expect("what curl sent and showed, with its connection kept", found, once)
    expect("what curl sent and showed at last, with its connection kept", found, twice)
    found = declared_while_a_worker_is_killed("-H", "Connection: close")
    expect("what curl sent and showed, with its connection closed", found, once)


# ---- a key that leaked

OLD, NEW, NEWER = BROKER, "5e0b9e1c-2f3a-4d7b-8c1a-aaaaaaaaaaaa", "6e0b9e1c-2f3a-4d7b-8c1a-bbbbbbbbbbbb"
NOBODYS = "77777777-7777-4777-8777-777777777777"


def spellings(key):
    """Each form in which the program reads a key, and some that it may read."""
    for text in (key, key.replace("-", ""), "{" + key + "}", "urn:uuid:" + key):
        yield from (text, text.upper(), text.replace("A", "a").title(), f" {text} ", f"\t{text}\t", f"\t {text} \t")
    yield "URN:UUID:" + key
    yield "urn:uuid:" + key.upper()


def exchange(old, new, book=7):
    """What `pawnd-admin new-key` writes."""
    return (
        f'"{book}:" none;',
        f'"{book}:{old.replace("-", "")}" "{NOBODYS}";',
        f'"{book}:{new.replace("-", "")}" "{OLD}";',
    )


def a_key_that_leaked_is_refused():
    """In each spelling, also where the field is there twice; the new key opens the book in each spelling. Other books of
    the same store and of others are as before."""
    with Hosted(books={**BOOKS, 10: 1}) as it:
        it.open_books()
        wrong = it.caller().ask("GET", "/books/7/pledges/1", f"Pledge-Key: {NOBODYS}")
        it.set_map("keys.map", *exchange(OLD, NEW))
        for target in ("/books/7/pledges/1", "/books/7/export", "/books/7/days/2026-01-01"):
            for spelt in spellings(OLD):
                reply = it.caller().ask("GET", target, f"Pledge-Key: {spelt}")
                expect(f"the leaked key as {spelt!r}", status(reply) in (400, 404), True)
            expect(f"the new key, {target}", status(it.caller().ask("GET", target, f"Pledge-Key: {NEW}")), 200)
        for spelt in spellings(NEW):
            told = status(it.caller().ask("GET", "/books/7/pledges/1", f"Pledge-Key: {spelt}"))
            plain = status(it.caller().ask("GET", "/books/8/pledges/1", f"Pledge-Key: {spelt.replace(NEW, OLD)}"))
            expect(f"the new key as {spelt!r}", told in ((200,) if plain == 200 else (200, 400)), True)
        reply = it.caller().ask("GET", "/books/7/pledges/1", f"Pledge-Key: {OLD}")
        expect("it is answered as any wrong key", (reply.line, reply.body), (wrong.line, wrong.body))
        the_field_twice(it)
        changes_by_the_new_key(it)
        for book in (8, 9, 10):
            expect(f"book {book}", status(it.caller().broker("GET", f"/books/{book}/pledges/1")), 200)
        no_secret_in_a_log(it, [NEW, NEW.replace("-", ""), NOBODYS])


def the_field_twice(it):
    def ask(book, *keys):
        return status(it.caller().ask("GET", f"/books/{book}/pledges/1", *(f"Pledge-Key: {key}" for key in keys)))

    for keys in ((OLD, OLD), (OLD, NEW), ("x", OLD), (NOBODYS, OLD), ("", OLD)):
        expect(f"{keys} of the book whose key leaked", ask(7, *keys) in (400, 404), True)
    for keys in ((OLD, OLD), (OLD, NOBODYS), (NOBODYS, OLD)):
        expect(f"{keys} of another book", ask(8, *keys), 400)
    expect("without the field", [ask(book) for book in (7, 8)], [400, 400])
    expect("with no key in it", [ask(book, "") for book in (7, 8)], [400, 400])
    expect("with a text that is no key", [ask(book, "none") for book in (7, 8)], [400, 400])


def changes_by_the_new_key(it):
    repayment = {"pence": 1, "seq": 1}
    for key, wanted in ((OLD, 404), (NEW, 200)):
        reply = it.caller().ask("POST", "/books/7/pledges/1/repay", f"Pledge-Key: {key}", body=repayment)
        expect(f"a repayment by {key[:4]}..", status(reply), wanted)
    text = it.caller().ask("GET", "/books/7/export", f"Pledge-Key: {NEW}").body.decode()
    reply = it.caller().ask("POST", "/books/7/import", f"Pledge-Key: {OLD}", f"Import-Key: {OLD}", body=text)
    expect("an import by the leaked key", (status(reply), json.loads(reply.body)["code"]), (404, 401))
    reply = it.caller().ask("POST", "/books/7/import", f"Pledge-Key: {NEW}", f"Import-Key: {OLD}", body=text)
    expect("an import by the new key", json.loads(reply.body)["code"], 409)


def the_new_key_leaked_too():
    with Hosted() as it:
        it.open_books()
        second = (*exchange(OLD, NEWER), f'"7:{NEW.replace("-", "")}" "{NOBODYS}";')
        it.set_map("keys.map", *second)
        told = [status(it.caller().ask("GET", "/books/7/pledges/1", f"Pledge-Key: {key}")) for key in (OLD, NEW, NEWER)]
        expect("the first, the second and the third key", told, [404, 404, 200])
        for spelt in spellings(NEW):
            told = status(it.caller().ask("GET", "/books/7/pledges/1", f"Pledge-Key: {spelt}"))
            expect(f"the second as {spelt!r}", told in (400, 404), True)


def a_book_of_another_store():
    """Its line holds from the next reload on, and no request is lost over it."""
    with Hosted(kind=Recorder) as it:
        for lines, store in ((("7 west;",), 3), ((), 1)):
            it.set_map("books.map", *lines)
            before = [len(store.seen) for store in it.stores]
            expect("it is served", status(it.caller().ask("GET", "/books/7/held")), 200)
            came = [len(store.seen) - those for store, those in zip(it.stores, before, strict=True)]
            expect("where it came", [number for number, count in enumerate(came, 1) if count], [store])


def pages_are_asked_for_again():
    """A page has a tag, by which a browser that has it learns that it is the same, and text is compressed."""
    with Hosted() as it:
        script = glob.glob("**/*.js", root_dir=os.path.join(it.room, "web"), recursive=True)[0]
        for target in ("/broker/", f"/{script}"):
            first = it.caller().ask("GET", target)
            fields = {name: first.fields.get(name) for name in ("cache-control", "content-encoding")}
            expect(f"{target}", fields, {"cache-control": "no-cache", "content-encoding": None})
            expect("nginx's own date", "date" in first.fields, True)
            again = it.caller().send(request("HEAD", target, f"Host: {NAME}", f"If-None-Match: {first.fields['etag']}"), True)
            expect("the same page", status(again), 304)
            packed = it.caller().send(request("HEAD", target, f"Host: {NAME}", "Accept-Encoding: gzip"), True)
            expect("compressed", (packed.fields.get("content-encoding"), "etag" in packed.fields), ("gzip", True))
            weak = f"If-None-Match: {packed.fields['etag']}"
            again = it.caller().send(request("HEAD", target, f"Host: {NAME}", "Accept-Encoding: gzip", weak), True)
            expect("the same page, compressed", status(again), 304)
        receipts = it.open_books()
        fields = ("Accept-Encoding: gzip", f"Pledge-Receipt: {receipts[7][0]}")
        reply = it.caller().ask("GET", "/books/7/held", *fields)
        expect("a reply of the service", (reply.fields.get("content-encoding"), reply.fields["cache-control"]), (None, "no-store"))


TESTS = (
    no_secret_of_a_hundred_forms,
    strangers_bar_nobodys_export,
    limits_come_before_the_answer_for_no_book,
    when_to_ask_again,
    a_store_that_is_being_restarted,
    libcurl_sends_a_post_again_by_itself,
    a_key_that_leaked_is_refused,
    the_new_key_leaked_too,
    a_book_of_another_store,
    pages_are_asked_for_again,
)

if __name__ == "__main__":
    main_with(PACKAGES, *TESTS)
