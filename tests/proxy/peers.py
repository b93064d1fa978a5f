"""The files of deploy/ with the real nginx, in front of three stores: the same bytes as of one service, peers that are
slow, silent or gone, a store that is killed, and one behind a relay."""
import contextlib
import json
import multiprocessing
import os
import random
import re
import shutil
import signal
import socket
import statistics
import subprocess
import tempfile
import time

from tests.library.checks import expect
from tests.library.dates import today
from tests.library.described import IMPORT, OPERATIONS, chosen, compact
from tests.library.hosting import (
    BOOKS, LENGTH, NAME, PACKAGES, Caller, Hosted, Recorder, long_book, open_pledge, open_text, proxys, put, read_reply,
    status, steady_port, writers,
)
from tests.library.keys import BROKER, KEY, OPERATOR, SECRET
from tests.library.packages import PATHS, main_with
from tests.library.paths import TOP
from tests.library.program import Server
from tests.library.requests import request
from tests.library.waiting import wait_for

# ---- the same bytes


class World:
    """One of two services that are asked the same, with receipts of its own; a secret is named by when it was first
    issued."""

    def __init__(self, send):
        self.send, self.names, self.receipts = send, {}, {}

    def ask(self, name, book, body, number=1, shown="2024-03-04", text=None):
        operation = OPERATIONS[name]
        fields = (
            [["Pledge-Receipt", self.receipts.get((book, number), "1-" + "0" * 32)]]
            if operation.caller == "bearer"
            else operation.fields()
        )
        target = operation.path.format(book=book, number=number, day=shown)
        line, kind, said = self.send(
            operation.method,
            target,
            [f"{field}: {value}" for field, value in fields],
            text if text is not None else "" if body is None else compact(body),
        )
        found = re.search(r'"receipt":"([^"]+)"', said)
        if found:
            self.receipts[book, int(found[1].split("-")[0])] = found[1]
        return line, kind, SECRET.sub(lambda it: self.names.setdefault(it[0], f"<{len(self.names)}>"), said)


def through(hosted):
    """Requests through the proxy, some at each address."""
    state = {"caller": None, "left": 0}

    def send(method, target, fields, text):
        if state["left"] == 0:
            if state["caller"]:
                state["caller"].close()
            state.update(caller=hosted.caller(), left=14)
        state["left"] -= 1
        reply = state["caller"].ask(method, target, *fields, body=text)
        return reply.line, reply.fields["content-type"], reply.body.decode()

    return send


def to(port):
    caller = Caller(port)

    def send(method, target, fields, text):
        with socket.create_connection(("127.0.0.1", port), timeout=60) as caller.connection:
            reply = caller.ask(method, target, "Connection: close", *fields, body=text)
        caller.connection = None
        return reply.line, reply.fields["content-type"], reply.body.decode()

    return send


def the_same_bytes_as_of_one_service():
    """Two thousand requests at random on four books: one program that has them all, and three stores behind the proxy.
    (Each book is made without the proxy.)"""
    chance = random.Random(43)
    with Hosted(books={**BOOKS, 10: 2}) as hosted, Server() as one:
        worlds = World(to(one.port)), World(through(hosted))
        made = [hosted.store_of(book).port for book in BOOKS]
        for book, port in zip(BOOKS, made, strict=True):
            for world, at in zip(worlds, (one.port, port)):
                world.send, kept = to(at), world.send
                expect(
                    f"book {book}",
                    world.ask("makeBook", book, {"capacity": 2, "key": BROKER, "name": f"Street {book}"})[2],
                    f'{{"book":{book}}}',
                )
                world.send = kept
        seqs, done, asked = {book: dict.fromkeys(range(1, 13), 1) for book in (*BOOKS, 10)}, 0, 0

        def both(name, book, *words, **named):
            nonlocal asked
            first, second = (world.ask(name, book, *words, **named) for world in worlds)
            expect(f"{name} of book {book} {words} {named}", second, first)
            asked += 1
            return first[2]

        for book in BOOKS:
            both("addTerms", book, {"keep_after": 1000, "keep_before": 5000, "rate": 2667, "version": 1})
            for number in range(1, 13):
                both(
                    "takePledge",
                    book,
                    {
                        "article": f'Ring \u2028"{number}"',
                        "five_days": number % 2 == 0,
                        "kind": chance.choice(["fixed", "running"]),
                        "pence": chance.randint(100, 20000),
                        "ref": f"A{number}",
                    },
                )
        while asked < 2_000:
            book = chance.choice([7, 8, 9, 9, 10])
            name, body, number, near = chosen(chance, seqs[book], today())
            said = both(name, book, body, number=number, shown=str(near))
            seqs[book][number] += '"seq"' in said
            if name == "redeem" and '"total":' in said and chance.random() < 0.3:
                said = both(name, book, {"paid": json.loads(said)["total"]}, number=number)
            done += '"code"' not in said
        for book in (*BOOKS, 10):
            both("exportBook", book, None)
        print(f"        {asked} requests, of which {done} were done and the others refused", flush=True)


# ---- peers that are slow, silent or gone


def trouble(port, ready):
    """200 peers that hold up what they can, each at its own address, until this process is killed."""
    held, slow = [], []
    for number in range(200):
        caller = Caller(port, f"127.210.{number // 50}.{number % 50 + 1}")
        if number < 40:
            it = socket.socket()
            it.bind((caller.address, 0))
            it.connect(("127.0.0.1", port))
        else:
            it = caller.connect(window=4096)
        held.append(it)
        if 80 <= number < 120:
            slow.append((it, b"GET /books/7/held HTTP/1.1\r\nHost: x\r\n" + b"X: " + b"x" * 999))
        elif 120 <= number < 150:
            it.sendall(
                b"POST /books/7/held/repay HTTP/1.1\r\nHost: x\r\nPledge-Receipt: 1-1\r\nContent-Length: 999\r\n\r\n"
            )
            slow.append((it, b" " * 999))
        elif 150 <= number < 170:
            it.sendall(request("GET", "/books/8/pledges/1", "Host: x", KEY))
    ready.set()
    at, left = 0, [(peer, text) for peer, text in slow]
    while True:
        for peer, text in left:
            with contextlib.suppress(OSError):
                peer.sendall(text[at : at + 1])
        at += 1
        for number in range(170 + at % 3, 200, 3):
            with contextlib.suppress(OSError):
                peer = Caller(port, f"127.211.{number - 169}.{at % 250 + 1}").connect()
                peer.sendall(request("GET", "/books/9/pledges/1", "Host: x", KEY)[: (20, 60, None)[at % 3]])
                peer.setsockopt(socket.SOL_SOCKET, socket.SO_LINGER, b"\1\0\0\0\0\0\0\0")
                peer.close()
        time.sleep(0.1)


def medians(hosted, receipts, count=45):
    """The times of a good client's requests, each on a connection of its own over TLS, at each store."""
    times = []
    for number in range(count):
        book = (7, 8, 9)[number % 3]
        caller, begun = hosted.caller(), time.monotonic()
        reply = caller.ask("GET", f"/books/{book}/held", f"Pledge-Receipt: {receipts[book]}")
        times.append(time.monotonic() - begun)
        expect("a good client's view", status(reply), 200)
        caller.close()
    return statistics.median(times), max(times)


def slow_peers_hold_nobody_up():
    with Hosted() as it:
        receipts = {book: those[0] for book, those in it.open_books().items() if book != 8}
        store = it.stores[1]
        store.kill()
        os.remove(store.path)
        os.remove(store.path + "-wal")
        store.start()
        made = store.session.ask(
            "POST", "/books/8", {"capacity": 2, "key": BROKER, "name": "High Street"}, Pledge_Key=OPERATOR
        )
        expect("a book with a long statement", made, (200, {"book": 8}))
        rows = long_book(330_000)
        told = it.caller().ask("POST", "/books/8/import", KEY, f"Import-Key: {IMPORT}", body=rows)
        expect("its import", told.body, b'{"imported":1}')
        receipts[8] = open_pledge(it.caller(), 8, 2)
        fork = multiprocessing.get_context("fork")
        for turn in range(3):
            alone, _ = medians(it, receipts)
            ready = fork.Event()
            peers = fork.Process(target=trouble, args=(it.port, ready), daemon=True)
            peers.start()
            try:
                expect("200 peers", ready.wait(60), True)
                among, longest = medians(it, receipts)
                expect("the peers are still there", peers.is_alive(), True)
            finally:
                peers.kill()
                peers.join()
            print(
                f"        a view over a new connection: {alone * 1000:.1f} ms alone, {among * 1000:.1f} ms among 200 "
                f"such peers, {longest * 1000:.1f} ms at most",
                flush=True,
            )
            if among <= 0.050:
                return
        # A machine that other work holds up is not blamed on the proxy.
        expect(
            f"the median in ms, {alone * 1000:.0f} alone, is within 50 and what it is above that alone",
            among <= 0.050 + 2 * alone,
            True,
        )


def a_reader_that_reads_nothing():
    """A long reply to a peer that takes none of it does not keep the store busy, and that peer has the whole of it
    when it reads."""
    with Hosted(kind=Recorder) as it:
        it.stores[1].way = "at length"
        deaf = it.caller()
        deaf.connection = deaf.connect(window=65536)
        deaf.connection.sendall(request("GET", "/books/8/export", f"Host: {NAME}", KEY))
        wait_for(lambda: it.stores[1].rid, "the store is rid of its reply", 30)
        spools = [
            os.stat(os.path.join(folder, name)).st_mode & 0o077
            for folder, _, names in os.walk(os.path.join(it.room, "replies"))
            for name in names
        ]
        expect("what is kept meanwhile is nginx's alone", [mode for mode in spools if mode], [])
        expect("the whole reply", len(read_reply(deaf.connection).body), LENGTH)
        deaf.close()


def waiting_at(port):
    """How many connections wait to be accepted."""
    with open("/proc/net/tcp") as it:
        for line in it.readlines()[1:]:
            fields = line.split()
            if fields[1].endswith(f":{port:04X}") and fields[3] == "0A":
                return int(fields[4].split(":")[1], 16)
    return 0


def a_hundred_in_flight_and_no_more():
    """A store that is stopped: a hundred requests wait for it, those that were given up among them; further ones are
    refused at once, and others' stores serve."""
    with Hosted() as it:
        receipts = it.open_books()
        asked = request("GET", "/books/7/held", f"Host: {NAME}", f"Pledge-Receipt: {receipts[7][0]}")
        os.kill(it.stores[0].program.pid, signal.SIGSTOP)
        callers = [it.caller() for _ in range(100)]
        for caller in callers:
            caller.connection = caller.connect()
            caller.connection.sendall(asked)
        wait_for(lambda: waiting_at(it.stores[0].port) >= 100, "a hundred requests in flight", 30)
        for caller in callers[:30]:
            caller.close()
        time.sleep(0.3)
        for _ in range(20):
            begun = time.monotonic()
            reply = it.caller().send(asked)
            expect("one more", (proxys(reply), time.monotonic() - begun < 2), ((503, False), True))
        expect(
            "at another store",
            status(it.caller().ask("GET", "/books/9/held", f"Pledge-Receipt: {receipts[9][0]}")),
            200,
        )
        expect("the queue", waiting_at(it.stores[0].port) <= 100, True)
        os.kill(it.stores[0].program.pid, signal.SIGCONT)
        expect("those that waited", [status(read_reply(caller.connection)) for caller in callers[30:]], [200] * 70)
        for caller in callers:
            caller.close()


# ---- a store that is killed


def a_store_is_killed_and_started():
    with Hosted() as it:
        it.open_books(2)
        with writers(it) as running:
            for _ in range(4):
                time.sleep(0.7)
                it.stores[1].kill()
                time.sleep(0.3)
                it.stores[1].start()
            time.sleep(0.7)
        for writer in running:
            if writer.book != 8:
                expect(f"what book {writer.book} noticed", (writer.not_done, writer.unknown, writer.cut), (0, 0, 0))
            text = it.store_of(writer.book).export(writer.book)
            expect(
                f"the entries of pledge {writer.number} of book {writer.book}",
                text.count(f"\nE,{writer.number},") in (writer.acknowledged, writer.sent),
                True,
            )
        mine = [writer for writer in running if writer.book == 8]
        # What comes in while the store is down is answered at once; what it had taken has no reply.
        told = {(status, handed_on) for writer in mine for _, status, handed_on in writer.told}
        expect(f"what the callers of the killed store got: {told}", told <= {(503, False), (502, True)}, True)
        print(
            f"        {sum(it.acknowledged for it in running)} repayments, 4 kills; "
            f"{sum(it.not_done for it in mine)} not passed on and {sum(it.unknown for it in mine)} unknown at the "
            "killed store, none at the others",
            flush=True,
        )


def a_store_on_another_machine():
    """The relay's nginx between the proxy and the third store; what it refuses by itself comes through as it said
    it."""
    with Hosted() as far, tempfile.TemporaryDirectory() as room:
        os.chmod(room, 0o711)
        port, conf = steady_port(), os.path.join(room, "nginx")
        shutil.copytree(far.conf, conf)
        os.remove(os.path.join(conf, "sites-enabled/pawnd"))
        at = f"127.0.0.1:{port}"
        change(os.path.join(TOP, "deploy/nginx/relay-site"), os.path.join(conf, "sites-enabled/relay"), (
            ("10.0.0.3:8103", at), ("10.0.0.1;", "127.0.0.1;"), ("east", "west"),
            ("/run/pawnd-bodies;", f"{room}/bodies;"), ("/run/pawnd-replies;", f"{room}/replies;"),
        ))
        change(os.path.join(conf, "nginx.conf"), os.path.join(conf, "nginx.conf"), (
            (far.conf, conf), (f"{far.room}/", f"{room}/"),
        ))
        os.mkdir(os.path.join(room, "logs"))
        # The relay has the store's own address, and the proxy has the relay's.
        own = os.path.join(room, "stores.conf")
        change(os.path.join(far.settings, "stores.conf"), own, ())
        http = os.path.join(conf, "snippets/pawnd-http.conf")
        change(http, http, ((f"{far.settings}/stores.conf", own),))
        relay = subprocess.Popen(
            ["nginx", "-c", os.path.join(conf, "nginx.conf"), "-e", f"{room}/error.log", "-g", "daemon off;"],
            env={**os.environ, "PATH": PATHS},
            stderr=subprocess.DEVNULL,
            start_new_session=True,
        )
        try:
            wait_for(lambda: os.path.exists(f"{room}/nginx.pid"), "the relay", 20)
            lines = open_text(own).replace(f"127.0.0.1:{far.stores[2].port}", at)
            far.set_map("stores.conf", *lines.splitlines())
            through_the_relay(far, far.open_books(2))
        finally:
            os.killpg(relay.pid, signal.SIGTERM)
            relay.wait(20)


def change(source, target, pairs):
    text = put(open_text(source), *pairs)
    with open(target, "w") as it:
        it.write(text)


def through_the_relay(far, receipts):
    fields = [f"Pledge-Receipt: {receipts[9][number % 2]}" for number in range(32)]
    expect("32 receipts", far.caller().ask("GET", "/books/9/held", *fields).body.count(b"Article Gold ring\n"), 32)
    expect(
        "a long body",
        json.loads(
            far.caller()
            .ask("POST", "/books/9/held/repay", fields[0], body=json.dumps({"pence": 1, "seq": 1}) + " " * 1_000_000)
            .body
        )["seq"],
        1,
    )
    far.stores[2].kill()
    reply = far.caller().ask("GET", "/books/9/held", fields[0])
    expect("what the relay says", (status(reply), proxys(reply), reply.fields.get("retry-after")), (503, (503, False), "2"))
    expect("the others", status(far.caller().ask("GET", "/books/8/held", f"Pledge-Receipt: {receipts[8][0]}")), 200)
    far.stores[2].start()
    expect("when it is there again", status(far.caller().ask("GET", "/books/9/held", fields[0])), 200)


TESTS = (
    the_same_bytes_as_of_one_service,
    slow_peers_hold_nobody_up,
    a_reader_that_reads_nothing,
    a_hundred_in_flight_and_no_more,
    a_store_is_killed_and_started,
    a_store_on_another_machine,
)

if __name__ == "__main__":
    main_with(PACKAGES, *TESTS)
