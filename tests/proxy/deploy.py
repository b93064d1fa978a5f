"""The files of deploy/ with the real nginx, in front of three stores: TLS, which store a target comes to, what becomes
of heads and bodies, and what the proxy says by itself."""
import contextlib
import datetime
import json
import os
import random
import re
import socket
import subprocess
import time

from tests.library.checks import Failed, expect
from tests.library.dates import today
from tests.library.hosting import BOOKS, NAME, PACKAGES, Caller, Hosted, Recorder, proxys, status
from tests.library.keys import BROKER, KEY, OPERATOR
from tests.library.packages import main_with
from tests.library.proxy.checks import guesses, no_secret_in_a_log
from tests.library.requests import request

NOT_HANDED_ON = b'{"proxy":%d,"handed_on":false}'
# The program reads a target whole, and its book so.
READ = re.compile(r"/books/([1-9][0-9]{0,8})(/.*)?")


# ---- a pledge's life, by curl


def by_curl(it, target, *words, code="200"):
    """What curl is answered over HTTP/2 and TLS."""
    words = ["-sS", "--http2", "--cacert", it.cert, "--resolve", f"{NAME}:{it.port}:127.0.0.1", *words]
    ran = subprocess.run(
        ["curl", "-w", "\n%{http_code} %{http_version}", *words, f"https://{NAME}:{it.port}{target}"],
        capture_output=True,
        text=True,
        timeout=60,
    )
    said, _, how = ran.stdout.rpartition("\n")
    expect(f"curl {target} {ran.stderr}", how, f"{code} 2")
    return said


def the_life_of_a_pledge_over_tls():
    with Hosted() as it:
        made = json.dumps({"capacity": 2, "key": BROKER, "name": "High Street"})
        by_curl(it, "/books/8", "-H", f"Pledge-Key: {OPERATOR}", "-d", made)
        terms = '{"version":1,"rate":2667,"keep_before":0,"keep_after":0}'
        by_curl(it, "/books/8/terms", "-H", KEY, "-d", terms)
        opening = '{"ref":"A1","article":"Gold ring","kind":"fixed","pence":10000,"five_days":false}'
        taken = json.loads(by_curl(it, "/books/8/pledges", "-H", KEY, "-d", opening))["receipt"]
        a_visit_and_a_redemption(it, f"Pledge-Receipt: {taken}")
        expect("the rows", [it.store_of(8).export(8).count(f"\n{row},") for row in "PSEK"], [1, 1, 1, 1])
        page = "<h1" in by_curl(it, "/pawn/") and "trusted-types" in by_curl(it, "/pawn/", "-D", "-")
        expect("a page at the same origin", page, True)
        what_is_not_for_everybody(it)
        no_secret_in_a_log(it, [taken])


def a_visit_and_a_redemption(it, receipt):
    def held(then="", body=None, code="200"):
        return by_curl(it, "/books/8/held" + then, "-H", receipt, *(["-d", body] if body else []), code=code)

    def broker(then, *words):
        return by_curl(it, "/books/8" + then, "-H", KEY, *words)

    expect("it is seen", "Owing 100.00\nHeld no\nBooking none\n" in held(), True)
    visit = str(today() + datetime.timedelta(2))
    expect("a visit", json.loads(held("/ask", json.dumps({"day": visit, "window": 3})))["booking"], "asked")
    broker("/pledges/1/decide", "-d", '{"yes":true}')
    expect("the day's sheet", "Window 3 confirmed 1 of 2" in broker(f"/days/{visit}"), True)
    expect("a repayment", json.loads(held("/repay", '{"seq":1,"pence":1000}'))["pence"], 1000)
    broker("/pledges/1/hold", "-X", "POST")
    expect("it is held", json.loads(held("/redeem", '{"paid":9000}', code="409"))["code"], 303)
    broker("/pledges/1/release", "-X", "POST")
    expect("it is redeemed", json.loads(held("/redeem", '{"paid":9000}'))["paid"], 9000)
    expect("the receipt is spent", held(code="404"), '{"code":402,"name":"NoSuchReceipt"}')


def what_is_not_for_everybody(it):
    """A book is made from this machine alone, and nothing of the service is answered without TLS."""
    body = {"capacity": 2, "key": BROKER, "name": "Low Street"}
    reply = it.caller().ask("POST", "/books/9", f"Pledge-Key: {OPERATOR}", body=body)
    expect("a book made from elsewhere", (status(reply), reply.body), (403, NOT_HANDED_ON % 403))
    with socket.create_connection(("127.0.0.1", it.plain)) as peer:
        peer.sendall(
            request(
                "GET",
                "/books/8/held?receipt=1-350e428b-dc73",
                f"Host: {NAME}",
                "Pledge-Receipt: 1-1",
                "Connection: close",
            )
        )
        expect("without TLS", peer.recv(65536).split(b"\r\n")[0], b"HTTP/1.1 403 Forbidden")


def nothing_secret_is_noted():
    """Whatever a client does wrong: receipts in paths and queries, bodies that are too long, a store that is not
    there."""
    with Hosted() as it:
        receipts = [receipt for those in it.open_books(2).values() for receipt in those]
        one, caller = receipts[0], it.caller()
        for store in (it.stores[0], None):
            for target in (
                f"/books/7/held?receipt={one}",
                f"/books/7/held/{one}",
                f"/books/7/{one}",
                f"/pawn/?receipt={one}",
                f"/pawn/{one}",
                f"/nowhere/{one.replace('-', '%2d')}",
                f"//books/7/held?{one}",
                f"/books/7/held#{one}",
                f"/books/7/pledges/1?key={BROKER}",
                f"/?{BROKER.replace('-', '')}",
                f"/{BROKER.replace('-', '').upper()}",
                "/books/7/held",
            ):
                for method, length in (("GET", 0), ("POST", 0), ("PUT", 0), ("POST", 1_048_577), ("GET", 1_048_577)):
                    caller.close()
                    with contextlib.suppress(OSError, Failed):
                        caller.send(
                            request(
                                method,
                                target,
                                f"Host: {NAME}",
                                f"Pledge-Receipt: {one}",
                                KEY,
                                *([f"Content-Length: {length}"] if length else []),
                            )
                        )
            for sent in (
                f"Pledge-Receipt: {one}\r\n\r\n",
                f"GET /books/7/held HTTP/1.1\r\nPledge-Receipt : {one}\r\n\r\n",
                f"GET /{one} HTTP/9.9\r\n\r\n",
                f"{one} / HTTP/1.1\r\n\r\n",
                f"GET /books/7/held HTTP/1.1\r\nHost: x\r\nX: {'x' * 9000}\r\nPledge-Receipt: {one}\r\n\r\n",
                f"GET /books/7/held HTTP/1.1\r\nHost: x\r\nContent-Length: x\r\nPledge-Key: {BROKER}\r\n\r\n",
            ):
                caller.close()
                with contextlib.suppress(OSError, Failed):
                    caller.send(sent.encode())
            if store:
                store.kill()
        expect(
            "the log notes what was asked",
            '"target":"/books/7/held","status":"503"' in it.log("access") and "(hidden)" in it.log("access"),
            True,
        )
        expect("the error log notes that the store was away", "Connection refused" in it.log("error"), True)
        no_secret_in_a_log(it, [*receipts, BROKER.replace("-", ""), BROKER.replace("-", "").upper()])


# ---- which book

# fmt: off
TRICKS = [
    "/books/7", "/books/8", "/books/7/held", "/books/8/held/repay", "/books/9/days/2026-11-25",
    "/books/9/pledges/1/draw", "/books/1", "/books/123456789/held", "/books/999999999", "//books/8", "/books//8",
    "/books/08", "/books/0", "/books/8/", "/books/8?x=7", "/books/8?", "/books/7?/../8", "/books/8#7", "/books/8%20",
    "/books/%38", "/books/%38/held", "/books/8%2fheld", "/books/8%2Fheld", "/books/7%2f..%2f8/held",
    "/books/7/../8/held", "/books/7/..%2f8/held", "/books/7/%2e%2e/8/held", "/books/./8/held", "/books/8/./held",
    "/books/8/held/", "/books/8;7/held", "/books/8/held%00", "/Books/8", "/books/8/held?receipt=1",
    "/books/1000000000", "/books/18446744073709551623", "/books/+8", "/books/-8", "/books/8e0", "/books/0x8",
    "/books/8 /held", "/x/../books/8/held", "/static/../books/8", "/pawn/../books/8/held",
    f"http://{NAME}/books/8/held", f"https://{NAME}:1/books/9/held", "http://evil/books/8", "http://evil/books/7/../8",
    "books/8", "*", "/books/\u0668/held", "/books/8\\..\\7/held", "/books/8\t/held", "/books", "/books/", "/booksx/8",
    "/books/7/../../books/8/held", "/index.html", "/%2e/books/8", "/%62ooks/8/held", "/books/8/held//",
    "/books/8/pledges/1/../../../7/held", "/books/8/pledges/1/../../7/held", "/books/8/days/../../7/held", "/_refused",
    "/@refused", "/books/8/held/../../9/held", "/./books/8", "/.//books/8/held", "/books/8/held;/../../7",
    "/books/7,8/held", "/books/7%0d%0aX/held", "/books/8/HELD", "/books/8/held/Repay", "/books/8/a/b/c/d",
    "/books/8/pledges/07",
]
# fmt: on


# Those that are of the shape, or are once what names the proxy itself is taken off.
SHAPED = (
    *TRICKS[:9],
    f"http://{NAME}/books/8/held",
    f"https://{NAME}:1/books/9/held",
    "http://evil/books/8",
    "/books/8/pledges/07",
)


def store_that_has(book):
    """The number of the store of the book that a target was read to name: a book without a line is the first one's."""
    return BOOKS.get(int(book[1]), 1) if book else None


def each_target_comes_to_its_book_or_nowhere():
    with Hosted(kind=Recorder) as it:
        landed = set()
        for target in TRICKS:
            caller = it.caller("127.0.0.1")
            for version in ("1.1", "2"):
                before = [len(store.seen) for store in it.stores]
                if version == "2":
                    asked_by_http_2(it, target)
                else:
                    with contextlib.suppress(OSError, Failed):
                        caller.send(request("GET", target, f"Host: {NAME}", "Connection: close"))
                came = [
                    (number, head.split("\r\n")[0].split(" ")[1])
                    for number, store in enumerate(it.stores, 1)
                    for head, _ in store.seen[before[number - 1] :]
                ]
                expect(f"how often {target} was passed on", len(came) in (0, 1), True)
                for number, got in came:
                    book = READ.fullmatch(got)
                    expect(f"the store of {target}, which came as {got}", number, store_that_has(book))
                    expect(f"{target} came as it was", got, re.sub(r"^https?://[^/]*", "", target))
                    landed.add(target)
        expect("what was passed on", sorted(landed), sorted(SHAPED))
        no_room_beside_the_shape(it)


def asked_by_http_2(it, target):
    words = ["-sk", "--http2", "--path-as-is", "--globoff", "--max-time", "10", "--request-target", target]
    at = [f"https://{NAME}:{it.port}", "--resolve", f"{NAME}:{it.port}:127.0.0.1"]
    subprocess.run(["curl", *words, *at], capture_output=True, timeout=30)


def no_room_beside_the_shape(it):
    """Targets that are bent at random by the pieces on which readings differ: each comes to its book as it was, or
    nowhere."""
    chance, caller, came = random.Random(5), it.caller(), 0
    pieces = "/ // /../ /./ .. . %2e %2f %37 ? # ; \\ 0 7 8 9 /books/9 + é % * : @ x -".split()
    for number in range(1_200):
        target = chance.choice(
            [
                "/books/7/held",
                "/books/8/pledges/1/draw",
                "/books/9/days/2024-01-31",
                "/books/8/shelves",
                "/books/7/held/repay",
            ]
        )
        for _ in range(chance.choice([0, 1, 1, 1, 2, 3])):
            at = chance.randrange(len(target) + 1)
            target = target[:at] + chance.choice(pieces) + target[at + chance.choice([0, 0, 1]) :]
        before = [len(store.seen) for store in it.stores]
        with contextlib.suppress(OSError, Failed):
            caller.send(request(chance.choice(["GET", "POST"]), target, f"Host: {NAME}"))
        for store_number, store in enumerate(it.stores, 1):
            for head, _ in store.seen[before[store_number - 1] :]:
                book = READ.fullmatch(target)
                expect(
                    f"{target} at store {store_number}",
                    (head.split(" ")[1], store_that_has(book)),
                    (target, store_number),
                )
                came += 1
        if number % 15 == 0:
            caller.close()
            caller = it.caller()
    print(
        f"        {len(TRICKS)} targets, and 1200 that were bent at random, of which {came} were passed on", flush=True
    )
    expect("some were passed on", came > 100, True)


# ---- heads, bodies, and what the proxy says by itself


def heads_and_bodies():
    with Hosted(kind=Recorder) as it:
        caller, store = it.caller(), it.stores[1]

        def sent(head, body=b""):
            """What comes to the store of a request, as its head and body, or what the proxy answered in its place."""
            before = len(store.seen)
            caller.close()
            reply = caller.send(f"POST /books/8/held/repay HTTP/1.1\r\nHost: {NAME}\r\n{head}\r\n".encode() + body)
            return store.seen[before] if len(store.seen) > before else (status(reply), reply.body)

        head, body = sent("Transfer-Encoding: chunked\r\n", b'5\r\n{"seq\r\n4\r\n":1}\r\n0\r\n\r\n')
        expect(
            "a body in pieces", (body, "Content-Length: 9" in head, "Transfer" in head), (b'{"seq":1}', True, False)
        )
        size = 1_048_576
        head, body = sent(
            "Transfer-Encoding: chunked\r\n",
            b"".join(b"%x\r\n%s\r\n" % (1000, b" " * 1000) for _ in range(size // 1000))
            + b"240\r\n"
            + b" " * 576
            + b"\r\n0\r\n\r\n",
        )
        expect("the longest of them", (len(body), f"Content-Length: {size}" in head), (size, True))
        expect(
            "one longer",
            sent("Transfer-Encoding: chunked\r\n", b"%x\r\n%s\r\n0\r\n\r\n" % (size + 1, b" " * (size + 1))),
            (413, NOT_HANDED_ON % 413),
        )
        expect("a whole one", len(sent(f"Content-Length: {size}\r\n", b" " * size)[1]), size)
        expect("one that says more", sent(f"Content-Length: {size + 1}\r\n"), (413, NOT_HANDED_ON % 413))
        for wrong in (
            "Content-Length: 1\r\nContent-Length: 2\r\n",
            "Content-Length: 9\r\nTransfer-Encoding: chunked\r\n",
            "Transfer-Encoding: gzip, chunked\r\n",
            "X : y\r\n",
            "X: a\r b\r\n",
            f"X: {'x' * 9000}\r\n",
        ):
            told = sent(wrong)
            expect(
                f"{wrong[:50]!r}",
                (told[0] in (400, 501), told[1].startswith(b'{"proxy":'), told[1].endswith(b'"handed_on":false}')),
                (True, True, True),
            )
        head, _ = sent(
            "Cookie: a=b\r\nUser-Agent: u\r\nAccept: */*\r\nContent-Type: x/y\r\nTE: trailers\r\nUpgrade: h2c\r\n"
            "Keep-Alive: 3\r\nOrigin: null\r\nPledge_Key: x\r\nPledge-Receipt: a\r\nX: y\r\npledge-receipt: b\r\n"
        )
        expect(
            "what goes with it",
            head.split("\r\n")[1:],
            ["Connection: close", "Host: pawnd", "Pledge-Receipt: a", "X: y", "pledge-receipt: b"],
        )


def what_the_program_says_of_them():
    with Hosted() as it:
        receipts = it.open_books(2)
        fields = [f"Pledge-Receipt: {receipts[8][number % 2]}" for number in range(33)]
        reply = it.caller().ask("GET", "/books/8/held", *fields[:32])
        expect(
            "32 receipts",
            (status(reply), reply.body.count(b"Pledge 1\n"), reply.body.count(b"Pledge 2\n")),
            (200, 16, 16),
        )
        for step, reply, wanted in (
            ("33", it.caller().ask("GET", "/books/8/held", *fields), (400, 711)),
            ("no receipt", it.caller().ask("GET", "/books/8/held"), (400, 712)),
            (
                "a receipt of another book",
                it.caller().ask("GET", "/books/9/held", f"Pledge-Receipt: 2-{receipts[8][0][2:]}"),
                (404, 402),
            ),
            ("two keys", it.caller().ask("GET", "/books/8/pledges/1", KEY, KEY), (400, 709)),
            ("no such route", it.caller().broker("GET", "/books/8/shelves"), (404, 706)),
            ("another method", it.caller().ask("PUT", "/books/8/held", fields[0]), (400, 707)),
            (
                "a head of 8,192 bytes",
                it.caller().ask("GET", "/books/8/held", fields[0], "X: " + "x" * 8150),
                (400, 701),
            ),
        ):
            expect(step, (status(reply), json.loads(reply.body).get("code")), wanted)
        head = it.caller().ask("HEAD", "/books/8/held", fields[0])
        expect("HEAD", (status(head), head.body), (400, b""))


def what_is_unknown_and_what_was_not_done():
    """Nothing is sent twice; and the proxy says whether a request without a reply was passed on."""
    with Hosted(kind=Recorder, changes=(("proxy_read_timeout        60s", "proxy_read_timeout        1s"),)) as it:
        for way, wanted in (("close", 502), ("reset", 502), ("silence", 504)):
            for method in ("GET", "POST"):
                it.stores[1].way, before = way, len(it.stores[1].seen)
                reply = it.caller().ask(method, "/books/8/held", "Pledge-Receipt: 1-1")
                expect(
                    f"{method}, {way}",
                    (status(reply), reply.body, len(it.stores[1].seen) - before),
                    (wanted, b'{"proxy":%d,"handed_on":true}' % wanted, 1),
                )
                expect("it is not told to ask again", reply.fields.get("retry-after"), None)
        it.stores[1].kill()
        reply = it.caller().ask("POST", "/books/8/held/repay", "Pledge-Receipt: 1-1", body={})
        expect("a store that is away", (status(reply), reply.body), (503, NOT_HANDED_ON % 503))
        expect("when to ask again", reply.fields.get("retry-after"), "2")
        expect("another", status(it.caller().ask("GET", "/books/9/held")), 200)
        for field in ("content-security-policy", "strict-transport-security", "x-content-type-options"):
            expect(f"{field} of a refusal", field in reply.fields, True)


def guesses_are_slowed_down():
    with Hosted() as it:
        it.open_books()
        caller, begun = it.caller(), time.monotonic()
        told = [status(reply) for reply in guesses(caller, 7, 20)]
        # A burst of 20, and then 5 a second.
        most = 21 + 5 * (time.monotonic() - begun)
        expect("guesses of one address", (set(told), 20 <= told.count(404) <= most), ({404, 429}, True))
        expect("the refusal", proxys(caller.ask("GET", "/books/7/held", "Pledge-Receipt: 1-1")), (429, False))
        expect(
            "another address",
            status(it.caller().ask("GET", "/books/7/held", "Pledge-Receipt: 1-00000000000000000000000000000000")),
            404,
        )
        expect(
            "the same address by the key",
            status(Caller(it.port, caller.address).broker("GET", "/books/7/pledges/1")),
            200,
        )


TESTS = (
    the_life_of_a_pledge_over_tls,
    nothing_secret_is_noted,
    each_target_comes_to_its_book_or_nowhere,
    heads_and_bodies,
    what_the_program_says_of_them,
    what_is_unknown_and_what_was_not_done,
    guesses_are_slowed_down,
)

if __name__ == "__main__":
    main_with(PACKAGES, *TESTS)
