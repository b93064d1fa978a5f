"""The programs of examples/ against the built program: what they print, that a broker's day run twice is one day,
and what they do where replies are lost, where the proxy keeps requests back, where no service is there, where another
sum is owing, and where an article is meant to mislead."""
import datetime
import os
import re
import socket
import subprocess
import sys
import threading

from tests.library.book_texts import COLUMNS, row
from tests.library.checks import expect, main
from tests.library.dates import six_months_after, today
from tests.library.keys import BROKER, OPERATOR
from tests.library.packages import provide
from tests.library.paths import TOP
from tests.library.program import Server
from tests.library.requests import request
from tests.library.sessions import WAIT, read_all
from tests.library.sums import SMALL

RECEIPT = re.compile(r"\d+-[0-9a-f]{8}(?:-[0-9a-f]{4}){3}-[0-9a-f]{12}")
STARTS = {"py": [sys.executable], "sh": ["bash"], "mjs": ["node"]}
LANGUAGES = [name for name in STARTS if name != "mjs" or not provide({"node": "nodejs"})]
if "mjs" not in LANGUAGES:
    print("not tried: the examples in JavaScript, since node is not installed", flush=True)
TOMORROW = str(today() + datetime.timedelta(1))


def runs(name, *words, typed="", **environment):
    """How an example ends, what it prints, and what it complains of, where this is typed to it."""
    command = [*STARTS[name.split(".")[1]], os.path.join(TOP, "examples", name), *words]
    ran = subprocess.run(
        command, env={**os.environ, **environment}, input=typed.encode(), capture_output=True, timeout=120,
    )
    return ran.returncode, ran.stdout.decode(), ran.stderr.decode()


class Relay:
    """Passes each request on to the service, and its reply back."""

    def __init__(self, port):
        self.to, self.seen, self.listener = port, set(), socket.create_server(("127.0.0.1", 0))
        self.url = f"http://127.0.0.1:{self.listener.getsockname()[1]}"

    def __enter__(self):
        threading.Thread(target=self.serve, daemon=True).start()
        return self

    def __exit__(self, *_):
        self.listener.close()

    def serve(self):
        while True:
            try:
                connection, _ = self.listener.accept()
            except OSError:
                return
            with connection:
                self.take(connection)

    def take(self, connection):
        asked = b""
        while b"\r\n\r\n" not in asked or len(asked.partition(b"\r\n\r\n")[2]) < int(
            (re.search(rb"Content-Length: (\d+)", asked) or [0, 0])[1]
        ):
            piece = connection.recv(65536)
            if not piece:
                return
            asked += piece
        line = asked.partition(b"\r\n")[0], asked.partition(b"\r\n\r\n")[2]
        is_new = line not in self.seen
        self.seen.add(line)
        connection.sendall(self.reply(asked, is_new and asked.startswith(b"POST")))

    def reply(self, asked, is_new):
        """What is sent back; `is_new` is whether it is a POST that was not seen before."""
        return self.hand_on(asked)

    def hand_on(self, asked):
        with socket.create_connection(("127.0.0.1", self.to), timeout=WAIT) as service:
            service.sendall(
                re.sub(rb"(?i)\r\nconnection: [^\r]*", b"", asked).replace(b"\r\n", b"\r\nConnection: close\r\n", 1)
            )
            return read_all(service)


class Losing(Relay):
    """Loses the first reply to each POST: it closes the connection in its place."""

    def reply(self, asked, is_new):
        said = self.hand_on(asked)
        return b"" if is_new else said


class CuttingTheHead(Relay):
    """Ends the first reply to each POST in its head."""

    def reply(self, asked, is_new):
        said = self.hand_on(asked)
        return said.partition(b"\r\nContent-Length:")[0] + b"\r\nContent-Le" if is_new else said


class Failing(Relay):
    """Answers each new POST with 492, although its request is done, as the next start of the service may find."""

    def reply(self, asked, is_new):
        said = self.hand_on(asked)
        if not is_new:
            return said
        head = b"HTTP/1.1 503 Service Unavailable\r\nContent-Type: application/json\r\nContent-Length: 27\r\n\r\n"
        return head + b'{"code":492,"name":"Store"}'


class KeepingBack(Relay):
    """Says to each new POST what a proxy says that could not hand it on."""

    def reply(self, asked, is_new):
        said = b'{"proxy":503,"handed_on":false}'
        head = b"HTTP/1.1 503 Service Unavailable\r\nContent-Type: application/json\r\nRetry-After: 0\r\n"
        kept = head + b"Content-Length: %d\r\n\r\n%s" % (len(said), said)
        return kept if is_new else self.hand_on(asked)


class Forbidding(Relay):
    """Answers each POST as a proxy does that lets no caller in."""

    def reply(self, asked, is_new):
        said = b'{"proxy":403,"handed_on":false}'
        return b"HTTP/1.1 403 Forbidden\r\nContent-Type: application/json\r\nContent-Length: %d\r\n\r\n%s" % (
            len(said), said,
        )


class Cheapening(Relay):
    """Has the first redemption pay a penny less than was asked for, as if another day had begun."""

    def reply(self, asked, is_new):
        # In the body alone: a receipt may have these digits, too.
        cheaper = re.sub(rb'("paid": ?)9000', rb"\g<1>8999", asked)
        return self.hand_on(cheaper if is_new and b"/redeem" in asked else asked)


class Leaving(Relay):
    """Is not there any more once tomorrow's sheet was read."""

    def reply(self, asked, is_new):
        if f"/days/{TOMORROW}".encode() in asked:
            self.listener.close()
        return self.hand_on(asked)


def of_a_day(number, receipt, asked=()):
    """What a broker's day prints: the pledge taken on it, and the bookings that it decided on."""
    day = today()
    return "".join(f"{line}\n" for line in (
        "terms 1", f"pledge {number} receipt {receipt}", f"repaid 10.00 on {day}", "too much: owing is 90.00",
        *(f"booking of pledge {pledge} for window 3 {state}" for pledge, state in asked),
        f"Day sheet {day}", "Asked 0", "Ends 0", f"the book has {number} pledges and 1 entries"))


def of_a_visit(receipt, last, article="Gold ring"):
    """What a pawnor's visit prints."""
    day = today()
    return "".join(
        f"{line}\n"
        for line in (
            f"Pledge {receipt.split('-')[0]}", f"Article {article}", "Kind fixed 100.00", f"Taken {day}",
            f"Ends {six_months_after(day)}", "Status inside", "Principal 100.00", "Charges 0.00", "Owing 100.00",
            "Held no", "Booking none", f"window 3 of {TOMORROW} asked", "repaid 10.00 as entry 1", last,
        )
    )


def books_for(server):
    """A book for each language, of terms that the day finds; one booking a window."""
    session = server.session()
    for book, _ in enumerate(LANGUAGES, 7):
        made = session.ask(
            "POST", f"/books/{book}", {"capacity": 1, "key": BROKER, "name": "High Street"}, Pledge_Key=OPERATOR,
        )
        expect(f"book {book}", made, (200, {"book": book}))
        terms = {"keep_after": 0, "keep_before": 0, "rate": 2667, "version": 1}
        expect("its terms", session.broker("POST", f"/books/{book}/terms", terms), (200, {"version": 1}))
    return session


def a_brokers_day():
    with Server() as server:
        session, url = books_for(server), f"http://127.0.0.1:{server.port}"
        for book, language in enumerate(LANGUAGES, 7):
            receipts = [session.open_pledge(number, book) for number in (1, 2)]
            for receipt in receipts:
                asked = session.bearer(receipt, "POST", f"/books/{book}/held/ask", {"day": TOMORROW, "window": 3})
                expect("a booking", asked[0], 200)
            session.close()
            status, said, complained = runs(f"broker_day.{language}", url, str(book), BROKER)
            mine = RECEIPT.search(said)[0] if RECEIPT.search(said) else "none"
            expect(
                f"{language}: the day", (status, said, complained),
                (0, of_a_day(3, mine, [(1, "confirmed"), (2, "refused")]), ""),
            )
            again = runs(f"broker_day.{language}", PLEDGE_URL=url, PLEDGE_BOOK=str(book), PLEDGE_KEY=BROKER)
            expect(f"{language}: the day once more", again, (0, of_a_day(3, mine), ""))
            _, said, _ = runs(f"broker_day.{language}", url, str(book), BROKER, "3")
            found = RECEIPT.findall(said)
            expect(
                f"{language}: a declaration",
                (len(found), found[0] == mine, said.replace(f"new receipt {found[-1]}\n", "")),
                (2, True, of_a_day(3, mine)),
            )
            stranger = runs(f"broker_day.{language}", url, str(book), BROKER.replace("2", "3"))
            expect(f"{language}: another key", stranger, (1, "", "stopped: 401 NoSuchBook\n"))


def a_pawnors_visit():
    with Server() as server:
        session, url = books_for(server), f"http://127.0.0.1:{server.port}"
        for book, language in enumerate(LANGUAGES, 7):
            receipt = session.open_pledge(1, book)
            session.close()
            visit = runs(f"pawnor_visit.{language}", PLEDGE_URL=url, PLEDGE_BOOK=str(book), PLEDGE_RECEIPT=receipt)
            expect(f"{language}: the visit", visit, (0, of_a_visit(receipt, f"redeemed on {today()} for 90.00"), ""))
            later = runs(f"pawnor_visit.{language}", url, str(book), receipt)
            expect(f"{language}: the receipt later", later, (1, "", "this receipt is not live\n"))


def a_visit_that_is_not_booked():
    """Whatever the refusal is, there is no booking, and the visit goes on. The first pledge's last change is on a day
    that the clock has not reached, and the second pledge has passed."""
    secret = "da41597c-5157-488d-7724-e03fb8d84a37"
    rows = [COLUMNS, row("B", 2, 1, 2), row("T", 1, 2667, 0, 0)]
    for number, day in ((1, "2199-01-31"), (2, "2024-01-31")):
        rows += [
            row("P", number, f"A{number}", "Gold ring", "fixed", SMALL, day, "", "no", 1, "no", day, "open"),
            row("S", number, 1, day, "opening", secret),
        ]
    fields = (f"Pledge-Key: {BROKER}", f"Import-Key: {BROKER}", "Connection: close")
    with Server() as server:
        session, url = server.session(), f"http://127.0.0.1:{server.port}"
        made = {"capacity": 1, "key": BROKER, "name": "High Street"}
        expect("the book", session.ask("POST", "/books/7", made, Pledge_Key=OPERATOR), (200, {"book": 7}))
        session.close()
        with server.connect() as connection:
            connection.sendall(request("POST", "/books/7/import", *fields, body="\n".join(rows)))
            expect("the import", read_all(connection).split(b"\r\n\r\n")[1], b'{"imported":2}')
        for language in LANGUAGES:
            for number, why in ((1, "205 EarlierDay"), (2, "304 Passed")):
                status, said, complained = runs(f"pawnor_visit.{language}", url, "7", f"{number}-{secret}")
                expect(
                    f"{language}: {why}", (status, said.splitlines()[-1], complained),
                    (1, f"no booking: {why}", f"stopped: {why}\n"),
                )


def a_day_goes_on_after_a_visit():
    """The broker's day, the visit of the pawnor who got its receipt, and the day again."""
    with Server() as server:
        session, url = books_for(server), f"http://127.0.0.1:{server.port}"
        session.close()
        for book, language in enumerate(LANGUAGES, 7):
            said = runs(f"broker_day.{language}", url, str(book), BROKER)[1]
            receipt = RECEIPT.search(said)[0]
            visit = runs(f"pawnor_visit.{language}", url, str(book), receipt)[1].splitlines()
            expect(
                f"{language}: the visit", visit[-2:], ["repaid 10.00 as entry 2", f"redeemed on {today()} for 80.00"],
            )
            again = runs(f"broker_day.{language}", url, str(book), BROKER)
            wanted = said.replace("too much: owing is 90.00", "the pledge is closed by now")
            wanted = wanted.replace("1 entries", "2 entries")
            expect(f"{language}: the day again", again, (0, wanted, ""))


def each_is_done_once(losing):
    with Server() as server, losing(server.port) as relay:
        session = books_for(server)
        for book, language in enumerate(LANGUAGES, 7):
            session.close()
            status, said, complained = runs(f"broker_day.{language}", relay.url, str(book), BROKER, "1")
            mine = RECEIPT.search(said)[0] if RECEIPT.search(said) else "none"
            warning = "no reply: a new receipt may have been made. Declare again only if the pawnor did not get it.\n"
            expect(f"{language}: the day", (status, said.replace(warning, "")), (0, of_a_day(1, mine)))
            expect(f"{language}: the declaration", (warning in said, "declare" in complained), (True, False))
            paths = [line.split()[4] for line in complained.splitlines()]
            expect(
                f"{language}: what was sent again", paths,
                ["/terms;", "/pledges;", "/pledges/1/repay;", "/pledges/1/repay;"],
            )
            expect(
                f"{language}: its receipt", session.bearer(mine, "GET", f"/books/{book}/held"),
                (404, {"code": 402, "name": "NoSuchReceipt"}),
            )
            receipt = session.open_pledge(2, book)
            session.close()
            _, said, _ = runs(f"pawnor_visit.{language}", relay.url, str(book), receipt)
            last = "redeemed, it seems: the reply was lost, and the receipt is not live any more. The broker can tell."
            expect(f"{language}: the visit", said, of_a_visit(receipt, last))
            shown = session.broker("GET", f"/books/{book}/pledges/2")[1].splitlines()
            expect(
                f"{language}: what was done", shown[-2:],
                [f"Redeemed {today()} paid 90.00", f"Entry 1 {today()} repay 10.00"],
            )
            session.close()


def lost_replies():
    """Each request is done once, whatever was lost, and a declaration is not sent again."""
    each_is_done_once(Losing)


def replies_that_end_in_their_head():
    """They are lost replies, although curl and Python's library report the status 200 and no error."""
    each_is_done_once(CuttingTheHead)


def replies_of_a_store_that_failed():
    """After 492 a request may turn out to be done, so it is treated as one without a reply."""
    each_is_done_once(Failing)


# What an article may be, of at most 80 bytes.
HOSTILE = [
    "Ring\u2028Entry 1 2024-01-31 repay 1.00", "Ring\u2029Owing 0.01", "Ring\u0085Pledge 1 window 3",
    'Ring, "gold", 9,000', "<script>alert('ring')</script>&amp;", "\u202e\u062e\u0627\u062a\u0645 \u0630\u0647\u0628",
    "$(touch ring) `id` \\n %s", "\u2028P,1,A1\u2028E,1,1", "Entry 1 2024-01-31 repay 1.00",
]


def articles_that_are_meant_to_mislead():
    """The statement is shown as it is, the next entry is the next one, and all that is owing is paid."""
    with Server() as server:
        session, url = books_for(server), f"http://127.0.0.1:{server.port}"
        for book, language in enumerate(LANGUAGES, 7):
            for number, article in enumerate(HOSTILE, 1):
                receipt = session.open_pledge(number, book, article=article)
                session.close()
                visit = runs(f"pawnor_visit.{language}", url, str(book), receipt)
                expect(
                    f"{language}: {article!r}", visit,
                    (0, of_a_visit(receipt, f"redeemed on {today()} for 90.00", article), ""),
                )
            said = runs(f"broker_day.{language}", url, str(book), BROKER)[1].split("\n")
            expect(
                f"{language}: the book", said[-2],
                f"the book has {len(HOSTILE) + 1} pledges and {len(HOSTILE) + 1} entries",
            )


def what_the_proxy_kept_back():
    """It was not done, so each request is sent again, a declaration too, and nothing may have been done twice."""
    with Server() as server, KeepingBack(server.port) as relay:
        session = books_for(server)
        for book, language in enumerate(LANGUAGES, 7):
            receipt = session.open_pledge(1, book)
            session.close()
            status, said, complained = runs(f"broker_day.{language}", relay.url, str(book), BROKER, "1")
            expect(
                f"{language}: the day",
                (status, len(RECEIPT.findall(said)), "may have" in said, complained.count("declare; sent again")),
                (0, 2, False, 1),
            )
            newest = RECEIPT.findall(said)[-1]
            visit = runs(f"pawnor_visit.{language}", relay.url, str(book), newest)[:2]
            expect(f"{language}: the visit", visit, (0, of_a_visit(newest, f"redeemed on {today()} for 90.00")))
            expect(f"{language}: the first receipt", session.bearer(receipt, "GET", f"/books/{book}/held")[0], 404)
            session.close()


def what_the_proxy_refuses_for_good():
    with Server() as server, Forbidding(server.port) as relay:
        for language in LANGUAGES:
            status, said, complained = runs(f"broker_day.{language}", relay.url, "7", BROKER)
            expect(
                f"{language}: the end",
                (status, said, complained.count("sent again"), complained.startswith("stopped: no reply")),
                (1, "", 0, True),
            )


def another_sum_is_paid_only_when_a_person_says_so():
    with Server() as server, Cheapening(server.port) as relay:
        session = books_for(server)
        for book, language in enumerate(LANGUAGES, 7):
            for number, (typed, last) in enumerate(
                (("", "not redeemed"), ("no\n", "not redeemed"), ("yes\n", f"redeemed on {today()} for 90.00")), 1,
            ):
                receipt = session.open_pledge(number, book)
                session.close()
                relay.seen.clear()
                status, said, _ = runs(f"pawnor_visit.{language}", relay.url, str(book), receipt, typed=typed)
                question = "Owing is 90.00 now, and not 90.00. Pay that? (yes) "
                expect(f"{language}: with {typed!r}", (status, said), (0, of_a_visit(receipt, f"{question}\n{last}")))


def a_declaration_that_was_never_sent():
    with Server() as server:
        session = books_for(server)
        for book, language in enumerate(LANGUAGES, 7):
            receipt = session.open_pledge(1, book)
            session.close()
            with Leaving(server.port) as relay:
                said = runs(f"broker_day.{language}", relay.url, str(book), BROKER, "1")[1]
            expect(
                f"{language}: the declaration",
                ("nothing was sent, so no receipt was made" in said, "may have" in said), (True, False),
            )
            expect(f"{language}: the receipt", session.bearer(receipt, "GET", f"/books/{book}/held")[0], 200)
            session.close()


def no_process_listens():
    for language in LANGUAGES:
        status, said, complained = runs(
            f"pawnor_visit.{language}", "http://127.0.0.1:1", "7", "1-00000000-0000-0000-0000-000000000000",
        )
        expect(
            f"{language}: the end",
            (status, said, complained.count("sent again"), complained.splitlines()[-1].startswith("stopped: no reply")),
            (1, "", 2, True),
        )
        why = "(HTTP 000)" if language == "sh" else "no connection was made: "
        expect(f"{language}: why", why in complained.splitlines()[-1], True)
        status, said, complained = runs(f"pawnor_visit.{language}")
        expect(f"{language}: without words", (status, said, "usage: pawnor_visit" in complained), (1, "", True))


main(
    a_brokers_day, a_pawnors_visit, a_visit_that_is_not_booked, a_day_goes_on_after_a_visit, lost_replies,
    replies_that_end_in_their_head, replies_of_a_store_that_failed,
    articles_that_are_meant_to_mislead, what_the_proxy_kept_back, what_the_proxy_refuses_for_good,
    another_sum_is_paid_only_when_a_person_says_so, a_declaration_that_was_never_sent, no_process_listens,
)
