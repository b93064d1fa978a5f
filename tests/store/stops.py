"""`pawnd serve` over a file, killed in the middle of requests and started again: what was answered is there, and what
was not is there whole or not at all."""
import copy
import csv
import datetime
import http.client
import io
import os
import random
import subprocess
import tempfile
import threading
import time

from tests.library.checks import Failed, expect, main
from tests.library.dates import today
from tests.library.keys import OPERATOR
from tests.library.paths import PROGRAM
from tests.library.program import Server, a_sound_check, check, free_port
from tests.library.tables import counted

# So many stops at most, and so many at least: fewer than the most where they take more than SPAN seconds, and the least
# within LIMIT seconds.
STOPS, FIRST_STOPS, SPAN, LIMIT = (40, 24), (20, 12), 35, 600


class FileServer(Server):
    """`pawnd serve` over a file."""

    def __init__(self, path):
        self.path = path

    def __enter__(self):
        self.start()
        expect("the first line", self.program.stdout.readline(), f"listening {self.port}\n".encode())
        return self

    def start(self):
        self.port = free_port()
        self.program = subprocess.Popen([PROGRAM, "serve", self.path, str(self.port), OPERATOR],
                                        stdin=subprocess.DEVNULL, stdout=subprocess.PIPE, stderr=subprocess.PIPE)

    def stop(self):
        self.program.kill()


class Account:
    """What a client holds of its book: for each pledge its reference, receipts, entries, extensions, booking and
    state."""

    def __init__(self):
        self.pledges = []

    def open(self):
        return [p for p in self.pledges if p["closed"] == "open"]

    def after(self, asked, said=None):
        """The account when this was answered. A receipt is none until it is known."""
        new = copy.deepcopy(self)
        what, number, body = asked
        if what == "pledges":
            pledge = {
                "ref": body["ref"], "secrets": [None], "entries": [], "until": [], "booking": None, "held": "no",
                "closed": "open",
            }
            new.pledges.append(pledge)
        else:
            pledge = new.pledges[number - 1]
        if what == "repay":
            pledge["entries"].append(str(body["pence"]))
        elif what == "declare":
            pledge["secrets"].append(None)
        elif what in ("hold", "release"):
            pledge["held"] = "yes" if what == "hold" else "no"
        elif what == "extend":
            pledge["until"].append(body["until"])
        elif what == "ask":
            pledge["booking"] = (body["day"], str(body["window"]), "asked")
        elif what == "redeem":
            pledge["closed"] = "redeemed"
            if pledge["booking"]:
                pledge["booking"] = (*pledge["booking"][:2], "cancelled")
        if said and "receipt" in said:
            pledge["secrets"][-1] = said["receipt"].split("-", 1)[1]
        return new

    def rows(self):
        return 2 + sum(1 + len(p["secrets"]) + len(p["entries"]) + (p["booking"] is not None) for p in self.pledges)

    def is_of(self, text):
        """Whether a book's text agrees with this account; receipts that are not known yet are taken from it."""
        told = pledges_of(text)
        if len(told) != len(self.pledges):
            return False
        for ours, theirs in zip(self.pledges, told):
            if len(ours["secrets"]) == len(theirs["secrets"]):
                ours["secrets"] = [one or other for one, other in zip(ours["secrets"], theirs["secrets"])]
        return told == self.pledges


def pledges_of(text):
    """The pledges of a book's text, in the form of an account."""
    told = []
    for row in csv.reader(io.StringIO(text)):
        if row[0] == "P":
            told.append(
                {
                    "ref": row[2], "secrets": [], "entries": [], "until": [], "booking": None, "held": row[10],
                    "closed": row[12],
                }
            )
        elif row[0] == "S":
            told[-1]["secrets"].append(row[5])
        elif row[0] == "E":
            told[-1]["entries"].append(row[5])
        elif row[0] == "X":
            told[-1]["until"].append(row[4])
        elif row[0] == "K":
            told[-1]["booking"] = tuple(row[2:5])
    return told


def choose(chance, account):
    """A request that the service accepts: its action, the number of its pledge and its body."""
    ways = ["pledges", "repay", "repay", "repay", "declare", "hold", "release", "extend", "ask", "redeem"]
    standing = account.open()
    what = chance.choice(ways) if standing else "pledges"
    if what == "pledges":
        return what, None, {
            "article": "Gold ring", "five_days": False, "kind": "fixed", "pence": 10000,
            "ref": f"A{len(account.pledges) + 1}",
        }
    pledge = chance.choice(standing)
    number = account.pledges.index(pledge) + 1
    later = today() + datetime.timedelta(days=200 + len(pledge["until"]))
    paid = 10000 - sum(map(int, pledge["entries"]))
    if what == "redeem" and pledge["held"] == "yes" or len(pledge["until"]) > 90 or len(pledge["secrets"]) > 90:
        what = "release"
    return what, number, {
        "repay": {"seq": len(pledge["entries"]) + 1, "pence": chance.randint(1, 5)}, "declare": {"paper": "sworn"},
        "extend": {"until": later.isoformat()},
        "ask": {
            "day": (today() + datetime.timedelta(days=chance.randint(1, 9))).isoformat(),
            "window": chance.randrange(16),
        },
        "redeem": {"paid": paid},
    }.get(what)


def ask(session, account, asked):
    what, number, body = asked
    if what == "pledges":
        return session.broker("POST", "/books/7/pledges", body)
    if what in ("ask", "redeem"):
        receipt = f"{number}-{account.pledges[number - 1]['secrets'][-1]}"
        return session.bearer(receipt, "POST", f"/books/7/held/{what}", body)
    return session.broker("POST", f"/books/7/pledges/{number}/{what}", body)


def live(server, account, chance, span):
    """Asks until the server is gone: the account of what was answered, and the request that was in hand."""
    session = server.session()
    threading.Timer(chance.uniform(0, span), server.stop).start()
    while True:
        asked = choose(chance, account)
        try:
            status, said = ask(session, account, asked)
        except (OSError, http.client.HTTPException):
            server.program.wait()
            return account, asked
        expect(f"{asked}", (status, said), (200, said))
        account = account.after(asked, said)


def judge_file(path, counts):
    """The file opens in SQLite as it was left, and holds so much."""
    rows = counted(path)
    expect("counts", check(path), a_sound_check(rows))
    expect("rows", sum(rows) in counts, True)


def goes_on(server, account, asked):
    """The server's book agrees with the account, with or without the request in progress, which is then sent again."""
    session = server.session()
    status, text = session.broker("GET", "/books/7/export")
    expect("an export", status, 200)
    held = next((one for one in (account, account.after(asked)) if one.is_of(text)), None)
    if held is None:
        raise Failed(f"{asked} in hand: {text[-900:]!r} in place of {account.pledges[-3:]!r}")
    if asked[0] in ("pledges", "repay") and held is account:
        held = account.after(asked, ask(session, account, asked)[1])
    elif asked[0] in ("pledges", "repay"):
        status, said = ask(session, held, asked)
        expect(f"{asked} again", status, 200)
        expect(
            f"{asked} again, its receipt",
            said.get("receipt", "-").split("-", 1)[1] in ("", held.pledges[-1]["secrets"][0]), True,
        )
    for number, pledge in list(enumerate(held.pledges, 1))[-8:]:
        status, said = session.bearer(f"{number}-{pledge['secrets'][-1]}", "GET", "/books/7/held")
        expect(f"the receipt of {number}", status, 200 if pledge["closed"] == "open" else 404)
        if status == 200:
            expect(f"the entries of {number}", said.count("\nEntry "), len(pledge["entries"]))
    session.close()
    return held


def stops(most, least):
    """Counts the stops that are to be made, from 1."""
    begun = time.monotonic()
    for done in range(most):
        taken = time.monotonic() - begun
        if done >= least and taken > SPAN:
            break
        if taken > LIMIT:
            raise Failed(f"{done} stops in {taken:.0f} seconds, and {least} are wanted in {LIMIT}")
        yield done + 1


def what_was_answered_outlives_a_kill():
    chance, account, asked = random.Random(7), Account(), None
    with tempfile.TemporaryDirectory() as folder:
        path = os.path.join(folder, "books.db")
        with FileServer(path) as server:
            session, first = server.session(), time.monotonic()
            session.open_book()
            span = 40 * (time.monotonic() - first)
            session.close()
        for stop in stops(*STOPS):
            with FileServer(path) as server:
                if asked:
                    account = goes_on(server, account, asked)
                account, asked = live(server, account, chance, span)
            judge_file(path, (account.rows(), account.after(asked).rows()))
        with FileServer(path) as server:
            account = goes_on(server, account, asked)
        print(f"        {stop} stops, {len(account.pledges)} pledges, {account.rows()} rows")


def a_kill_while_a_file_is_made_leaves_it_to_be_made():
    chance, span = random.Random(8), None
    for _ in stops(*FIRST_STOPS):
        with tempfile.TemporaryDirectory() as folder:
            path = os.path.join(folder, "books.db")
            server, first = FileServer(path), time.monotonic()
            server.start()
            if span is None:
                server.program.stdout.readline()
                span = time.monotonic() - first
            threading.Timer(chance.uniform(0, span), server.stop).start()
            server.program.communicate()
            expect("an empty store", check(path), a_sound_check([0] * 6))
            judge_file(path, (0,))
            with server:
                server.session().open_book()


main(what_was_answered_outlives_a_kill, a_kill_while_a_file_is_made_leaves_it_to_be_made)
