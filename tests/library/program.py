"""The program as a process: a service, answers to a stream of requests, a check, a migration, and how each ends."""
import contextlib
import json
import os
import socket
import subprocess

from tests.library.checks import expect
from tests.library.keys import OPERATOR, SEED
from tests.library.paths import PROGRAM
from tests.library.sessions import WAIT, Session

DAY = "2024-03-01"


def free_port():
    with socket.socket() as it:
        it.bind(("127.0.0.1", 0))
        return it.getsockname()[1]


class Server:
    """`pawnd serve` of a store on a free port, killed when the block is left. How it is started may be said as to
    Popen."""

    def __init__(self, database=":memory:", **how):
        self.database, self.how = database, how

    def __enter__(self):
        self.port = free_port()
        self.program = subprocess.Popen(
            [PROGRAM, "serve", self.database, str(self.port), OPERATOR],
            **{"stdin": subprocess.DEVNULL, "stdout": subprocess.PIPE, "stderr": subprocess.PIPE, **self.how},
        )
        expect("the first line, by a pipe", self.program.stdout.readline(), f"listening {self.port}\n".encode())
        return self

    def __exit__(self, *_):
        self.program.kill()
        self.program.communicate()

    def connect(self):
        return socket.create_connection(("127.0.0.1", self.port), timeout=WAIT)

    def session(self):
        return Session(self.port)


@contextlib.contextmanager
def a_book_of(room):
    """A service of a new store in the room, and a client that has made a book: the store's path, the two of them."""
    path = os.path.join(room, "books")
    with Server(path) as server:
        client = server.session()
        client.open_book()
        yield path, server, client


def check(path):
    """How a check of a file ends, and what it says."""
    ran = subprocess.run([PROGRAM, "check", path], capture_output=True, timeout=60)
    return ran.returncode, ran.stdout.decode(), ran.stderr.decode()


def a_sound_check(rows):
    """The same of a sound store with so many rows in each counted table."""
    return 0, f"books {rows[0]} pledges {rows[2]} rows {sum(rows)}\n", ""


def answer(path, *requests, seed=SEED, day=DAY):
    """The statuses and the bodies of the replies to requests over a file."""
    ran = subprocess.run(
        [PROGRAM, "answer", path, day, seed, OPERATOR], input=b"".join(requests), capture_output=True, timeout=60
    )
    expect("how it ended", (ran.returncode, ran.stderr), (0, b""))
    replies, rest = [], ran.stdout
    while rest:
        head, rest = rest.split(b"\r\n\r\n", 1)
        status, *fields = head.decode().split("\r\n")
        fields = dict(field.split(": ", 1) for field in fields)
        length = int(fields["Content-Length"])
        body, rest = rest[:length].decode(), rest[length:]
        replies.append(
            (int(status.split()[1]), json.loads(body) if fields["Content-Type"] == "application/json" else body)
        )
    expect("how many replies", len(replies), len(requests))
    return replies


def how_it_ends(*words, stdin=subprocess.DEVNULL, stdout=subprocess.DEVNULL):
    """The status and what went to the standard error."""
    ran = subprocess.run([PROGRAM, *words], stdin=stdin, stdout=stdout, stderr=subprocess.PIPE, timeout=30)
    return ran.returncode, ran.stderr.decode()


def fault(number, name):
    """How a run ends that a fault ends."""
    return 1, f"fault {number} {name}\n"
