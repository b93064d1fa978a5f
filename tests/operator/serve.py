"""`make serve` as an operator uses it: what it makes and for whom, a second start, a port that is taken, a folder
that can't be written to, and TERM in the middle of a request. And the other commands of the Makefile that need no
proof."""
import http.client
import json
import os
import re
import signal
import stat
import subprocess
import tempfile
import time

from tests.library.checks import Failed, expect, main
from tests.library.keys import BROKER
from tests.library.paths import PROGRAM, TOP
from tests.library.program import check, free_port

UUID = re.compile(r"[0-9a-f]{8}(-[0-9a-f]{4}){3}-[0-9a-f]{12}\n")


def make(*words, umask=0o022, user=None):
    """`make` with these words over the program of the tests."""
    return subprocess.Popen(
        ["make", "-s", "-C", TOP, *words], stdin=subprocess.DEVNULL, stdout=subprocess.PIPE, stderr=subprocess.PIPE,
        text=True, umask=umask, user=user, env={**os.environ, "PAWND": PROGRAM}, start_new_session=True,
    )


class Service:
    """`make serve` of a folder, ended by a signal when the block is left."""

    def __init__(self, data, ending=signal.SIGTERM):
        self.data, self.port, self.ending = data, free_port(), ending

    def __enter__(self):
        self.program = make("serve", f"PORT={self.port}", f"DATA={self.data}")
        self.said = []
        for line in self.program.stdout:
            self.said.append(line)
            if line == f"listening {self.port}\n":
                return self
        raise Failed(f"it ended with {self.program.wait()}: {self.said} {self.program.stderr.read()}")

    def __exit__(self, *_):
        os.killpg(self.program.pid, self.ending)
        self.program.communicate(timeout=30)

    def key(self):
        with open(os.path.join(self.data, "operator.key")) as it:
            return it.read().strip()

    def ask(self, method, target, body=None, **fields):
        connection = http.client.HTTPConnection("127.0.0.1", self.port, timeout=30)
        connection.request(
            method, target, None if body is None else json.dumps(body),
            {name.replace("_", "-"): value for name, value in fields.items()},
        )
        reply = connection.getresponse()
        said = reply.read().decode()
        connection.close()
        return reply.status, json.loads(said) if said.startswith("{") else said

    def make_book(self, number):
        return self.ask(
            "POST", f"/books/{number}", {"capacity": 2, "key": BROKER, "name": "High Street"}, Pledge_Key=self.key(),
        )


def modes(folder):
    found = {".": os.stat(folder), **{name: os.stat(os.path.join(folder, name)) for name in os.listdir(folder)}}
    return {name: oct(stat.S_IMODE(it.st_mode)) for name, it in found.items()}


def all_is_its_owners_alone():
    with tempfile.TemporaryDirectory() as room:
        data = os.path.join(room, "data")
        with Service(data) as service:
            expect("a book", service.make_book(7), (200, {"book": 7}))
            expect(
                "modes", modes(data),
                {".": "0o700", "operator.key": "0o600", "books.db": "0o600", "books.db-wal": "0o600"},
            )
            said = "".join(service.said)
            for part in (f"http://localhost:{service.port}", os.path.join(data, "operator.key"), "curl -H"):
                expect(f"it says {part}", part in said, True)
            expect("the key is not told", service.key() in said, False)


def the_line_that_it_prints_makes_a_book():
    with tempfile.TemporaryDirectory() as room:
        with Service(os.path.join(room, "data")) as service:
            line = next(line for line in service.said if line.strip().startswith("curl "))
            ran = subprocess.run(["bash", "-c", line], capture_output=True, text=True, timeout=30)
            expect("what curl got", ran.stdout, '{"book":7}')
            with open(f"/proc/{service.program.pid}/cmdline") as it:
                expect("the key is on no command line", service.key() in it.read(), False)


def a_second_start_keeps_the_key_and_the_books():
    with tempfile.TemporaryDirectory() as room:
        data, keys = os.path.join(room, "data"), []
        for ending, books in ((signal.SIGTERM, (7,)), (signal.SIGINT, (7, 8)), (signal.SIGTERM, (7, 8, 9))):
            with Service(data, ending) as service:
                keys.append(service.key())
                for number in books:
                    expect(f"book {number}", service.make_book(number), (200, {"book": number}))
        expect("the key", bool(UUID.fullmatch(keys[0] + "\n")) and len(set(keys)) == 1, True)
        expect("the check", check(os.path.join(data, "books.db")), (0, "books 3 pledges 0 rows 3\n", ""))
        checked = make("check", f"DATA={data}")
        expect(
            "make check", (checked.communicate(timeout=60), checked.returncode),
            (("books 3 pledges 0 rows 3\n", ""), 0),
        )


def a_port_that_is_taken_leaves_nothing_behind():
    with tempfile.TemporaryDirectory() as room:
        with Service(os.path.join(room, "data")) as service:
            other = os.path.join(room, "other")
            second = make("serve", f"PORT={service.port}", f"DATA={other}")
            _, complained = second.communicate(timeout=60)
            expect("what it says", f"port {service.port} is taken" in complained, True)
            expect(
                "its status is another than 0, and nothing is made", (second.returncode != 0, os.path.exists(other)),
                (True, False),
            )
        for port in ("0", "65536", "x"):
            wrong = make("serve", f"PORT={port}", f"DATA={other}")
            _, complained = wrong.communicate(timeout=60)
            expect(
                f"port {port}", (wrong.returncode != 0, "PORT is a number" in complained, os.path.exists(other)),
                (True, True, False),
            )


def a_folder_that_cannot_be_written_to():
    with tempfile.TemporaryDirectory() as room:
        for path in (os.path.join(room, "file"), "/proc"):
            if path != "/proc":
                with open(path, "w"):
                    pass
            ended = make("serve", f"PORT={free_port()}", f"DATA={path}/data")
            _, complained = ended.communicate(timeout=60)
            expect(f"a folder in {path}", (ended.returncode != 0, "can't be written to" in complained), (True, True))


def what_was_acknowledged_stands_after_term():
    with tempfile.TemporaryDirectory() as room:
        data = os.path.join(room, "data")
        with Service(data) as service:
            expect("book 1", service.make_book(1), (200, {"book": 1}))
            half = http.client.HTTPConnection("127.0.0.1", service.port, timeout=30)
            half.putrequest("POST", "/books/2")
            half.putheader("Content-Length", "80")
            half.endheaders()
            half.send(b'{"capacity":2,')
            time.sleep(0.2)
        half.close()
        with Service(data) as service:
            told = service.make_book(1)
            expect("the book that was acknowledged", told, (200, {"book": 1}))
        expect("no other", check(os.path.join(data, "books.db")), (0, "books 1 pledges 0 rows 1\n", ""))


def other_words_are_told_the_commands():
    for words, status in ((("help",), 0), (("nonsense",), 2)):
        ended = make(*words)
        said, complained = ended.communicate(timeout=60)
        expect(
            f"make {words[0]}",
            (
                ended.returncode,
                all(it in said + complained for it in ("make serve", "make check", "make test", "make release")),
            ),
            (status, True),
        )


main(
    all_is_its_owners_alone, the_line_that_it_prints_makes_a_book, a_second_start_keeps_the_key_and_the_books,
    a_port_that_is_taken_leaves_nothing_behind, a_folder_that_cannot_be_written_to,
    what_was_acknowledged_stands_after_term, other_words_are_told_the_commands,
)
