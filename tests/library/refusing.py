"""What the scripts share that refuse calls of the machine in the program: the library that does it, runs under it, and
what the rules say of them.

A run in which something was refused is compared with a clean run: each request that was answered 491 or 492 is replaced
by one that changes nothing and takes its stamp, and then each other reply has to be the same, byte for byte, and so
the content at the end."""
import atexit
import concurrent.futures
import json
import os
import re
import shutil
import subprocess
import tempfile

from tests.library.checks import Failed, expect
from tests.library.filled_stores import fill_store
from tests.library.keys import BROKER, OPERATOR, SEED
from tests.library.older_stores import (
    BACK_TO_FIRST, BACK_TO_SECOND, WITHOUT_INDEXES, a_sound_migration, migrate, older_copy,
)
from tests.library.paths import PROGRAM, TOP
from tests.library.program import check
from tests.library.requests import request

DAY = "2024-01-31"
REFUSED = (b'{"code":491,"name":"Memory"}', b'{"code":492,"name":"Store"}')
# It changes nothing, and takes a stamp.
NOTHING = request("GET", "/books/999999999/held")
ROOM = tempfile.mkdtemp(prefix="pawnd-refusing-")
atexit.register(shutil.rmtree, ROOM, ignore_errors=True)


def library():
    """The path of the library that refuses calls, made by the C compiler; None where there is none."""
    path = os.path.join(ROOM, "refuse.so")
    if not os.path.exists(path):
        compiler = shutil.which("cc") or shutil.which("gcc") or shutil.which("clang")
        if not compiler:
            return None
        source = os.path.join(TOP, "tests/library/refuse.c")
        subprocess.run([compiler, "-O1", "-fPIC", "-shared", "-o", path, source, "-ldl"], check=True)
    return path


def refusing(calls, at=None, mode="once", error=5, count=None, during=None):
    """The environment of a program in which calls are refused, if a file is named only while that is there."""
    said = {"LD_PRELOAD": library(), "REFUSE_CALLS": calls, "REFUSE_MODE": mode, "REFUSE_ERROR": str(error)}
    if at is not None:
        said["REFUSE_AT"] = str(at)
    if count is not None:
        said["REFUSE_COUNT"] = count
    if during is not None:
        said["REFUSE_WHILE"] = during
    return {**os.environ, **said}


class Ran:
    """How a run of the program over a stream ended, and what it said."""

    def __init__(self, database, stream, environment=None, day=DAY, timeout=120):
        ran = subprocess.run(
            [PROGRAM, "answer", database, day, SEED, OPERATOR], input=stream, capture_output=True, timeout=timeout,
            env=environment,
        )
        self.status, self.said, self.complained = ran.returncode, ran.stdout, ran.stderr.decode()

    def replies(self):
        """The whole replies, and what comes after the last of them."""
        found, left = [], self.said
        while left:
            head, _, rest = left.partition(b"\r\n\r\n")
            length = re.search(rb"Content-Length: (\d+)", head)
            if not length or len(rest) < int(length[1]):
                break
            found.append(left[:len(head) + 4 + int(length[1])])
            left = rest[int(length[1]):]
        return found, left


def body_of(reply):
    return reply.partition(b"\r\n\r\n")[2]


def is_marked(reply):
    return body_of(reply) in REFUSED


class Story:
    """Requests of one day, with the receipts of their replies, over a store that may hold something before."""

    def __init__(self, name, start=None):
        self.name, self.requests, self.start, self.clean = name, [], start, {}

    def ask(self, *asked):
        """Adds a request, and returns its answer in a clean run, as JSON where it is that."""
        self.requests.append(
            request(*asked[:-1], body=json.dumps(asked[-1])) if isinstance(asked[-1], dict) else request(*asked)
        )
        said = body_of(self.run_clean(())[0][-1])
        return json.loads(said) if said.startswith(b"{") else said.decode()

    def asked(self, marks):
        return [NOTHING if place in marks else it for place, it in enumerate(self.requests)]

    def store(self, kind):
        """A store of a kind, as it is before the story: in memory, or the path of a file in a folder of its own."""
        if kind == "memory":
            return ":memory:"
        folder = tempfile.mkdtemp(dir=ROOM)
        if self.start:
            for name in os.listdir(self.start):
                shutil.copyfile(os.path.join(self.start, name), os.path.join(folder, name))
        return os.path.join(folder, "books")

    def run_clean(self, marks):
        """The replies of a run in which nothing is refused, those of these requests aside, and what it leaves."""
        if not marks or marks not in self.clean:
            path = self.store("file")
            ran = Ran(path, b"".join(self.asked(marks)))
            if ran.status or ran.complained:
                raise Failed(f"{self.name}: a clean run ended with {ran.status}, {ran.complained}")
            self.clean[marks] = ran.replies()[0], content(path)
            shutil.rmtree(os.path.dirname(path))
        return self.clean[marks]


def content(path, books=(7, 8)):
    """What a file holds: its counts, and the text of each of its books."""
    return check(path), texts_of(path, books)


def texts_of(path, books=(1, 8)):
    """The text of each of these books of a file."""
    texts = Ran(path, b"".join(request("GET", f"/books/{book}/export", f"Pledge-Key: {BROKER}") for book in books))
    if texts.status:
        raise Failed(f"the content of {path}: {texts.status}, {texts.complained}")
    return texts.said


def breach(story, ran, path):
    """How a run in which a call was refused breaks the rules; None if it does not. Its replies are the first ones of a run
    in which no call is refused and the marked requests are left out, apart from the marked replies themselves. Over a
    file, the content is that of such a run, or of one in which a single request that was marked or not answered is done.
    """
    replies, rest = ran.replies()
    marks = tuple(place for place, reply in enumerate(replies) if is_marked(reply))
    unanswered = tuple(range(len(replies), len(story.requests)))
    wanted, left = story.run_clean(marks + unanswered)
    for place, (reply, want) in enumerate(zip(replies, wanted)):
        if place not in marks and reply != want:
            return f"reply {place + 1} is {reply[-200:]!r} in place of {want[-200:]!r}"
    if rest and not story.run_clean(marks)[0][len(replies)].startswith(rest):
        return f"what comes after reply {len(replies)} is no beginning of the next: {rest!r}"
    if path == ":memory:":
        return None
    found = content(path)
    if found == left:
        return None
    for place in (*marks, *unanswered[:1]):
        if found == story.run_clean(tuple(it for it in marks + unanswered if it != place))[1]:
            return None
    return f"it holds {found[0]} and {found[1][-300:]!r} in place of {left[0]} and {left[1][-300:]!r}"


def counted(story, kind, calls):
    """How many of these calls a run makes where none is refused."""
    path, count = story.store(kind), os.path.join(tempfile.mkdtemp(dir=ROOM), "count")
    ran = Ran(path, b"".join(story.requests), refusing(calls, count=count))
    if ran.status:
        raise Failed(f"{story.name}: a run in which calls are counted ended with {ran.status}, {ran.complained}")
    with open(count) as it:
        return int(it.read())


def each_refused(story, kind, calls, ends, step=1, first=1, **how):
    """Refuses each of these calls in turn, and checks each run. Returns how many there were. What a run may end with,
    beside 0, is in ends."""
    whole = counted(story, kind, calls)

    def one(at):
        path = story.store(kind)
        ran = Ran(path, b"".join(story.requests), refusing(calls, at=at, **how))
        if (ran.status, ran.complained) not in ((0, ""), *ends):
            why = f"it ended with {ran.status}, {ran.complained!r}"
        else:
            why = breach(story, ran, path)
        if path != ":memory:":
            shutil.rmtree(os.path.dirname(path))
        return why and f"{story.name}, {kind}, call {at} of {whole} ({calls}, {how}): {why}"

    with concurrent.futures.ThreadPoolExecutor(len(os.sched_getaffinity(0))) as pool:
        for why in pool.map(one, range(first, whole + 1, step)):
            if why:
                raise Failed(why)
    return whole


def each_refused_in_a_migration(calls, ends, step=1, first=lambda: 1, books=8, **how):
    """Refuses each of these calls in turn while a store of an older schema is moved, or one of the program's gets its
    indexes. Each run does it or ends as one of ends, and leaves the store for another try, which leads to the same
    books. Returns how many calls there were for each schema."""
    told = []
    for number, statements in ((1, BACK_TO_FIRST), (2, BACK_TO_SECOND), (3, WITHOUT_INDEXES)):
        with tempfile.TemporaryDirectory() as room:
            made, count = os.path.join(room, "made"), os.path.join(room, "count")
            fill_store(made, books, 1, entries=2, bookings=True)
            old = older_copy(made, os.path.join(room, "old"), *statements)
            whole = older_copy(old, os.path.join(room, "whole"))
            expect("a migration", migrate(whole, refusing(calls, count=count)), a_sound_migration(number))
            with open(count) as it:
                told.append(int(it.read()))
            wanted = texts_of(whole)

            def one(at):
                folder = tempfile.mkdtemp(dir=room)
                try:
                    one_of_a_migration(
                        old, os.path.join(folder, "books"), number, ends, wanted, f"call {at} ({calls}, {how})",
                        refusing(calls, at=at, **how),
                    )
                finally:
                    shutil.rmtree(folder)

            with concurrent.futures.ThreadPoolExecutor(len(os.sched_getaffinity(0))) as pool:
                for _ in pool.map(one, range(first(), told[-1] + 1, step)):
                    pass
    return told


def one_of_a_migration(old, path, number, ends, wanted, step, environment):
    """Moves a copy of an old store with something refused, and moves it again: it holds the same books."""
    older_copy(old, path)
    ended = migrate(path, environment)
    if ended != a_sound_migration(number) and ended not in ends:
        raise Failed(f"a migration from {number}, {step}: {ended}")
    expect(f"it is moved then, {step}", migrate(path) in (a_sound_migration(number), a_sound_migration(3)), True)
    expect(f"what it holds, {step}", texts_of(path), wanted)
