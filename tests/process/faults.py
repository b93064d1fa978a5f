"""What the program says on its standard error, and its exit status: usage, faults in their order, files that are no
store of its, and ends that fail."""
import os
import socket
import subprocess
import tempfile
import time

from tests.library.checks import expect, main
from tests.library.keys import OPERATOR, SEED
from tests.library.paths import PROGRAM, TOP
from tests.library.program import a_book_of, a_sound_check, check, fault, free_port, how_it_ends
from tests.library.requests import request
from tests.library.stores import database_of, expect_files_stay, file_of, files_and_log, files_of_other_programs
from tests.library.tables import counted, opened

DAY = "2024-01-31"
USAGE = (2, "usage: pawnd answer|serve|migrate|check\n")
IO = (3, "fault io\n")


def the_words_are_those_of_no_command():
    for words in [
        (), ("reply",), ("answer",), ("answer", ":memory:", DAY, SEED),
        ("answer", ":memory:", DAY, SEED, OPERATOR, "x"), ("serve", ":memory:", "8080"),
        ("serve", ":memory:", "8080", OPERATOR, "x"), ("migrate",), ("check",), ("check", "books", "x"),
    ]:
        expect(f"{words}", how_it_ends(*words), USAGE)


def the_first_fault_of_answer_is_told():
    for words, wanted in [
            ((":memory:", "2024-02-30", "x", "x"), fault(101, "BadDay")),
            (("books", "2200-01-01", "x", "x"), fault(101, "BadDay")),
            (("books", DAY, "x", "x"), fault(801, "BadSeed")),
            (("books", DAY, SEED[1:], "x"), fault(801, "BadSeed")),
            (("books", DAY, SEED[1:] + "g", OPERATOR), fault(801, "BadSeed")),
            (("books", DAY, SEED, "no/such/file"), fault(803, "BadKey")),
            (("books", DAY, SEED, "/"), fault(803, "BadKey")),
            (("no/such/books", DAY, SEED, OPERATOR), fault(503, "Store"))]:
        expect(f"answer {words}", how_it_ends("answer", *words), wanted)


def the_first_fault_of_serve_is_told():
    for words, wanted in [
            (("books", "0", "x"), fault(802, "BadPort")),
            (("books", "65536", "x"), fault(802, "BadPort")),
            (("books", "08080", "x"), fault(802, "BadPort")),
            (("books", "+80", "x"), fault(802, "BadPort")),
            (("books", "", "x"), fault(802, "BadPort")),
            (("books", "8080", "no/such/file"), fault(803, "BadKey")),
            (("no/such/books", "8080", OPERATOR), fault(503, "Store"))]:
        expect(f"serve {words}", how_it_ends("serve", *words), wanted)


def a_key_may_stand_in_a_file():
    with tempfile.TemporaryDirectory() as room:
        for end, wanted in [("", (0, "")), ("\n", (0, "")), ("\r\n", (0, "")), ("\n\n", fault(803, "BadKey"))]:
            path = os.path.join(room, "key")
            with open(path, "w", newline="") as it:
                it.write(OPERATOR + end)
            expect(f"a line end {end!r}", how_it_ends("answer", ":memory:", DAY, SEED, path), wanted)


def a_key_is_read_from_a_short_regular_file_alone():
    """A pipe without a writer is not waited for, and of a file that is long, or has no end, little is read."""
    with tempfile.TemporaryDirectory() as room:
        pipe, long, link = (os.path.join(room, name) for name in ("pipe", "long", "link"))
        os.mkfifo(pipe)
        with open(long, "w") as it:
            it.write(OPERATOR + "\n")
            it.truncate(1 << 40)
        os.symlink("/dev/zero", link)
        for path in (pipe, long, link, "/dev/zero", "/dev/stdin", room):
            begun = time.monotonic()
            ended = how_it_ends("answer", ":memory:", DAY, SEED, path)
            expect(f"a key in {path}", ended, fault(803, "BadKey"))
            expect(f"it is reported at once for {path}", time.monotonic() - begun < 10, True)
        os.symlink(os.path.join(room, "key"), os.path.join(room, "linked"))
        with open(os.path.join(room, "key"), "w") as it:
            it.write(OPERATOR)
        ended = how_it_ends("answer", ":memory:", DAY, SEED, os.path.join(room, "linked"))
        expect("a key behind a link", ended, (0, ""))


def stored(name):
    """The files next to the program's source: the stored run's requests, or its replies."""
    with open(os.path.join(TOP, "crates/pawnd", name), "rb") as it:
        return it.read()


def told_over(path):
    """The replies to the requests of the stored run over a file."""
    ran = subprocess.run(
        [PROGRAM, "answer", path, DAY, SEED, OPERATOR], input=stored("stdin"), capture_output=True, timeout=30,
    )
    expect("how it ended", (ran.returncode, ran.stderr), (0, b""))
    return ran.stdout


def the_stored_run_over_a_file_is_answered_again_from_it():
    with tempfile.TemporaryDirectory() as room:
        path = os.path.join(room, "books")
        for life in ("the first time", "the second time", "the third time"):
            expect(life, told_over(path), stored("stdout"))
            expect(f"its check, {life}", check(path), (0, "books 1 pledges 1 rows 4\n", ""))


def a_check_where_nothing_is_makes_an_empty_store():
    with tempfile.TemporaryDirectory() as room:
        path, empty = os.path.join(room, "books"), [0] * 6
        for step, of in [("in memory", ":memory:"), ("where nothing is", path), ("of what that made", path)]:
            expect(f"a check {step}", check(of), a_sound_check(empty))
        expect("what it made", counted(path), empty)
        file_of(b"")(os.path.join(room, "empty"))
        expect("a check of an empty file", check(os.path.join(room, "empty")), a_sound_check(empty))
        expect("what it made of it", counted(os.path.join(room, "empty")), empty)


def ours_but(*statements):
    """A store of ours, after these statements."""
    def make(path):
        told_over(path)
        with opened(path) as tables:
            for statement in statements:
                tables.execute(statement)
    return make


def of_schema(number):
    return ours_but(f"UPDATE meta SET value = {number} WHERE name = 'schema'")


def cut_at(length):
    def make(path):
        told_over(path)
        os.truncate(path, length)
    return make


def against_its_own_text(table, old, new, *statements):
    """A store with rows that its tables' own text does not allow."""
    def make(path):
        told_over(path)
        with opened(path) as tables:
            text, = tables.execute("SELECT sql FROM sqlite_schema WHERE name = ?", (table,)).fetchone()
            tables.execute("PRAGMA writable_schema = ON")
            tables.execute("UPDATE sqlite_schema SET sql = ? WHERE name = ?", (text.replace(old, new), table))
        with opened(path) as tables:
            for statement in statements:
                tables.execute(statement)
            tables.execute("PRAGMA writable_schema = ON")
            tables.execute("UPDATE sqlite_schema SET sql = ? WHERE name = ?", (text, table))
    return make


def is_refused(path, wanted, step):
    expect(f"answer, {step}", how_it_ends("answer", path, DAY, SEED, OPERATOR), wanted)
    expect(f"serve, {step}", how_it_ends("serve", path, str(free_port()), OPERATOR), wanted)
    expect(f"check, {step}", how_it_ends("check", path), wanted)


def is_refused_and_stays(path, wanted, step):
    expect_files_stay(path, step, lambda: is_refused(path, wanted, step))


def files_that_are_no_store_of_ours_are_refused_and_stay():
    for step, make, wanted in [
        *((step, make, fault(502, "NotOurs")) for step, make in files_of_other_programs()),
        ("a text", file_of(b"The books of High Street.\n" * 400), fault(503, "Store")),
        ("a short text", file_of(b"books"), fault(503, "Store")), ("zeros", file_of(bytes(8192)), fault(503, "Store")),
        ("a store cut in half", cut_at(20480), fault(503, "Store")),
        ("a store cut within a page", cut_at(9000), fault(503, "Store")),
        ("a store cut within its header", cut_at(60), fault(503, "Store")),
        (
            "a NULL where none may be",
            against_its_own_text(
                "pledges", "article TEXT NOT NULL", "article TEXT", "UPDATE pledges SET article = NULL",
            ),
            fault(503, "Store"),
        ),
        ("a reference to no row", ours_but("INSERT INTO entries VALUES (7, 2, 1, 19753, 1, 100)"), fault(503, "Store")),
        (
            "other tables alone", database_of("CREATE TABLE note (id INTEGER PRIMARY KEY, title TEXT)"),
            fault(502, "NotOurs"),
        ),
        (
            "a table meta without a schema", database_of("CREATE TABLE meta (name TEXT PRIMARY KEY, value INTEGER)"),
            fault(502, "NotOurs"),
        ),
        ("a newer schema", of_schema(4), fault(502, "NotOurs")), ("the schema 0", of_schema(0), fault(502, "NotOurs")),
        ("an older schema", of_schema(2), fault(501, "OldSchema")),
        ("the oldest schema", of_schema(1), fault(501, "OldSchema")),
    ]:
        with tempfile.TemporaryDirectory() as room:
            path = os.path.join(room, "books")
            make(path)
            is_refused_and_stays(path, wanted, step)


def a_file_that_another_program_has_open_is_refused():
    with tempfile.TemporaryDirectory() as room:
        with a_book_of(room) as (path, _, client):
            for number in (1, 2):
                receipt = client.open_pledge(number)
                client.close()
                before = files_and_log(path)
                is_refused(path, fault(503, "Store"), f"{number} pledges are served")
                expect(f"the files of {number} pledges stay", files_and_log(path) == before, True)
                status, said = client.bearer(receipt, "GET", "/books/7/held")
                expect(f"the statement of pledge {number}", (status, said.splitlines()[0]), (200, f"Pledge {number}"))
            client.close()
        expect("a check, once it was killed", check(path), (0, "books 1 pledges 2 rows 6\n", ""))


def paths_that_are_no_file_are_refused():
    with tempfile.TemporaryDirectory() as room:
        path = os.path.join(room, "books")
        is_refused(os.path.join(path, "books"), fault(503, "Store"), "no such folder")
        is_refused(room, fault(503, "Store"), "a folder")
        is_refused("", fault(503, "Store"), "the empty path")
        expect("the folder", os.listdir(room), [])
        file_of(b"")(path)
        is_refused(os.path.join(path, "books"), fault(503, "Store"), "a file in the path")


def a_port_that_is_taken_is_not_listened_on():
    port = free_port()
    with socket.socket() as taken:
        taken.bind(("127.0.0.1", port))
        taken.listen()
        expect("serve", how_it_ends("serve", ":memory:", str(port), OPERATOR), IO)
        expect("serve, over no store", how_it_ends("serve", "/", str(port), OPERATOR), fault(503, "Store"))


def input_that_cannot_be_read_breaks_off():
    folder = os.open("/", os.O_RDONLY)
    try:
        expect("answer", how_it_ends("answer", ":memory:", DAY, SEED, OPERATOR, stdin=folder), IO)
    finally:
        os.close(folder)


def output_that_cannot_be_written_breaks_off():
    with open("/dev/full", "wb") as full, tempfile.TemporaryFile() as asked:
        asked.write(request("GET", "/books/7/held"))
        asked.seek(0)
        expect("answer", how_it_ends("answer", ":memory:", DAY, SEED, OPERATOR, stdin=asked, stdout=full), IO)
        expect("serve", how_it_ends("serve", ":memory:", str(free_port()), OPERATOR, stdout=full), IO)


main(
    the_words_are_those_of_no_command, the_first_fault_of_answer_is_told, the_first_fault_of_serve_is_told,
    a_key_may_stand_in_a_file, a_key_is_read_from_a_short_regular_file_alone,
    the_stored_run_over_a_file_is_answered_again_from_it,
    a_check_where_nothing_is_makes_an_empty_store, files_that_are_no_store_of_ours_are_refused_and_stay,
    a_file_that_another_program_has_open_is_refused, paths_that_are_no_file_are_refused,
    a_port_that_is_taken_is_not_listened_on, input_that_cannot_be_read_breaks_off,
    output_that_cannot_be_written_breaks_off,
)
