"""Whole requests and their replies, byte for byte, in the files of tests/turns/: over a file that is opened anew for
each day, and in memory where a run has one day alone. Also a bearer among strangers, whose replies are what they are
without them.

usage: python3 -m tests.answers.turns [NAME..]     (ann_and_bo plays tests/turns/ann_and_bo.txt alone)

A turn that fails is named by its file, the line of its request and its number. A turn is two lines. The first is a
request: its day, the word of its stamp, who asks, the method and the target, and the body. Who asks is named by its
key, or by its receipts, each by its pledge and the word that issued it. The second line is the reply: its status and
its body. A `|` in a body means the end of a line. A word is one that the program draws by itself, so its secret is
taken from the first reply that has it.
"""
import glob
import itertools
import os
import re
import subprocess
import tempfile
from typing import NamedTuple

from tests.library.checks import expect, main
from tests.library.keys import OPERATOR, SECRET
from tests.library.paths import PROGRAM, TOP
from tests.library.program import check
from tests.library.tables import opened
from tests.library.turns import Words, asked, reply

FILES = sorted(os.path.basename(path)[:-len(".txt")] for path in glob.glob(os.path.join(TOP, "tests/turns/*.txt")))
# The files that are played where a file has room for so many rows. All others have the program's own limit.
ROWS = {"two_lives": 12, "full": 12, "at_the_limit": 12}


class Turn(NamedTuple):
    """A turn: its place, its request's line and its reply's."""
    place: str
    asked: str
    wanted: str


def turns_in(name):
    """The turns of a file."""
    with open(os.path.join(TOP, "tests/turns", f"{name}.txt"), encoding="utf-8") as it:
        lines = [(number, line.rstrip("\n")) for number, line in enumerate(it, 1) if not line.startswith("#")]
    pairs = zip(lines[::2], lines[1::2], strict=True)
    return [
        Turn(f"tests/turns/{name}.txt:{number}, turn {turn}", asked, wanted)
        for turn, ((number, asked), (_, wanted)) in enumerate(pairs, 1)
    ]


def answers(database, day, seed, stream, step="a run"):
    ran = subprocess.run(
        [PROGRAM, "answer", database, day, f"{seed:064x}", OPERATOR], input=stream, capture_output=True, timeout=60,
    )
    expect(f"how {step} ended", (ran.returncode, ran.stderr), (0, b""))
    return ran.stdout


def split(stream):
    """The replies of a stream, one by one."""
    while stream:
        head, _, rest = stream.partition(b"\r\n\r\n")
        length = int(re.search(rb"Content-Length: (\d+)", head)[1])
        yield head + b"\r\n\r\n" + rest[:length]
        stream = rest[length:]


def compared(step, turns, replies, wanted):
    """Compares the reply to each turn with what is wanted, and how many there are."""
    for turn, told, want in zip(turns, replies, wanted):
        expect(f"{turn.place}, {turn.asked:.120}", told.decode(), want.decode())
    expect(f"how many replies {step}, from {turns[0].place} on", len(replies), len(turns))


def plays(database, turns):
    """Plays turns, those of one day that need no secret of their own in one run of the program, and compares each
    reply."""
    words, at, seed = Words(), 0, 0
    while at < len(turns):
        end = at + 1
        day = turns[at].asked.split("|")[0]
        while end < len(turns) and turns[end].asked.split("|")[0] == day and '"receipt"' not in turns[end - 1].wanted:
            end += 1
        part, seed = turns[at:end], seed + 1
        sent = [asked(turn.asked, words) for turn in part]
        told = list(
            split(answers(database, day, seed, b"".join(it[2] for it in sent), f"the run from {part[0].place} on"))
        )
        for turn, one, said in zip(part, sent, told):
            words.learn(one[1], turn.wanted, said.decode())
        compared("there are", part, told, [reply(turn.wanted, words) for turn in part])
        at = end


def limited(path, rows):
    """A file with room for so many rows."""
    expect("its check", check(path), (0, "books 0 pledges 0 rows 0\n", ""))
    with opened(path) as tables:
        tables.execute("UPDATE meta SET value = ? WHERE name = 'limit'", (rows,))


def playing(name):
    """A test that plays a file's turns over a file of the program."""
    def test():
        with tempfile.TemporaryDirectory() as room:
            path = os.path.join(room, "books")
            if name in ROWS:
                limited(path, ROWS[name])
            plays(path, turns_in(name))
            expect("its check", check(path)[0], 0)
    test.__name__ = name
    return test


def a_day_in_memory_is_as_over_a_file():
    """Each run of turns of one day, in memory by one stream: the books begin with that day, so the replies are
    compared with a file's."""
    for name in ("two_lives", "a_day", "full", "exports", "imports", "lost_twice", "one_of_each"):
        words, turns = Words(), turns_in(name)
        for secret in range(1, 20):
            words.secrets[secret] = f"{secret:08x}-0000-0000-0000-000000000000"
        stream = b"".join(asked(turn.asked, words)[2] for turn in turns)
        with tempfile.TemporaryDirectory() as room:
            file = list(split(answers(os.path.join(room, "books"), "2024-02-01", 5, stream, f"{name} over a file")))
        memory = list(split(answers(":memory:", "2024-02-01", 5, stream, f"{name} in memory")))
        expect(f"{name}: how many replies over a file", len(file), len(turns))
        compared("there are in memory", turns, memory, file)


SET_UP = [
    '2024-01-31|0|operator|POST /books/7|'
    '{"capacity":1,"key":"22222222-2222-2222-2222-222222222222","name":"High Street"}',
    '2024-01-31|0|broker|POST /books/7/terms|{"keep_after":0,"keep_before":0,"rate":100,"version":1}',
    '2024-01-31|1|broker|POST /books/7/pledges|'
    '{"article":"Gold ring","five_days":false,"kind":"fixed","pence":10000,"ref":"A1"}',
]
BEARERS = [
    '2024-02-10|0|1-1|POST /books/7/held/ask|{"day":"2024-03-04","window":3}',
    "2024-02-10|0|1-1|GET /books/7/held|",
    '2024-02-11|0|1-1|POST /books/7/held/repay|{"pence":100,"seq":1}',
    "2024-02-12|0|1-1|POST /books/7/held/cancel|",
    '2024-02-12|0|1-1|POST /books/7/held/redeem|{"paid":1}',
    '2024-02-12|0|1-1|POST /books/7/held/redeem|{"paid":9911}',
    "2024-02-12|0|1-1|GET /books/7/held|",
]


def stranger(path, number, words, seed):
    """A stranger's pledge is taken, and its bearer asks for the window of the bearer of pledge 1, which the first of
    them fills."""
    opening = f'{{"article":"Clock","five_days":true,"kind":"running","pence":500,"ref":"B{number}"}}'
    told = answers(
        path, "2024-02-10", seed, asked(f"2024-02-10|0|broker|POST /books/7/pledges|{opening}", words)[2],
    ).decode()
    words.secrets[number] = SECRET.findall(told)[-1]
    lines = [f'2024-02-10|0|{number}-{number}|POST /books/7/held/ask|{{"day":"2024-03-04","window":3}}',
             f'2024-02-10|0|broker|POST /books/7/pledges/{number}/decide|{{"yes":true}}']
    told = list(split(answers(path, "2024-02-10", seed + 1000, b"".join(asked(line, words)[2] for line in lines))))
    expect(f"stranger {number}", [it.split()[1] for it in told], [b"200", b"200" if number == 2 else b"409"])


def bearers_replies(path, strangers):
    """The replies to the bearer of pledge 1, with so many strangers before each of its requests."""
    words, numbers, said = Words(), itertools.count(2), []
    told = answers(path, "2024-01-31", 1, b"".join(asked(line, words)[2] for line in SET_UP)).decode()
    words.secrets[1] = SECRET.findall(told)[-1]
    for seed, line in enumerate(BEARERS, 2):
        for _ in range(strangers):
            number = next(numbers)
            stranger(path, number, words, 100 + number)
        day, _, request = asked(line, words)
        said.append(answers(path, day, seed, request))
    return said


def strangers_change_no_reply_to_a_bearer():
    with tempfile.TemporaryDirectory() as room:
        alone = bearers_replies(os.path.join(room, "alone"), 0)
        among = bearers_replies(os.path.join(room, "among"), 6)
    expect("the statuses", [it.split()[1] for it in alone], [b"200", b"200", b"200", b"200", b"409", b"200", b"404"])
    expect("the replies among strangers", among, alone)


if __name__ == "__main__":
    main(*map(playing, FILES), a_day_in_memory_is_as_over_a_file, strangers_change_no_reply_to_a_bearer)
