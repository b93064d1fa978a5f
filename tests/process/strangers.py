"""Strangers: streams of requests, bent at random from a seed, by a pipe and over the loopback. The program neither
crashes nor hangs, ends with no other status, answers in whole replies alone, and keeps what it acknowledged before.

usage: python3 -m tests.process.strangers [STREAMS [SEED]]      400 streams by a pipe and a fourth as many over the
loopback, from seed 1, where nothing is said
"""
import os
import random
import re
import socket
import subprocess
import sys
import tempfile

from tests.library.checks import Failed, expect, main
from tests.library.keys import BROKER, OPERATOR, SEED
from tests.library.paths import PROGRAM
from tests.library.program import Server, check
from tests.library.requests import request
from tests.library.stories import STORIES

STREAMS = int(sys.argv[1]) if len(sys.argv) > 1 else 400
CHANCE = random.Random(int(sys.argv[2]) if len(sys.argv) > 2 else 1)
PIECES = [
    b"\r\n", b"\r\n\r\n", b"\n", b"\0", b"\xff", b"%37", b"//", b"..", b"?x=1", b" ", b"\t", b":", b",", b'"', b"{",
    b"}", b"[" * 300, b"]" * 300, b"9" * 25, b"-1", b"1e5", b"Content-Length: 5\r\n",
    b"Content-Length: 18446744073709551615\r\n", b"Transfer-Encoding: chunked\r\n", b"Connection: close\r\n",
    b"Pledge-Receipt: 1-\r\n", b"HTTP/1.0", b"HTTP/2.0", b"GET", b"HEAD", b"POST", b"OPTIONS", b"/held", b"/books/7",
    b"x" * 9000, b'{"a":' * 200, b"\xef\xbb\xbf", b"\xed\xa0\x80", b"null", b"true",
]
REPLY = re.compile(
    rb"HTTP/1\.1 (200 OK|400 Bad Request|403 Forbidden|404 Not Found|409 Conflict|503 Service Unavailable)\r\n"
    rb"Content-Length: (\d+)\r\n"
    rb"Content-Type: (application/json|text/plain; charset=utf-8|text/csv; charset=utf-8)\r\n\r\n"
)


def bent(stream):
    """A stream with a few of its places changed, cut, doubled or moved."""
    for _ in range(CHANCE.choice([1, 1, 2, 3, 8])):
        at = CHANCE.randrange(len(stream) + 1)
        end = min(len(stream), at + CHANCE.choice([1, 1, 2, 5, 20, 200]))
        way = CHANCE.randrange(6)
        if way == 0:
            stream = stream[:at] + CHANCE.choice(PIECES) + stream[at:]
        elif way == 1:
            stream = stream[:at] + CHANCE.choice(PIECES) + stream[end:]
        elif way == 2:
            stream = stream[:at] + stream[end:]
        elif way == 3:
            stream = stream[:end] + stream[at:end] + stream[end:]
        elif way == 4 and at < len(stream):
            stream = stream[:at] + bytes([stream[at] ^ (1 << CHANCE.randrange(8))]) + stream[at + 1:]
        else:
            stream = stream[:at]
    return stream


def are_replies(said, step):
    """Whether these bytes are whole replies, one behind the other."""
    while said:
        head = REPLY.match(said)
        if not head or len(said) < head.end() + int(head[2]):
            raise Failed(f"{step}: no whole reply: {said[:200]!r}")
        said = said[head.end() + int(head[2]):]


def streams():
    return [b"".join(story().requests) for story in STORIES]


def by_a_pipe():
    whole = streams()
    for number in range(STREAMS):
        stream = bent(CHANCE.choice(whole))
        try:
            ran = subprocess.run(
                [PROGRAM, "answer", ":memory:", "2024-01-31", SEED, OPERATOR], input=stream, capture_output=True,
                timeout=60,
            )
        except subprocess.TimeoutExpired:
            raise Failed(f"stream {number} hangs: {stream!r}") from None
        expect(f"stream {number}, {stream!r}", (ran.returncode, ran.stderr), (0, b""))
        are_replies(ran.stdout, f"stream {number}")


def send(server, stream):
    """What comes back of a stream, some of which is sent in pieces and some of which is left before its end."""
    said = b""
    try:
        with server.connect() as peer:
            size = 700 if CHANCE.random() < 0.3 else len(stream) or 1
            for at in range(0, max(len(stream), 1), size):
                peer.sendall(stream[at:at + size])
            if CHANCE.random() < 0.2:
                return
            peer.shutdown(socket.SHUT_WR)
            while piece := peer.recv(65536):
                said += piece
    except OSError:
        # It closed first, as it does after a fault.
        return
    are_replies(said, f"{stream[:200]!r}")


def over_the_loopback():
    whole = streams()
    with tempfile.TemporaryDirectory() as room:
        path = os.path.join(room, "books")
        with Server(path) as server:
            session = server.session()
            session.open_book(book=5)
            receipts = [session.open_pledge(number, book=5) for number in range(1, 4)]
            seen = [session.bearer(receipt, "GET", "/books/5/held") for receipt in receipts]
            session.close()
            for number in range(STREAMS // 4):
                send(server, bent(CHANCE.choice(whole)))
                if number % 20 == 0:
                    expect(
                        "the pledges among strangers",
                        [session.bearer(receipt, "GET", "/books/5/held") for receipt in receipts], seen,
                    )
                    session.close()
            expect("the service after all that", server.program.poll(), None)
        expect("its check", check(path)[0], 0)


def a_stranger_who_knows_the_key():
    """Good requests of random numbers, days and texts by the book's own key, whose replies are whole and never a
    fault of the store."""
    stream = [
        request("POST", "/books/7", f"Pledge-Key: {OPERATOR}", body=f'{{"capacity":1,"key":"{BROKER}","name":"x"}}')
    ]
    for _ in range(900):
        number = CHANCE.choice([0, 1, 2, 99, 999999999, 10**12, 10**12 - 1])
        day = CHANCE.choice(["2024-02-30", "2199-12-31", "2000-01-01", "2024-01-31", "1999-12-31", "x"])
        target = CHANCE.choice(
            [
                "/terms", "/pledges", "/pledges/1", "/pledges/1/draw", "/pledges/1/repay", "/pledges/1/declare",
                "/pledges/1/decide", "/pledges/1/sell", "/pledges/1/extend", f"/pledges/{number}", f"/days/{day}",
                "/export", "/import", "/held",
            ]
        )
        body = CHANCE.choice(
            [
                f'{{"version":{number},"rate":{number},"keep_before":{number},"keep_after":0}}',
                f'{{"pence":{number},"seq":{number}}}', f'{{"until":"{day}"}}', '{"paper":"sworn"}',
                f'{{"ref":"{CHANCE.randrange(9)}","article":"{day}","kind":"running","pence":{number},'
                f'"five_days":true,"agreed":"{day}"}}',
                '{"yes":true}', f'{{"net":{number}}}', "", "[]",
            ]
        )
        stream.append(
            request(
                CHANCE.choice(["GET", "POST"]), f"/books/7{target}", f"Pledge-Key: {BROKER}", f"Import-Key: {BROKER}",
                body=body,
            )
        )
    ran = subprocess.run(
        [PROGRAM, "answer", ":memory:", "2024-01-31", SEED, OPERATOR], input=b"".join(stream), capture_output=True,
        timeout=120,
    )
    expect("how it ended", (ran.returncode, ran.stderr, ran.stdout.count(b'"code":492')), (0, b"", 0))
    are_replies(ran.stdout, "the stream")


main(by_a_pipe, over_the_loopback, a_stranger_who_knows_the_key)
