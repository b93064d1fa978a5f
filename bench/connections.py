"""Prints microseconds a request over connections of `pawnd serve :memory:`, beside the same bytes through `pawnd
answer`.

usage: python3 -m bench.connections [PROGRAM]     (default: build/pawnd)

Openings and views of one book of 499 pledges, each request sent when the reply before it has come: over one connection,
and over a connection for each. Beside them a bare round trip over the loopback, of as many bytes, by a thread that
sends back what it reads. What a client in Python costs is in all of these, so the service's own part is what is above
the round trip.
"""
import os
import socket
import subprocess
import sys
import threading
import time

if len(sys.argv) > 1:
    os.environ["PAWND"] = sys.argv[1]

from tests.library.keys import OPERATOR, SEED  # noqa: E402
from tests.library.paths import PROGRAM  # noqa: E402
from tests.library.program import Server  # noqa: E402
from bench import requests  # noqa: E402

COUNT = 499
START = list(requests.start())
OPENINGS = [requests.opening(n) for n in range(COUNT)]


def read_reply(peer):
    """The bytes of one reply."""
    said = b""
    while b"\r\n\r\n" not in said:
        said += peer.recv(65536)
    head, body = said.split(b"\r\n\r\n", 1)
    length = int(head.split(b"Content-Length: ")[1].split(b"\r\n")[0])
    while len(body) < length:
        body += peer.recv(65536)
    return body


def over_one(port, asked):
    with socket.create_connection(("127.0.0.1", port)) as peer:
        peer.setsockopt(socket.IPPROTO_TCP, socket.TCP_NODELAY, 1)
        told = []
        for one in asked:
            peer.sendall(one)
            told.append(read_reply(peer))
        return told


def over_many(port, asked):
    return [over_one(port, [one])[0] for one in asked]


def timed(name, call, port, asked):
    begun = time.perf_counter()
    told = call(port, asked)
    taken = time.perf_counter() - begun
    print(f"{name:52}{taken / len(asked) * 1e6:10.1f} microseconds each")
    return told


def views(told):
    return [requests.view(receipt) for receipt in requests.receipts(b"".join(told))]


def echo(listener):
    while True:
        peer, _ = listener.accept()
        with peer:
            peer.setsockopt(socket.IPPROTO_TCP, socket.TCP_NODELAY, 1)
            while peer.recv(65536):
                peer.sendall(b"HTTP/1.1 200 OK\r\nContent-Length: 156\r\n\r\n" + b"x" * 156)


def through_answer(name, asked, before):
    """The time of these requests behind others, less that of the others."""
    def taken(stream):
        best = None
        for _ in range(9):
            begun = time.perf_counter()
            subprocess.run(
                [PROGRAM, "answer", ":memory:", "2024-01-31", SEED, OPERATOR], input=b"".join(stream),
                stdout=subprocess.PIPE, check=True,
            )
            spent = time.perf_counter() - begun
            best = spent if best is None else min(best, spent)
        return best
    print(f"{name:52}{(taken(before + asked) - taken(before)) / len(asked) * 1e6:10.1f} microseconds each")


def main():
    for way, call in (("over one connection", over_one), ("over a connection for each", over_many)):
        with Server() as server:
            over_one(server.port, START)
            told = timed(f"openings {way}", call, server.port, OPENINGS)
            timed(f"views {way}", call, server.port, views(told))
    with socket.create_server(("127.0.0.1", 0)) as listener:
        threading.Thread(target=echo, args=(listener,), daemon=True).start()
        port = listener.getsockname()[1]
        timed("a bare round trip over one connection", over_one, port, OPENINGS)
        timed("a bare round trip over a connection for each", over_many, port, OPENINGS)
    through_answer("openings through `pawnd answer`", OPENINGS, START)
    ran = subprocess.run(
        [PROGRAM, "answer", ":memory:", "2024-01-31", SEED, OPERATOR], input=b"".join(START + OPENINGS),
        stdout=subprocess.PIPE, check=True,
    )
    told = ran.stdout.split(b"HTTP/1.1 ")[3:]
    through_answer("views through `pawnd answer`", views(told), START + OPENINGS)


main()
