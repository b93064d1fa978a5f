"""`pawnd serve` with real clients: connections that go well, and peers that are silent, slow, gone or deaf."""
import random
import signal
import socket
import struct
import time

from tests.library.checks import expect, main
from tests.library.program import Server
from tests.library.requests import refusal, request
from tests.library.sessions import WAIT, read_all

NONE = refusal(712, "NoReceipt", "400 Bad Request")
ASKED = request("GET", "/books/7/held")
LAST = request("GET", "/books/7/held", "Connection: close")


def next_is_answered(step, server, within=WAIT):
    """The next connection is answered, and soon enough."""
    begun = time.monotonic()
    with server.connect() as peer:
        peer.sendall(LAST)
        expect(f"the next after {step}", read_all(peer), NONE)
    taken = time.monotonic() - begun
    expect(f"the next after {step}, within {within} seconds", taken < within, True)


def many_requests_on_one_connection():
    with Server() as server, server.connect() as peer:
        peer.sendall(ASKED * 500)
        peer.shutdown(socket.SHUT_WR)
        expect("500 replies", read_all(peer), NONE * 500)


def a_thousand_requests_and_no_more():
    with Server() as server:
        with server.connect() as peer:
            peer.sendall(ASKED * 1001)
            expect("1,000 replies to 1,001 requests", read_all(peer), NONE * 1000)
        next_is_answered("a thousand", server)


def a_request_cut_in_two_by_a_pause():
    with Server() as server, server.connect() as peer:
        body = '{"capacity":2}'
        asked = request("POST", "/books/7", f"Pledge-Key: {'1' * 32}", body=body)
        for cut in (10, asked.index(b"\r\n\r\n") + 2, len(asked) - 3):
            peer.sendall(asked[:cut])
            time.sleep(0.3)
            peer.sendall(asked[cut:])
            wanted = refusal(708, "BadBody", "400 Bad Request")
            expect(f"cut at byte {cut}", peer.recv(4096), wanted)


def a_peer_that_says_nothing():
    with Server() as server, server.connect():
        next_is_answered("silence", server)


def a_peer_that_stops_in_the_middle_of_a_request():
    with Server() as server:
        with server.connect() as peer:
            peer.sendall(ASKED[:20])
            next_is_answered("a part of a head", server)
        with server.connect() as peer:
            peer.sendall(request("POST", "/books/7", body="{}")[:-1])
            next_is_answered("a part of a body", server)


def a_peer_that_never_reads_its_replies():
    with Server() as server:
        session = server.session()
        session.open_book()
        receipt = session.open_pledge(1)
        session.close()
        asked = request("GET", "/books/7/held", *[f"Pledge-Receipt: {receipt}"] * 32)
        with socket.socket() as peer:
            peer.setsockopt(socket.SOL_SOCKET, socket.SO_RCVBUF, 1024)
            peer.settimeout(1)
            peer.connect(("127.0.0.1", server.port))
            try:
                peer.sendall(asked * 1000)
            except TimeoutError:
                pass
            next_is_answered("replies that are not read", server)


def a_peer_that_resets():
    with Server() as server:
        for said in (b"", ASKED[:20], ASKED, ASKED * 300):
            peer = server.connect()
            peer.sendall(said)
            peer.setsockopt(socket.SOL_SOCKET, socket.SO_LINGER, struct.pack("ii", 1, 0))
            peer.close()
            next_is_answered(f"a reset after {len(said)} bytes", server)


def a_peer_that_asks_to_be_closed():
    with Server() as server, server.connect() as peer:
        peer.sendall(LAST + ASKED)
        expect("one reply", read_all(peer), NONE)


def a_peer_of_the_older_version():
    with Server() as server, server.connect() as peer:
        peer.sendall(request("GET", "/books/7/held", version="HTTP/1.0"))
        expect("one reply", read_all(peer), NONE)


def a_peer_that_speaks_something_else():
    with Server() as server:
        strange = random.Random(1)
        for turn in range(50):
            with server.connect() as peer:
                said = b""
                try:
                    peer.sendall(strange.randbytes(strange.randrange(1, 9000)) + b"\r\n\r\n")
                    peer.shutdown(socket.SHUT_WR)
                    said = read_all(peer)
                except OSError:
                    pass
                bad = refusal(701, "BadHead", "400 Bad Request")
                expect(f"bytes {turn}", said in (b"", bad), True)
        next_is_answered("bytes at random", server)


def three_hundred_connections():
    with Server() as server:
        for turn in range(300):
            next_is_answered(f"{turn} connections", server)


def what_one_connection_did_the_next_one_sees():
    with Server() as server:
        session = server.session()
        session.open_book()
        session.close()
        receipts = []
        for number in range(1, 6):
            session.close()
            receipts.append(session.open_pledge(number))
        expect("each receipt is another", len(set(receipt.split("-", 1)[1] for receipt in receipts)), 5)
        for number, receipt in enumerate(receipts, 1):
            session.close()
            status, said = session.bearer(receipt, "GET", "/books/7/held")
            expect(f"the statement of pledge {number}", (status, said.splitlines()[0]), (200, f"Pledge {number}"))


def it_ends_when_it_is_asked_to():
    with Server() as server:
        next_is_answered("nothing", server)
        server.program.send_signal(signal.SIGTERM)
        expect("its status", server.program.wait(timeout=10), -signal.SIGTERM)


main(
    many_requests_on_one_connection, a_thousand_requests_and_no_more, a_request_cut_in_two_by_a_pause,
    a_peer_that_says_nothing, a_peer_that_stops_in_the_middle_of_a_request, a_peer_that_never_reads_its_replies,
    a_peer_that_resets, a_peer_that_asks_to_be_closed, a_peer_of_the_older_version, a_peer_that_speaks_something_else,
    three_hundred_connections, what_one_connection_did_the_next_one_sees, it_ends_when_it_is_asked_to,
)
