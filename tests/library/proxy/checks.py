"""Checks of the proxy: what comes back without TLS, and that no secret is in a log."""
import socket
import time

from tests.library.checks import Failed, expect
from tests.library.described import IMPORT
from tests.library.keys import BROKER, OPERATOR
from tests.library.hosting import status
from tests.library.sessions import read_all


def plainly(port, sent):
    """What comes back of these bytes without TLS, up to the end of the connection."""
    with socket.create_connection(("127.0.0.1", port), timeout=20) as peer:
        peer.sendall(sent.replace(b"\r\n\r\n", b"\r\nConnection: close\r\n\r\n", 1))
        return read_all(peer)


def guesses(caller, book, refused, within=60):
    """The replies to guesses at a receipt, until so many of them came too often. A slow machine asks for longer."""
    replies, end = [], time.monotonic() + within
    while sum(status(reply) == 429 for reply in replies) < refused:
        if time.monotonic() > end:
            raise Failed(f"of {len(replies)} guesses within {within} seconds, not {refused} came too often")
        replies.append(caller.ask("GET", f"/books/{book}/held", f"Pledge-Receipt: 1-{len(replies):032x}"))
    return replies


def no_secret_in_a_log(it, receipts):
    secrets = [BROKER, OPERATOR, IMPORT, *receipts, *(receipt.split("-", 1)[-1] for receipt in receipts)]
    for name in ("access", "error"):
        text = it.log(name)
        expect(
            f"secrets in {name}.log",
            [secret for secret in secrets if secret in text or secret.replace("-", "%2d") in text],
            [],
        )
