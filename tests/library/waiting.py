"""Waits for what another process does."""
import contextlib
import socket
import time
import urllib.request

from tests.library.checks import Failed

PATIENCE = 10


def wait_for(found, what, patience=PATIENCE):
    """What the function returns once it is true."""
    end = time.monotonic() + patience
    while time.monotonic() < end:
        if it := found():
            return it
        time.sleep(0.03)
    raise Failed(f"{what}: not there after {patience} seconds")


def listens(port):
    """Whether anything listens on this port of the loopback."""
    with contextlib.suppress(OSError), socket.create_connection(("127.0.0.1", port), timeout=5):
        return True
    return False


def answers(address):
    with contextlib.suppress(OSError):
        return urllib.request.urlopen(address, timeout=5).status == 200
    return False
