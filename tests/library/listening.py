"""Listeners of the tests: relays, and recorders in a store's place."""
import contextlib
import socket
import threading


def more_of(connection):
    piece = connection.recv(65536)
    if not piece:
        raise ConnectionError("the connection ends within a request")
    return piece


def read_request(connection):
    """The head and the body of the request that a connection sends next."""
    sent = b""
    while b"\r\n\r\n" not in sent:
        sent += more_of(connection)
    head, body = sent.split(b"\r\n\r\n", 1)
    fields = head.lower().split(b"\r\n")
    length = next((int(it[15:]) for it in fields if it.startswith(b"content-length:")), 0)
    while len(body) < length:
        body += more_of(connection)
    return head, body


class Listener:
    """Listens on a port of the loopback within a block. `carry(connection)` has a thread for each connection."""

    def __init__(self, port=0):
        self.port = port

    def listen(self):
        self.listener = socket.create_server(("127.0.0.1", self.port))
        self.port = self.listener.getsockname()[1]
        threading.Thread(target=self.accept, daemon=True).start()
        return self

    def stop_listening(self):
        """A thread that waits for a connection would hold the port until one comes, so that it is woken first."""
        with contextlib.suppress(OSError):
            self.listener.shutdown(socket.SHUT_RDWR)
        self.listener.close()

    def __enter__(self):
        return self.listen()

    def __exit__(self, *_):
        self.stop_listening()

    def accept(self):
        with contextlib.suppress(OSError):
            while True:
                threading.Thread(target=self.carry, args=(self.listener.accept()[0],), daemon=True).start()
