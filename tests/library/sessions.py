"""A client's sessions with a service over HTTP, and how long a client waits."""
import http.client
import json

from tests.library.checks import expect
from tests.library.keys import BROKER, OPERATOR

# A read or a write waits so long for its peer, in seconds. A write may be taken in part and wait again, a
# few times, until nothing more is taken.
PATIENCE = 5
MARGIN = 10
WAIT = 4 * PATIENCE + MARGIN


class Session:
    """One connection after the other of at most 1,000 requests each, by http.client."""

    def __init__(self, port):
        self.port, self.connection, self.asked = port, None, 0

    def ask(self, method, target, body=None, **fields):
        """The status and the reply's body: JSON as what it says, a text as it is."""
        if self.connection is None or self.asked == 1000:
            self.close()
            self.connection, self.asked = http.client.HTTPConnection("127.0.0.1", self.port, timeout=WAIT), 0
        heads = {name.replace("_", "-"): value for name, value in fields.items()}
        text = None if body is None else json.dumps(body)
        self.connection.request(method, target, text, heads)
        self.asked += 1
        reply = self.connection.getresponse()
        said = reply.read().decode()
        return reply.status, json.loads(said) if reply.getheader("Content-Type") == "application/json" else said

    def broker(self, method, target, body=None):
        return self.ask(method, target, body, Pledge_Key=BROKER)

    def bearer(self, receipt, method, target, body=None):
        return self.ask(method, target, body, Pledge_Receipt=receipt)

    def close(self):
        if self.connection is not None:
            self.connection.close()
            self.connection = None

    def open_book(self, book=7, capacity=2):
        """A book whose terms charge nothing."""
        made = self.ask(
            "POST", f"/books/{book}", {"capacity": capacity, "key": BROKER, "name": "High Street"}, Pledge_Key=OPERATOR,
        )
        expect(f"book {book}", made, (200, {"book": book}))
        terms = {"keep_after": 0, "keep_before": 0, "rate": 0, "version": 1}
        expect("its terms", self.broker("POST", f"/books/{book}/terms", terms), (200, {"version": 1}))

    def open_pledge(self, number, book=7, **changed):
        """The receipt of a new pledge, the next of its book."""
        opening = {"article": "Gold ring", "five_days": False, "kind": "fixed", "pence": 10000, "ref": f"A{number}"}
        status, said = self.broker("POST", f"/books/{book}/pledges", {**opening, **changed})
        expect(f"pledge {number}", (status, said.get("number")), (200, number))
        return said["receipt"]


class Once(Session):
    """Requests on a connection each: one that is kept holds the service, which answers one connection after the
    other."""

    def ask(self, *words, **fields):
        try:
            return super().ask(*words, **fields)
        finally:
            self.close()


def read_all(connection):
    """What comes until the other end is closed; a reset ends it too."""
    said = b""
    while True:
        try:
            piece = connection.recv(65536)
        except ConnectionResetError:
            return said
        if not piece:
            return said
        said += piece
