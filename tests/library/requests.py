"""Requests and refusals, as the bytes that are sent."""
import json

from tests.library.keys import BROKER


def request(method, target, *fields, body="", version="HTTP/1.1"):
    """The bytes of a request."""
    length = [f"Content-Length: {len(body.encode())}"] if body else []
    return "\r\n".join([f"{method} {target} {version}", *fields, *length, "", body]).encode()


def keyed_request(method, target, body=None, key=BROKER):
    """The bytes of a request with a key: the broker's, unless an argument has another."""
    return request(method, target, f"Pledge-Key: {key}", body="" if body is None else json.dumps(body))


def held_request(receipt, book):
    """A bearer's request for what the receipt holds."""
    return request("GET", f"/books/{book}/held", f"Pledge-Receipt: {receipt}")


def statement_request(number, book=7):
    """A broker's request for a pledge's statement."""
    return keyed_request("GET", f"/books/{book}/pledges/{number}")


def opening_body(number, kind="fixed"):
    """The body of a request that opens a pledge."""
    return {"article": "Gold ring", "five_days": False, "kind": kind, "pence": 10000, "ref": f"A{number}"}


def refusal(code, name, status="404 Not Found", **more):
    """The bytes of a reply that refuses."""
    said = json.dumps({"code": code, "name": name, **more}, separators=(",", ":"))
    return f"HTTP/1.1 {status}\r\nContent-Length: {len(said)}\r\nContent-Type: application/json\r\n\r\n{said}".encode()
