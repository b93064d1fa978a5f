"""A small client of the pledge books, in Python's standard library: it tells refusals by their code, and what to do
where no reply came."""
import http.client
import json
import os
import sys
import time
import urllib.parse

TRIES = 3
PAUSE = 0.5
PATIENCE = 30
# The proxy's own refusals that may be over soon.
PASSING = (429, 502, 503, 504)
# Memory ran out, or the store failed: the next start of the service may find that the request was done.
UNSETTLED = (491, 492)


class Refused(Exception):
    """The service refused a request, and changed nothing by it. `code` says why. Where `repeated` is set, an earlier
    sending of the same request got no reply, and may have been done."""

    def __init__(self, said, repeated):
        super().__init__(f"{said['code']} {said['name']}")
        self.code, self.said, self.repeated = said["code"], said, repeated


class Lost(Exception):
    """No reply of the service came, or it was 491 or 492. Where `sent` is set the request may have been done, and else it was not."""

    def __init__(self, words, sent):
        super().__init__(words)
        self.sent = sent


class NotHandedOn(Exception):
    """No process accepted the connection, or the proxy kept the request back, so it was not done. `pause` is how long
    to wait; None is for ever."""

    def __init__(self, words, pause):
        super().__init__(words)
        self.pause = pause


class Book:
    """One book of a service at a URL, with the field of its caller: a `Pledge-Key`, or a `Pledge-Receipt`."""

    def __init__(self, url, number, **headers):
        self.url = urllib.parse.urlsplit(url)
        self.number, self.headers = number, {name.replace("_", "-"): value for name, value in headers.items()}

    def get(self, path):
        return self.ask("GET", path)

    def post(self, path, body=None, repeat=True):
        """`repeat` is whether the request may be sent again where it may have been done. The description says so of
        each, in `x-repeat`."""
        return self.ask("POST", path, body, repeat)

    def ask(self, method, path, body=None, repeat=True):
        """What the reply says: JSON as what it is, a text as it is."""
        sent = False
        for left in reversed(range(TRIES)):
            pause = PAUSE
            try:
                said = self.once(method, path, body)
            except NotHandedOn as fault:
                why, pause = fault, fault.pause
            except (OSError, http.client.HTTPException, ValueError) as fault:
                why, sent = fault, True
            else:
                if isinstance(said, dict) and "code" in said:
                    raise Refused(said, sent)
                return said
            if pause is None or (sent and not repeat):
                break
            if left:
                print(f"no reply to {method} {path}; sent again", file=sys.stderr)
                time.sleep(pause)
        raise Lost(f"no reply to {method} {path}: {why}", sent)

    def once(self, method, path, body):
        kind = http.client.HTTPSConnection if self.url.scheme == "https" else http.client.HTTPConnection
        connection = kind(self.url.netloc, timeout=PATIENCE)
        try:
            try:
                connection.connect()
            except OSError as why:
                raise NotHandedOn(f"no connection was made: {why}", PAUSE) from why
            text = None if body is None else json.dumps(body)
            connection.request(method, f"/books/{self.number}{path}", text, {**self.headers, "Connection": "close"})
            reply = connection.getresponse()
            said = reply.read().decode()
        finally:
            # The service has closed it, too, and no field of its reply says so.
            connection.close()
        return told(reply, said)


def told(reply, said):
    """What a reply of the service says. After 491 and 492 it is not known whether the request was done, as after no
    reply. A reply of the proxy's own is a fault: it says whether the request was
    handed on. Each reply has a body: an empty one means that the reply was cut in its head, which the library does not
    report."""
    if not said:
        raise ValueError("the reply was cut in its head")
    said = json.loads(said) if reply.getheader("Content-Type") == "application/json" else said
    if isinstance(said, dict) and said.get("code") in UNSETTLED:
        raise ValueError(f"{said['code']} {said['name']}")
    if reply.status == 200 or (isinstance(said, dict) and "code" in said):
        return said
    if isinstance(said, dict) and said.get("handed_on") is False:
        pause = float(reply.getheader("Retry-After") or PAUSE) if reply.status in PASSING else None
        raise NotHandedOn(f"the proxy said {reply.status}", pause)
    raise ValueError(f"{reply.status} in a reply that is not the service's")


def settings(usage, *names):
    """The words of the command line, or else the variables of the environment with these names."""
    words = sys.argv[1:]
    found = words if words else [os.environ.get(name) for name in names]
    if len(found) < len(names) or None in found:
        sys.exit(f"usage: {usage}\nor the variables {', '.join(names)}")
    return found


def money(pence):
    return f"{pence // 100}.{pence % 100:02}"


def lines(text):
    """The lines of a text of the service. They end with LF alone; `splitlines` would end one at U+2028 in an
    article, too."""
    return text.split("\n")[:-1]


def value(statement, label):
    """The rest of the statement's line that begins with this word."""
    return next(line[len(label) + 1:] for line in lines(statement) if line.startswith(f"{label} "))


def pence(amount):
    """Pounds and pence of a statement, as pence."""
    return int(amount.replace(".", ""))


def next_entry(statement):
    """The number that the next entry has."""
    return 1 + sum(line.startswith("Entry ") for line in lines(statement))
