"""A service in the place of the program, for pages alone: one book of many pledges, which is found, taken from and
exported, and that waits for nothing."""
import http.server
import json
import re
import threading
import uuid

from tests.library.book_texts import COLUMNS, row
from tests.library.dates import six_months_after, today


class Service:
    """Book 7 with so many pledges, each taken today for a hundred pounds."""

    def __init__(self, count):
        self.pledges = [(f"HS-{number:06}", "Gold ring", secret_of(number)) for number in range(1, count + 1)]

    def __enter__(self):
        service = self

        class Handler(http.server.BaseHTTPRequestHandler):
            def do_GET(self):
                answer(self, service.get(self.path, self.headers))

            def do_POST(self):
                body = self.rfile.read(int(self.headers.get("Content-Length", 0)))
                answer(self, service.take(json.loads(body)))

            def log_message(self, *_):
                pass

        self.server = http.server.ThreadingHTTPServer(("127.0.0.1", 0), Handler)
        self.port = self.server.server_address[1]
        threading.Thread(target=self.server.serve_forever, daemon=True).start()
        return self

    def __exit__(self, *_):
        self.server.shutdown()
        self.server.server_close()

    def get(self, path, fields):
        """The status, the type and the text of a reply to a GET."""
        if path.endswith("/export"):
            return 200, "text/csv; charset=utf-8", self.text()
        if found := re.match(r"/books/7/days/(.*)$", path):
            return 200, "text/plain; charset=utf-8", f"Day sheet {found[1]}\nAsked 0\nEnds 0\n"
        if path.endswith("/held"):
            number, secret = fields["Pledge-Receipt"].split("-", 1)
            live = int(number) <= len(self.pledges) and self.pledges[int(number) - 1][2] == secret
            return self.statement(int(number)) if live else refused(402, "NoSuchReceipt")
        return self.statement(int(path.rsplit("/", 1)[1]))

    def statement(self, number):
        if number > len(self.pledges):
            return refused(403, "NoSuchPledge")
        _, article, _ = self.pledges[number - 1]
        return 200, "text/plain; charset=utf-8", (
            f"Pledge {number}\nArticle {article}\nKind fixed 100.00\nTaken {today()}\n"
            f"Ends {six_months_after(today())}\n"
            "Status inside\nPrincipal 100.00\nCharges 0.00\nOwing 100.00\nHeld no\nBooking none\n"
        )

    def text(self):
        rows = [COLUMNS, row("B", 2, 1, len(self.pledges)), row("T", 1, 2667, 0, 0)]
        for number, (reference, article, secret) in enumerate(self.pledges, 1):
            rows += [
                row("P", number, reference, article, "fixed", 10000, today(), "", "no", 1, "no", today(), "open"),
                row("S", number, 1, today(), "opening", secret),
            ]
        return "\n".join(rows) + "\n"

    def take(self, opening):
        number = len(self.pledges) + 1
        self.pledges.append((opening["ref"], opening["article"], str(uuid.uuid4())))
        said = {"number": number, "receipt": f"{number}-{self.pledges[-1][2]}"}
        return 200, "application/json", json.dumps(said)


def secret_of(number):
    return f"{number:08}-0000-4000-8000-{number:012}"


def refused(code, name):
    return 404, "application/json", json.dumps({"code": code, "name": name})


def answer(handler, reply):
    status, kind, text = reply
    handler.send_response(status)
    handler.send_header("Content-Type", kind)
    handler.send_header("Content-Length", str(len(text.encode())))
    handler.end_headers()
    handler.wfile.write(text.encode())
