"""nginx by the files of deploy/nginx within Debian's own nginx.conf, in front of stores of the program or of recorders in
their place, on free ports of the loopback; and its clients over TLS."""
import collections
import contextlib
import json
import os
import pathlib
import random
import shutil
import signal
import socket
import ssl
import subprocess
import tempfile
import threading
import time

from tests.library.book_texts import COLUMNS
from tests.library.checks import Failed, expect
from tests.library.dates import today
from tests.library.keys import BROKER, OPERATOR
from tests.library.listening import Listener, read_request
from tests.library.packages import PATHS
from tests.library.paths import PROGRAM, TOP
from tests.library.requests import request
from tests.library.sessions import WAIT, Once
from tests.library.waiting import wait_for

NAME = "books.example.org"
# What each program comes in, as a package of Debian.
PACKAGES = {"nginx": "nginx-light", "openssl": "openssl", "curl": "curl"}
# The stores by their numbers, and the number of the store that has each book.
STORES = {1: "main", 2: "east", 3: "west"}
BOOKS = {7: 1, 8: 2, 9: 3}
# In the system's memory, where it has a place for files there and no other is asked for.
MEMORY = "/dev/shm" if os.access("/dev/shm", os.W_OK) and "TMPDIR" not in os.environ else None
# More than the system keeps of a connection.
LENGTH = 24_000_000
# Addresses of the loopback, of which each is a caller of its own.
ADDRESSES = (
    f"127.{first}.{second}.{third}" for first in range(1, 200) for second in range(1, 250) for third in range(1, 250)
)

Reply = collections.namedtuple("Reply", "line fields body")


def status(reply):
    return int(reply.line.split()[1])


def proxys(reply):
    """What the proxy said in the service's place, as the status that it named and whether the request was passed on;
    None of a reply of the service."""
    said = json.loads(reply.body) if reply.fields.get("content-type") == "application/json" else {}
    return (said["proxy"], said["handed_on"]) if "proxy" in said else None


def read_reply(connection, to_head=False):
    """A reply with a length, or up to the end of the connection."""
    said = b""
    while b"\r\n\r\n" not in said:
        piece = connection.recv(65536)
        if not piece:
            raise Failed(f"a reply ended in its head: {said!r}")
        said += piece
    head, body = said.split(b"\r\n\r\n", 1)
    line, *fields = head.decode("latin-1").split("\r\n")
    fields = {name.lower(): value for name, _, value in (field.partition(": ") for field in fields)}
    length = 0 if to_head else int(fields.get("content-length", -1))
    whole = bytearray(body)
    while len(whole) != length and (piece := connection.recv(65536)):
        whole += piece
    return Reply(line, fields, bytes(whole))


class Caller:
    """A client over TLS, at an address of its own."""

    def __init__(self, port, address=None):
        self.port, self.address, self.connection = port, address or next(ADDRESSES), None
        self.context = ssl.SSLContext(ssl.PROTOCOL_TLS_CLIENT)
        self.context.check_hostname, self.context.verify_mode = False, ssl.CERT_NONE

    def connect(self, window=None):
        plain = socket.socket()
        if window:
            plain.setsockopt(socket.SOL_SOCKET, socket.SO_RCVBUF, window)
        plain.settimeout(WAIT)
        plain.bind((self.address, 0))
        plain.connect(("127.0.0.1", self.port))
        plain.setsockopt(socket.IPPROTO_TCP, socket.TCP_NODELAY, 1)
        return self.context.wrap_socket(plain, server_hostname=NAME)

    def send(self, sent, to_head=False):
        """The reply to these bytes, on the open connection."""
        if self.connection is None:
            self.connection = self.connect()
        try:
            self.connection.sendall(sent)
            reply = read_reply(self.connection, to_head)
        except BaseException:
            self.close()
            raise
        if reply.fields.get("connection") == "close":
            self.close()
        return reply

    def ask(self, method, target, *fields, body=None):
        text = "" if body is None else body if isinstance(body, str) else json.dumps(body)
        return self.send(request(method, target, f"Host: {NAME}", *fields, body=text), method == "HEAD")

    def broker(self, method, target, body=None):
        return self.ask(method, target, f"Pledge-Key: {BROKER}", body=body)

    def close(self):
        if self.connection is not None:
            self.connection.close()
            self.connection = None


def steady_port():
    """A free port below those that the system assigns to connections, so that none takes it while a store is away."""
    while True:
        port = random.randrange(15_000, 32_000)
        with contextlib.suppress(OSError), socket.socket() as it:
            it.bind(("127.0.0.1", port))
            return port


class Store:
    """`pawnd serve` over a file, on a port that stays the same."""

    def __init__(self, folder, key):
        os.makedirs(folder, mode=0o700, exist_ok=True)
        self.path, self.key, self.port, self.program = os.path.join(folder, "books.db"), key, steady_port(), None
        self.session = Once(self.port)

    def start(self, wait=True):
        self.program = subprocess.Popen(
            [PROGRAM, "serve", self.path, str(self.port), self.key],
            stdin=subprocess.DEVNULL,
            stdout=subprocess.PIPE,
            stderr=subprocess.DEVNULL,
            umask=0o077,
        )
        if wait:
            expect("the first line of a store", self.program.stdout.readline(), f"listening {self.port}\n".encode())
        return self

    def kill(self):
        if self.program:
            self.program.kill()
            self.program.communicate()
            self.program = None

    def export(self, book):
        code, text = self.session.broker("GET", f"/books/{book}/export")
        expect(f"the export of book {book}", code, 200)
        return text


class Recorder(Listener):
    """In a store's place: it keeps what it was sent, and answers as `way` says: shortly, at length, not at all, or by
    closing the connection."""

    def __init__(self, *_):
        super().__init__(steady_port())
        self.seen, self.way, self.rid = [], "answer", False

    def start(self, wait=True):
        return self.listen()

    def kill(self):
        self.stop_listening()

    def carry(self, peer):
        with peer, contextlib.suppress(OSError, ValueError):
            peer.settimeout(WAIT)
            head, body = read_request(peer)
            # A test that waits for a request to be seen may then change the way: this request keeps the one before.
            way = self.way
            self.seen.append((head.decode("latin-1"), body))
            if way == "answer":
                peer.sendall(b"HTTP/1.1 200 OK\r\nContent-Length: 2\r\nContent-Type: application/json\r\n\r\n{}")
            elif way == "at length":
                peer.sendall(
                    b"HTTP/1.1 200 OK\r\nContent-Length: %d\r\nContent-Type: text/csv\r\n\r\n" % LENGTH + b"x" * LENGTH
                )
                self.rid = True
            elif way == "reset":
                peer.setsockopt(socket.SOL_SOCKET, socket.SO_LINGER, b"\1\0\0\0\0\0\0\0")
            elif way == "silence":
                peer.recv(1)


def put(text, *pairs):
    """The text with the second of each two in place of the first; each first is in the text."""
    for old, new in pairs:
        if old not in text:
            raise Failed(f"{old!r} is not in {text[:60]!r}..")
        text = text.replace(old, new)
    return text


def open_text(path):
    with open(path) as it:
        return it.read()


class Hosted:
    """nginx in front of some stores. The files are those of deploy/nginx, but for paths, addresses and the settings;
    `changes` are pairs of texts: of limits in pawnd-http.conf, or else in pawnd-server.conf."""

    def __init__(self, stores=3, books=BOOKS, kind=Store, changes=()):
        self.many, self.books, self.kind, self.changes = stores, books, kind, changes

    def __enter__(self):
        self.stack = contextlib.ExitStack()
        try:
            return self.begin()
        except BaseException:
            self.stack.close()
            raise

    def __exit__(self, *_):
        self.stack.close()

    def begin(self):
        self.room = self.stack.enter_context(tempfile.TemporaryDirectory(prefix="pawnd-hosted-", dir=MEMORY))
        os.chmod(self.room, 0o711)
        self.settings = os.path.join(self.room, "settings")
        os.mkdir(self.settings)
        self.key = os.path.join(self.settings, "operator.key")
        with open(self.key, "w") as it:
            os.fchmod(it.fileno(), 0o600)
            it.write(OPERATOR + "\n")
        self.stores = [
            self.kind(os.path.join(self.room, "stores", STORES[number]), self.key) for number in range(1, self.many + 1)
        ]
        for store in self.stores:
            self.stack.callback(store.kill)
            store.start()
        self.port, self.plain = steady_port(), steady_port()
        self.configure()
        self.serve()
        return self

    def configure(self):
        """Debian's nginx.conf and the files of deploy/nginx in a folder of this server's own, the settings, and the
        pages beside them."""
        self.conf = os.path.join(self.room, "nginx")
        for folder in ("snippets", "sites-enabled", "modules-enabled", "conf.d"):
            os.makedirs(os.path.join(self.conf, folder))
        deploy = os.path.join(TOP, "deploy/nginx")
        for name in os.listdir(deploy):
            if name.startswith("pawnd-"):
                shutil.copy(os.path.join(deploy, name), os.path.join(self.conf, "snippets"))
        shutil.copy(os.path.join(deploy, "site"), os.path.join(self.conf, "sites-enabled/pawnd"))
        shutil.copy(os.path.join(deploy, "main.conf"), os.path.join(self.conf, "modules-enabled/60-pawnd.conf"))
        shutil.copy("/etc/nginx/nginx.conf", self.conf)
        shutil.copytree(os.path.join(TOP, "web"), os.path.join(self.room, "web"))
        for folder, folders, files in os.walk(os.path.join(self.room, "web")):
            for name in [".", *files]:
                os.chmod(os.path.join(folder, name), 0o755)
        os.mkdir(os.path.join(self.room, "logs"))
        self.make_certificate()
        self.write_settings()
        self.put_into_room()
        self.edit("snippets/pawnd-http.conf", *(it for it in self.changes if it[0].startswith("rate=")))
        self.edit("snippets/pawnd-server.conf", *(it for it in self.changes if not it[0].startswith("rate=")))

    def make_certificate(self):
        folder = os.path.join(self.settings, "certificate")
        os.mkdir(folder)
        self.cert = os.path.join(folder, "fullchain.pem")
        words = "openssl req -x509 -newkey ec -pkeyopt ec_paramgen_curve:prime256v1 -nodes -days 2".split()
        words += ["-subj", f"/CN={NAME}", "-addext", f"subjectAltName=DNS:{NAME}"]
        words += ["-keyout", os.path.join(folder, "privkey.pem"), "-out", self.cert]
        subprocess.run(words, check=True, capture_output=True, timeout=60)

    def write_settings(self):
        """What the operator and `pawnd-admin` write: the name, the stores and the books that are not in `main`."""
        upstream = "upstream store_{0} {{ zone store_{0} 64k; server 127.0.0.1:{1} max_conns=100 max_fails=0; }}\n"
        stores = [upstream.format(STORES[number], store.port) for number, store in enumerate(self.stores, 1)]
        lines = [f"{book} {STORES[store]};\n" for book, store in self.books.items() if store != 1]
        for name, text in (
            ("name.conf", f"server_name {NAME};\n"),
            ("stores.conf", "".join(stores)),
            ("books.map", "".join(lines)),
            ("keys.map", ""),
        ):
            with open(os.path.join(self.settings, name), "w") as it:
                it.write(text)

    def put_into_room(self):
        """Paths and addresses are those of this server."""
        unused = " ".join(f"{it}_temp_path {self.room}/unused;" for it in ("fastcgi", "uwsgi", "scgi"))
        self.edit(
            "nginx.conf",
            ("/run/nginx.pid", f"{self.room}/nginx.pid"),
            ("/var/log/nginx/", f"{self.room}/logs/"),
            ("/etc/nginx/modules-enabled/", f"{self.conf}/modules-enabled/"),
            ("/etc/nginx/conf.d/", f"{self.conf}/conf.d/"),
            ("/etc/nginx/sites-enabled/", f"{self.conf}/sites-enabled/"),
            ("http {", "http { " + unused),
        )
        self.edit("snippets/pawnd-http.conf", ("/etc/pawnd/", f"{self.settings}/"))
        self.edit("snippets/pawnd-plain.conf", ("/var/www/html", f"{self.room}/acme"))
        self.edit(
            "sites-enabled/pawnd",
            ("listen [::]:443 ssl http2;", ""),
            ("listen [::]:80;", ""),
            ("listen 443 ", f"listen 127.0.0.1:{self.port} "),
            ("listen 80;", f"listen 127.0.0.1:{self.plain};"),
            ("/etc/pawnd/", f"{self.settings}/"),
            ("/usr/share/pawnd/web", f"{self.room}/web"),
            ("/var/log/nginx/pawnd.log", f"{self.room}/logs/access.log"),
            ("/run/pawnd-bodies;", f"{self.room}/bodies;"),
            ("/run/pawnd-replies;", f"{self.room}/replies;"),
        )

    def edit(self, name, *pairs):
        path = os.path.join(self.conf, name)
        text = put(open_text(path), *pairs)
        with open(path, "w") as it:
            it.write(text)

    def set_map(self, name, *lines):
        """Writes a map of the settings anew, and has nginx read it."""
        with open(os.path.join(self.settings, name), "w") as it:
            it.writelines(line + "\n" for line in lines)
        self.reload()

    def reload(self):
        """nginx reads its files anew. Its workers of before take no connection any more."""
        before = self.workers()
        os.kill(self.nginx.pid, signal.SIGHUP)
        wait_for(lambda: (now := self.workers()) and not now & before, "nginx has read its files anew", 30)

    def workers(self):
        """The workers that take connections."""
        found = set()
        with open(f"/proc/{self.nginx.pid}/task/{self.nginx.pid}/children") as it:
            for pid in it.read().split():
                with contextlib.suppress(OSError):
                    if b"shutting down" not in pathlib.Path(f"/proc/{pid}/cmdline").read_bytes():
                        found.add(pid)
        return found

    def serve(self):
        words = [
            "nginx",
            "-c",
            os.path.join(self.conf, "nginx.conf"),
            "-e",
            os.path.join(self.room, "logs/error.log"),
            "-g",
            "daemon off;",
        ]
        self.nginx = subprocess.Popen(
            words,
            env={**os.environ, "PATH": PATHS},
            stdin=subprocess.DEVNULL,
            stdout=subprocess.DEVNULL,
            stderr=subprocess.PIPE,
            start_new_session=True,
        )
        self.stack.callback(self.end)
        # It listens before its workers are there, of which it has one for each processor.
        wait_for(lambda: self.nginx.poll() is not None or len(self.workers()) == os.cpu_count(), "nginx", 30)
        if self.nginx.poll() is not None:
            raise Failed(f"nginx ended: {self.nginx.stderr.read().decode()[-600:]} {self.log('error')[-600:]}")

    def end(self):
        with contextlib.suppress(ProcessLookupError):
            os.killpg(self.nginx.pid, signal.SIGTERM)
        with contextlib.suppress(subprocess.TimeoutExpired):
            self.nginx.communicate(timeout=10)
        with contextlib.suppress(ProcessLookupError):
            os.killpg(self.nginx.pid, signal.SIGKILL)
        self.nginx.communicate()

    def log(self, name):
        with open(os.path.join(self.room, "logs", f"{name}.log"), errors="replace") as it:
            return it.read()

    def caller(self, address=None):
        return Caller(self.port, address)

    def store_of(self, book):
        return self.stores[self.books[book] - 1]

    def open_books(self, pledges=1):
        """Each book of the map with terms that charge nothing, and some pledges: their receipts, by book. All is
        asked through the proxy."""
        receipts = {}
        operator = self.caller("127.0.0.1")
        for book in self.books:
            caller = self.caller()
            made = operator.ask(
                "POST",
                f"/books/{book}",
                f"Pledge-Key: {OPERATOR}",
                body={"capacity": 2, "key": BROKER, "name": "High Street"},
            )
            expect(f"book {book}", (status(made), made.body), (200, b'{"book":%d}' % book))
            terms = caller.broker(
                "POST", f"/books/{book}/terms", {"keep_after": 0, "keep_before": 0, "rate": 0, "version": 1}
            )
            expect(f"the terms of {book}", terms.body, b'{"version":1}')
            receipts[book] = [open_pledge(caller, book, number) for number in range(1, pledges + 1)]
            caller.close()
        operator.close()
        return receipts


def open_pledge(caller, book, number, **changed):
    """The receipt of a new pledge, the next of its book."""
    opening = {
        "article": "Gold ring",
        "five_days": False,
        "kind": "fixed",
        "pence": 1_000_000,
        "ref": f"A{number}",
        **changed,
    }
    reply = caller.broker("POST", f"/books/{book}/pledges", opening)
    said = json.loads(reply.body)
    expect(f"pledge {number} of book {book}", (status(reply), said.get("number")), (200, number))
    return said["receipt"]


class Writer(threading.Thread):
    """Repays a pledge penny by penny through the proxy, until it is ended, and keeps account of what was acknowledged.
    If no reply of the service comes it looks at the pledge: what was not passed on was not done, and what was may have
    been. A connection that the proxy ends under it is `cut`. `told` has what the proxy answered.
    """

    def __init__(self, hosted, book, number, pause=0.012):
        super().__init__(daemon=True)
        self.caller, self.book, self.number, self.pause = hosted.caller(), book, number, pause
        self.ended, self.acknowledged, self.sent, self.longest = threading.Event(), 0, 0, 0.0
        self.not_done = self.unknown = self.cut = 0
        self.told, self.wrong = [], []
        self.start()

    def run(self):
        try:
            while not self.ended.wait(self.pause):
                self.repay()
        except Exception as why:
            self.wrong.append(f"{type(why).__name__}: {why}")
        self.caller.close()

    def repay(self):
        self.sent, begun = self.acknowledged + 1, time.monotonic()
        try:
            reply = self.caller.broker(
                "POST", f"/books/{self.book}/pledges/{self.number}/repay", {"pence": 1, "seq": self.sent}
            )
        except (OSError, Failed):
            self.cut += 1
            return self.settle(True)
        self.longest = max(self.longest, time.monotonic() - begun)
        told = proxys(reply)
        if status(reply) == 200:
            self.acknowledged = self.sent
        elif told is None:
            self.wrong.append(reply.body)
        elif told[0] != 429:
            self.told.append((self.sent, *told))
            self.not_done += not told[1]
            self.unknown += told[1]
            self.settle(told[1])

    def settle(self, handed_on):
        while not self.ended.is_set():
            reply = None
            with contextlib.suppress(OSError, Failed):
                reply = self.caller.broker("GET", f"/books/{self.book}/pledges/{self.number}")
            if reply and status(reply) == 200:
                stand = reply.body.count(b"\nEntry ")
                if stand not in ((self.acknowledged, self.sent) if handed_on else (self.acknowledged,)):
                    self.wrong.append(
                        f"there are {stand} entries, {self.acknowledged} were acknowledged, and the next "
                        f"was{'' if handed_on else ' not'} passed on"
                    )
                self.acknowledged = stand
                return
            self.ended.wait(0.05)

    def end(self):
        self.ended.set()
        self.join(WAIT)
        expect(f"what went wrong with the writer of book {self.book}", self.wrong[:3], [])


@contextlib.contextmanager
def writers(hosted, books=BOOKS, each=2):
    """Repayments of each book's first pledges, until the block is left."""
    begun = [Writer(hosted, book, number) for book in books for number in range(1, each + 1)]
    try:
        yield begun
    finally:
        for writer in begun:
            writer.ended.set()
    for writer in begun:
        writer.end()


def long_book(size):
    """The text of a book of at least so many bytes, whose pledges have 9,900 entries each and less on the last."""
    day, rows = str(today()), []

    def row(*columns):
        rows.append(",".join([*map(str, columns), *[""] * (15 - len(columns))]) + "\n")
        return len(rows[-1])

    length, number, seq = 0, 0, 9_900
    while length < size:
        if seq == 9_900:
            number, seq = number + 1, 0
            length += row(
                "P", number, f"A{number}", "Gold ring", "fixed", 1_000_000, day, "", "no", 1, "no", day, "open", "", ""
            )
            length += row("S", number, 1, day, "opening", f"33333333-4444-4444-4444-{number:012}")
        seq += 1
        length += row("E", number, seq, day, "repay", 1)
    head = [
        COLUMNS + "\n",
        f"B,2,1,{number}" + "," * 11 + "\n",
        "T,1,0,0,0" + "," * 10 + "\n",
    ]
    return "".join(head + rows)
