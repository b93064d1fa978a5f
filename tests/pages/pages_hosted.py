"""The pages as they are hosted: the program with a book of 20,000 pledges behind nginx with TLS, by the files of
deploy/nginx, on a line of 200 kB a second and 300 ms there and back. It prints how soon the first screen is there, and
a pledge by its number and a take while the whole book is still on its way."""
import base64
import collections
import contextlib
import hashlib
import os
import re
import select
import shutil
import socket
import subprocess
import tempfile
import threading
import time

from tests.library.checks import Failed, expect
from tests.library.hosting import NAME, Hosted, Store, steady_port
from tests.library.keys import BROKER
from tests.library.listening import Listener
from tests.library.pages.large_book import filled
from tests.library.pages.stand_in import Service
from tests.library.pages.steps import EACH, browser, main, part
from tests.library.paths import TOP

COUNT = 20_000
BYTES, THERE_AND_BACK = 200_000, 0.3
# What TCP sends before the first answer comes, ten segments, and at most: what the line has on its way there and back.
# As much again waits before the line.
FIRST_WINDOW, LAST_WINDOW = 14_000, int(BYTES * THERE_AND_BACK)
SEGMENT, PIECE, RECEIVED = 1_400, 2_800, LAST_WINDOW
# Seconds within which the first screen of either page is shown, and a busy machine shows a pledge by its number.
FIRST, FIRST_SCREEN = {"broker": "the broker's first screen", "pawn": "the pawnor's first screen"}, 1.5
NUMBER, BY_NUMBER = "a pledge by its number", 4.0
# The private key of the proxy's certificate.
KEY = tempfile.NamedTemporaryFile(suffix=".pem")
# `STAND_IN=1` measures with a stand-in in place of the program, which is for a program that takes minutes to open the
# book.
STAND_IN = os.environ.get("STAND_IN") == "1"
# How often it is measured: `TURNS=5 python3 -m tests.pages.pages_hosted`.
TURNS = int(os.environ.get("TURNS", "1"))


class Line(Listener):
    """A slow line to a port: each piece comes half the way's time later, all pieces of a direction share its width, a
    connection takes one round trip to be made, and sends no more than the other side has acknowledged, as TCP
    does at its beginning."""

    def __init__(self, port, way=THERE_AND_BACK, width=BYTES):
        super().__init__(steady_port())
        self.to, self.way, self.width = port, way, width
        self.free_at, self.lock, self.open = {"up": 0.0, "down": 0.0}, threading.Lock(), True

    def __exit__(self, *_):
        self.open = False
        self.stop_listening()

    def carry(self, near):
        with contextlib.suppress(OSError):
            far = self.connect()
            near.setsockopt(socket.IPPROTO_TCP, socket.TCP_NODELAY, 1)
            begun = time.monotonic()
            for one, other, name in ((near, far, "up"), (far, near, "down")):
                threading.Thread(target=self.pass_pieces, args=(one, other, name, begun), daemon=True).start()

    def connect(self):
        """With segments as on a network, since by their length the system measures what it keeps of a connection."""
        far = socket.socket()
        far.setsockopt(socket.IPPROTO_TCP, socket.TCP_NODELAY, 1)
        far.setsockopt(socket.IPPROTO_TCP, socket.TCP_MAXSEG, SEGMENT)
        far.setsockopt(socket.SOL_SOCKET, socket.SO_RCVBUF, RECEIVED)
        far.connect(("127.0.0.1", self.to))
        return far

    def sent_at(self, direction, length):
        """When the last byte of a piece has left, in its turn after the pieces of every connection."""
        with self.lock:
            self.free_at[direction] = max(self.free_at[direction], time.monotonic()) + length / self.width
            return self.free_at[direction]

    def pass_pieces(self, one, other, direction, begun):
        """Takes pieces as the window lets it, and passes each on when it arrives."""
        arriving, flying, window = collections.deque(), collections.deque(), FIRST_WINDOW
        stands, ended = begun + (self.way if direction == "up" else 0), False
        with contextlib.suppress(OSError):
            while self.open and not (ended and not arriving):
                now = time.monotonic()
                while arriving and arriving[0][0] <= now:
                    other.sendall(arriving.popleft()[1])
                while flying and flying[0][0] <= now:
                    window = min(window + flying.popleft()[1], LAST_WINDOW)
                room = not ended and sum(length for _, length in flying) < window
                wait = min([0.5, *(max(0, first[0][0] - now) for first in (arriving, flying) if first)])
                if room and select.select([one], [], [], wait)[0]:
                    piece = one.recv(PIECE)
                    ended = not piece
                    gone = max(self.sent_at(direction, len(piece)), stands + len(piece) / self.width)
                    arriving.append((gone + self.way / 2, piece))
                    flying.append((gone + self.way, len(piece)))
                elif not room:
                    time.sleep(wait)
            other.shutdown(socket.SHUT_WR)
        if direction == "down":
            time.sleep(self.way)
            one.close()
            other.close()


class LargeStore(Store):
    """A store with book 7, of many pledges."""

    def start(self, wait=True):
        if not os.path.exists(self.path):
            filled(self.path, COUNT)
            os.chmod(self.path, 0o600)
        return super().start(wait)


class StandIn(Store):
    """The same of the stand-in."""

    def start(self, wait=True):
        self.service = Service(COUNT).__enter__()
        self.port = self.service.port
        return self

    def kill(self):
        self.service.__exit__()

    def export(self, book):
        return self.service.text()


class TrustedHosted(Hosted):
    """With the key whose certificates the browser trusts, as it trusts that of a shop's server. (A browser that
    ignores an error of a certificate makes the connection twice, which a person's browser does not.)"""

    def make_certificate(self):
        super().make_certificate()
        folder = os.path.dirname(self.cert)
        words = ["openssl", "req", "-x509", "-key", KEY.name, "-days", "2", "-subj", f"/CN={NAME}"]
        subprocess.run([*words, "-addext", f"subjectAltName=DNS:{NAME}", "-out", self.cert], check=True, timeout=60)
        shutil.copy(KEY.name, os.path.join(folder, "privkey.pem"))


def make_key():
    """Makes that key, and returns the hash of its public half."""
    words = ["openssl", "genpkey", "-algorithm", "EC", "-pkeyopt", "ec_paramgen_curve:prime256v1", "-out", KEY.name]
    subprocess.run(words, check=True, timeout=60, capture_output=True)
    public = ["openssl", "pkey", "-in", KEY.name, "-pubout", "-outform", "DER"]
    made = subprocess.run(public, check=True, timeout=60, capture_output=True).stdout
    return base64.b64encode(hashlib.sha256(made).digest()).decode()


@contextlib.contextmanager
def hosted():
    """The program, with the pages as they are built."""
    with TrustedHosted(stores=1, books={7: 1}, kind=StandIn if STAND_IN else LargeStore) as it:
        subprocess.run(
            [os.path.join(TOP, "tools/web"), os.path.join(it.room, "web")], check=True, timeout=60, capture_output=True,
        )
        yield it


# Keeps when a button of the selector is pressed, and when the text is in the place after that.
WATCH = """
const [button, place, text] = arguments;
window.pressed = window.shown = null;
addEventListener("click", ({ target }) => { if (target.closest(button)) window.pressed = performance.now(); },
  { capture: true });
const look = () => {
  const there = window.pressed !== null && [...document.querySelectorAll(place)].some((one) => one.innerText.includes(text));
  if (there) window.shown = performance.now();
  else setTimeout(look, 10);
};
look();
"""


@contextlib.contextmanager
def timed(found, what, button, place, text):
    """Adds how long it took from the press of a button until a text was shown, by the page's own clock."""
    browser.run(WATCH, button, place, text)
    yield
    took = browser.until("return window.shown && window.shown - window.pressed", what, patience=40) / 1000
    found[what].append(took)


# When the page's form was shown: the first contents were painted, for which a browser waits until it has the styles,
# and the whole page had come.
SHOWN = """
const [painted] = performance.getEntriesByName("first-contentful-paint");
const [page] = performance.getEntriesByType("navigation");
return painted && page.domInteractive && Math.max(painted.startTime, page.domInteractive);
"""
STARTED = "return document.querySelector('#starting') === null && performance.now()"
PLEDGE = "return document.querySelector('#cards .amount') !== null && performance.now()"
IS_READ = "return document.querySelector('#book-age').textContent.startsWith('The book was read')"


def first_screen(found, page, address, then, script):
    """When the first screen of a page is shown, and when the script returns something true after that."""
    browser.devtools("Network.clearBrowserCache")
    browser.go(address)
    started = browser.until(script, then, patience=30) / 1000
    found[FIRST[page]].append(browser.until(SHOWN, FIRST[page], patience=30) / 1000)
    found[then].append(started)


def at_the_counter(found, address, turn):
    """From nothing to a pledge that was taken, before the whole book is there."""
    first_screen(found, "broker", address + "/broker/", "the broker's script has started", STARTED)
    browser.fill("#open", book="7", key=BROKER)
    with timed(found, "the day's sheet after the key", "#open button", "#sheet", "Waiting for an answer"):
        browser.press("#open button")
    browser.says("MB", "#book-line", patience=30)
    part("pledge")
    browser.fill("#finding", wanted="19999")
    with timed(found, NUMBER, "#finding button", "#statement", "Pledge 19999 of book 7"):
        browser.press("#finding button")
    part("take")
    browser.fill("#taking", article="Bracelet", ref=f"B{turn}", amount="100")
    browser.press("#taking button", "Take the pledge")
    browser.element("dialog button.grave")
    with timed(found, "a take, from its yes to its paper", "dialog button.grave", "#taking", "Taken as pledge"):
        browser.press("dialog button.grave")
    expect("the book is on its way", browser.run(IS_READ), False)


def receipt_of(store, number):
    return f"{number}-" + re.search(rf"^S,{number},.*?,([0-9a-f-]{{36}})", store.export(7), re.M)[1]


def is_soon(found, **limits):
    """Prints what was found, of which none of these takes longer."""
    for what, took in found.items():
        took.sort()
        print(f"        {what}: median {took[len(took) // 2]:.2f} s, worst {took[-1]:.2f} s", flush=True)
    for what, most in limits.items():
        median = found[what][len(found[what]) // 2]
        if median > most:
            raise Failed(f"{what}: {median:.2f} s, and not {most} s")


def the_first_screens_are_soon():
    """The form of each page, as a person sees it who comes for the first time."""
    found = collections.defaultdict(list)
    with hosted() as it:
        receipt = receipt_of(it.stores[0], 19_998)
        for _ in range(TURNS):
            for page, path, then, script in (
                ("broker", "/broker/", "the broker's script has started", STARTED),
                ("pawn", f"/pawn/#book=7&receipt={receipt}", "the pawnor's pledge, by its link", PLEDGE),
            ):
                with Line(it.port) as line:
                    first_screen(found, page, f"https://localhost:{line.port}{path}", then, script)
    is_soon(found, **{name: FIRST_SCREEN for name in FIRST.values()})


def nothing_waits_for_the_whole_book_over_tls():
    """Over HTTP/2 all replies of a connection wait in one row, so the whole book has a connection of its own."""
    found = collections.defaultdict(list)
    with hosted() as it:
        for turn in range(TURNS):
            with Line(it.port) as line:
                at_the_counter(found, f"https://localhost:{line.port}", turn)
    is_soon(found, **{NUMBER: BY_NUMBER})


browser.more.append(f"--ignore-certificate-errors-spki-list={make_key()}")
main((), (the_first_screens_are_soon, nothing_waits_for_the_whole_book_over_tls), most=EACH + 60 * TURNS)
