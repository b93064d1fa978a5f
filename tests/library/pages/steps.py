"""What the tests of the pages share: one browser, books, and what a clerk or a pawnor does."""
import contextlib
import datetime
import functools
import os
import signal
import time

from tests.library.book_texts import COLUMNS, row
from tests.library.checks import Failed, expect, main as run_tests
from tests.library.dates import today
from tests.library.keys import BROKER, OPERATOR
from tests.library.packages import missing, provide
from tests.library.pages.browser import Browser, Pages
from tests.library.paths import TOP

WEB = os.path.join(TOP, "web")
WRONG_SECRET = "00000000-0000-4000-8000-000000000000"
SHOP = "High Street Pawnbrokers"
# What is said of an act whose reply was lost, where the pledge, read again, shows it.
LOST = "The reply was lost, but the pledge, read again, shows that it was done. "
# A test takes some seconds on a machine that is idle, and fails after so many.
EACH = 300
browser = Browser()


def read(*path):
    with open(os.path.join(TOP, *path)) as it:
        return it.read()


def files(*ends):
    """The pages' files of these endings, by their paths."""
    return sorted(
        os.path.relpath(os.path.join(folder, name), TOP)
        for folder, _, names in os.walk(WEB) for name in names if name.endswith(ends)
    )


def in_words(day):
    return f"{day:%A} {day.day} {day:%B %Y}"


def in_short(day):
    return f"{day.day} {day:%B %Y}"


def make_book(pages, book=7, terms=True):
    made = pages.session.ask(
        "POST", f"/books/{book}", {"capacity": 2, "key": BROKER, "name": "High Street"}, Pledge_Key=OPERATOR,
    )
    expect("a book", made, (200, {"book": book}))
    if terms:
        put = {"keep_after": 0, "keep_before": 0, "rate": 2667, "version": 1}
        expect("its terms", pages.session.broker("POST", f"/books/{book}/terms", put), (200, {"version": 1}))


def open_book(pages, book=7, key=BROKER):
    browser.forget()
    browser.go(pages.address + "/broker/")
    browser.fill("#open", book=str(book), key=key, shop=SHOP)
    browser.press("#open button")


def show_receipt(pages, receipt, book=7):
    browser.forget()
    browser.go(f"{pages.address}/pawn/#book={book}&receipt={receipt}")


def close_the_book():
    """Closes the book where the page asks first, because something was typed or a reply is awaited."""
    browser.press("#close-book")
    browser.press("dialog button", "Close the book")


def part(name):
    browser.press(f"#places a[href='#{name}']")


def find(wanted):
    part("pledge")
    browser.fill("#finding", wanted=wanted)
    browser.press("#finding button")


def unfold(title):
    """Opens the fold of this title, and closes the others."""
    browser.run("for (const one of document.querySelectorAll('.action[open]')) one.open = false")
    browser.press(".action > summary", title)


def command(title, button, picture=None, **fields):
    """Unfolds a command, fills its form and sends it, once the result of the act before it is shown."""
    browser.rests()
    unfold(title)
    if fields:
        browser.fill(".action[open] form", **fields)
    if picture:
        browser.shoot(picture)
    browser.press(".action[open] button", button)


def entries(pages, number, book=7):
    _, text = pages.session.broker("GET", f"/books/{book}/pledges/{number}")
    return [line for line in text.splitlines() if line.startswith("Entry ")]


def receipts_made(pages, number, book=7):
    _, text = pages.session.broker("GET", f"/books/{book}/export")
    return [line for line in text.splitlines() if line.startswith(f"S,{number},")]


def no_faults():
    """Nothing was complained of but by pages of tests before, whose service is gone."""
    origin = browser.run("return location.origin")
    expect(
        "the console",
        [said for said in browser.faults() if said.startswith(origin) or not said.startswith("http://localhost:")], [],
    )


@contextlib.contextmanager
def an_open_book():
    """A book without pledges, open at the counter."""
    with Pages() as pages:
        make_book(pages)
        open_book(pages)
        yield pages


@contextlib.contextmanager
def a_pledge_at_the_counter():
    """A book with one pledge, which is looked at at the counter, and its receipt."""
    with Pages() as pages:
        make_book(pages)
        receipt = pages.session.open_pledge(1)
        open_book(pages)
        find("1")
        # Until the pledge is shown the button that finds one is disabled.
        browser.says("Pledge 1", "#statement")
        yield pages, receipt


@contextlib.contextmanager
def a_pledge_by_its_receipt():
    """A book with one pledge, and its receipt, which the pawnor's page shows."""
    with Pages() as pages:
        make_book(pages)
        receipt = pages.session.open_pledge(1)
        show_receipt(pages, receipt)
        yield pages, receipt


def is_told_quietly(part):
    """What a part of the page says last is not shown as something done."""
    said = browser.run(f"return document.querySelector('{part} .notice').className")
    expect("it is not shown as done", said, "notice quiet")


def agree(patience=2):
    """Says yes to a question, if one is asked within so many seconds, or some seconds more while the page waits for the
    service."""
    begun = time.monotonic()
    while not browser.run("return document.querySelector('dialog') !== null"):
        waited = time.monotonic() - begun
        if waited > patience and (waited > patience + 8 or not browser.run("return window.asking")):
            return
        time.sleep(0.1)
    with contextlib.suppress(Failed):
        browser.press("dialog button.grave")


def send_taking(**fields):
    if fields:
        browser.fill("#taking", **fields)
    browser.press("#taking button", "Take the pledge")
    agree()


def take_a_ring(article="Gold ring", reference="A1", amount="100", **more):
    """Takes a pledge at the counter, and returns its receipt and its link."""
    part("take")
    browser.fill("#taking", article=article, ref=reference, amount=amount, **more)
    send_taking()
    browser.until("return document.querySelector('.paper .secret')", "a receipt")
    return browser.text(".paper .secret").strip(), browser.text(".paper .address").strip()


# The page's clock goes on by so many seconds, and the service's too, or it does not; and the page is looked at again.
LATER = """
const real = Object.getPrototypeOf(Date.prototype).constructor === Object ? Date : Object.getPrototypeOf(Date);
const [more, service] = [arguments[0] * 1000, arguments[1]];
window.Date = class Later extends real {
  constructor(...given) { if (given.length) super(...given); else super(real.now() + more); }
  static now() { return real.now() + more; }
};
const get = window.realGet ?? Headers.prototype.get;
window.realGet = get;
Headers.prototype.get = function told(name) {
  const said = get.call(this, name);
  return service && said && name === "Date" ? new real(real.parse(said) + more).toUTCString() : said;
};
document.dispatchEvent(new Event("visibilitychange"));
"""


def the_clock_goes_on(seconds, service=True):
    browser.run(LATER, seconds, service)


def the_book_is_read():
    browser.says("The book was read", "#book-line")


def secret_of(number):
    return f"{number:08}-0000-4000-8000-000000000000"


def book_text(pledges, rates=(2667, 1000000, 500000), version=2):
    """The text of a book of these pledges: article, reference, pence, day taken, agreed end or an empty text, five
    days."""
    rows = [COLUMNS, row("B", version, 1, len(pledges)), row("T", 1, *rates)]
    for number, (article, reference, pence, taken, agreed, five) in enumerate(pledges, 1):
        quoted = '"' + article.replace('"', '""') + '"' if set(article) & set(',"') else article
        rows.append(row("P", number, reference, quoted, "fixed", pence, taken, agreed, five, 1, "no", taken, "open"))
        rows.append(row("S", number, 1, taken, "opening", secret_of(number)))
    return "\n".join(rows) + "\n"


def fill_book(pages, text, book=7):
    """Puts a book's text into an empty book, by the service."""
    import http.client
    connection = http.client.HTTPConnection("127.0.0.1", pages.server.port, timeout=60)
    connection.request("POST", f"/books/{book}/import", text.encode(), {"Pledge-Key": BROKER, "Import-Key": "4" * 32})
    reply = connection.getresponse()
    expect("the import", (reply.status, reply.read()[:12]), (200, b'{"imported":'))
    connection.close()


def ago(days):
    return today() - datetime.timedelta(days=days)


def in_time(test, most):
    """The test, which fails after so many seconds. Where a step takes that for a miss that it may have, it fails again
    a little later."""
    @functools.wraps(test)
    def timed():
        def too_long(*_):
            signal.alarm(2)
            raise Failed(f"the test took more than {most} seconds")

        signal.signal(signal.SIGALRM, too_long)
        signal.alarm(most)
        try:
            test()
        finally:
            signal.alarm(0)

    return timed


def main(static, in_a_browser, most=EACH):
    """Runs the tests, those in a browser if there is one. Each ends after so many seconds: a script may have any number
    of them, and a busy machine takes longer over all of them together."""
    if provide():
        print(f"not tried: the pages in a browser, since there is no {' and no '.join(missing())}", flush=True)
        run_tests(*static)
    with browser:
        run_tests(*(in_time(test, most) for test in (*static, *in_a_browser)))
