"""The broker's page with books of 2,000 and 20,000 pledges, in a real browser: how soon it is ready, finds and filters,
and how much it draws and keeps."""
import os
import time

from tests.library.checks import Failed, expect
from tests.library.keys import BROKER
from tests.library.pages.browser import Pages
from tests.library.pages.large_book import filled
from tests.library.pages.steps import browser, find, main, no_faults, part
from tests.library.program import Server

# What a quiet machine keeps, and how much longer a busy one may take.
READY, FOUND, DUE, ROWS, BUSY = 3000, 100, 300, 150, 4


TIME = """
const begun = performance.now();
const field = document.querySelector(arguments[0]);
field.value = arguments[1];
field.dispatchEvent(new Event(arguments[2], { bubbles: true }));
document.body.offsetHeight;
return performance.now() - begun;
"""


# How long a part takes that the address names, in milliseconds.
GOING = """
const begun = performance.now();
await new Promise((done) => {
  addEventListener("hashchange", () => setTimeout(done), { once: true });
  location.hash = given[0];
});
document.body.offsetHeight;
return performance.now() - begun;
"""


def tell(count, figures):
    print(f"        {count:,} pledges: " + ", ".join(figures), flush=True)


def is_within(what, found, wanted):
    if found > wanted * BUSY:
        raise Failed(f"{what}: {found:.0f} in place of {wanted}, on a machine {BUSY} times slower than a quiet one")


def searches(count):
    """The slowest of finds, and of going to a group, in milliseconds."""
    part("all")
    browser.says(f"{count:,} of {count:,} pledges", "#all")
    rows, slowest, gone = [], 0, 0
    for text in ("v", "vi", f"HS-{count:06}", "garnet", "12", "no such", ""):
        slowest = max(slowest, browser.run(TIME, "#search-text", text, "input"))
        rows.append(rows_drawn())
    for order in ("reference", "article", "sum", "ends", "newest"):
        slowest = max(slowest, browser.run(TIME, "#search-order", order, "change"))
        rows.append(rows_drawn())
    for group in ("sale", "passed", "grace", "comes", "all"):
        gone = max(gone, browser.run_later(GOING, f"all={group}"))
    return slowest, gone, max(rows)


def rows_drawn():
    """How many rows the lists draw. The day's sheet is not counted: it has a line for each pledge that ends on the day, and
    on the last day of a month the pledges of several days end."""
    return browser.run(
        "return [...document.querySelectorAll('tr, .row, .lines li')].filter((one) => !one.closest('#sheet')).length"
    )


def scrolled(count):
    """Rows are drawn where one scrolls to, down to the last."""
    browser.run("document.querySelector('.rows').scrollTop = 1e9")
    browser.until(
        "return [...document.querySelectorAll('.row')].some((one) => one.ariaPosInSet === arguments[0])",
        "the last row", str(count),
    )
    return rows_drawn()


def due():
    taken = browser.run_later(GOING, "due")
    browser.says("Can be sold now", "#due")
    return taken, rows_drawn()


def kept():
    """The page's memory in MB, once what is not used any more was released."""
    browser.devtools("HeapProfiler.collectGarbage")
    return browser.devtools("Runtime.getHeapUsage")["usedSize"] / 1e6


def opened_within():
    """How long after the key the first screen is there, and the whole book, in milliseconds."""
    browser.fill("#open", book="7", key=BROKER)
    begun = time.monotonic()
    browser.press("#open button")
    browser.until("return document.querySelector('#sheet .card') !== null", "the first screen", patience=60)
    screen = time.monotonic() - begun
    read = "return document.querySelector('#book-age').textContent.startsWith('The book was read ')"
    browser.until(read, "the whole book", patience=60)
    return screen * 1000, (time.monotonic() - begun) * 1000


def a_book_of(count):
    with Pages(lambda room: Server(filled(os.path.join(room, "books.db"), count))) as pages:
        browser.go(pages.address + "/broker/")
        before = kept()
        screen, ready = opened_within()
        browser.says("Waiting for an answer, on any day", "#sheet")
        expect("who waits", browser.run("return document.querySelectorAll('#sheet .lines li').length > 0"), True)
        size = len(pages.session.broker("GET", "/books/7/export")[1]) / 1e6
        found, gone, rows = searches(count)
        rows = max(rows, scrolled(count))
        taken, due_rows = due()
        memory = kept() - before
        tell(
            count,
            [
                f"{size:.1f} MB", f"first screen {screen:.0f} ms", f"whole book {ready:.0f} ms",
                f"slowest find {found:.0f} ms", f"slowest group {gone:.0f} ms", f"Due {taken:.0f} ms", f"at most {max(rows, due_rows)} rows",
                f"{memory:.0f} MB kept",
            ],
        )
        for what, value, wanted in (
            ("the whole book", ready, READY), ("a find", found, FOUND), ("a group", gone, DUE),
            ("Due", taken, DUE),
        ):
            is_within(what, value, wanted)
        expect("few rows", max(rows, due_rows) <= ROWS, True)
        it_is_worked_with(count)


def it_is_worked_with(count):
    find(f"hs-{count:06}")
    browser.says(f"Pledge {count} of book 7", "#statement")
    part("till")
    browser.says("Sums of today", "#till")
    no_faults()


def a_book_of_2000():
    a_book_of(2000)


def a_book_of_20000():
    a_book_of(20000)


main((), (a_book_of_2000, a_book_of_20000))
