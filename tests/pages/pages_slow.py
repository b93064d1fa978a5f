"""The pages on a slow line, of 200 kB and 300 ms: how soon the first screen is there, and how soon a pledge of a book
of 20,000 is found and taken, while the whole book is still on its way. In a real browser, in front of the program; the
large book is a stand-in's, which answers at once, since the line is what is tried."""
import gzip
import http.client
import time

from tests.library.checks import Failed, expect
from tests.library.keys import BROKER
from tests.library.pages.browser import Pages
from tests.library.pages.stand_in import Service
from tests.library.pages.steps import (
    agree, browser, command, find, main, make_book, no_faults, open_book, part, take_a_ring, the_book_is_read,
    the_clock_goes_on,
)

COUNT = 20_000
BYTES, LATENCY = 200_000, 300
# Seconds that the line itself costs, and how much longer a busy machine may take beside it.
FIRST_SCREEN, BY_NUMBER, BUSY = 1.5, 1.0, 2.0


def slow_line(latency=LATENCY, throughput=BYTES):
    browser.devtools("Network.enable")
    browser.devtools(
        "Network.emulateNetworkConditions", offline=False, latency=latency, downloadThroughput=throughput,
        uploadThroughput=throughput,
    )


def fast_line():
    slow_line(0, -1)


def is_soon(what, found, wanted):
    print(f"        {what}: {found:.2f} s", flush=True)
    if found > wanted + BUSY:
        raise Failed(f"{what}: {found:.2f} s in place of {wanted} s")


def a_large_book():
    return Pages(lambda _: Service(COUNT))


def loaded(address, script, what):
    """How long a page takes from nothing until the script returns something true, in seconds by the page's clock."""
    browser.devtools("Network.clearBrowserCache")
    browser.go(address)
    return browser.until(script + " && performance.now()", what, patience=30) / 1000


STARTED = "return document.querySelector('#starting') === null"
PLEDGE = "return document.querySelector('#cards .amount') !== null"


def the_first_screen():
    with Pages() as pages:
        make_book(pages)
        receipt = pages.session.open_pledge(1)
        slow_line()
        try:
            browser.forget()
            is_soon("the broker's first screen", loaded(pages.address + "/broker/", STARTED, "the door"), FIRST_SCREEN)
            browser.forget()
            address = f"{pages.address}/pawn/#book=7&receipt={receipt}"
            is_soon("the pawnor's first screen", loaded(address, PLEDGE, "the pledge"), FIRST_SCREEN)
        finally:
            fast_line()
        no_faults()


def key_pressed(wanted):
    """Finds something, and returns the time of the key."""
    part("pledge")
    browser.fill("#finding", wanted=wanted)
    begun = time.monotonic()
    browser.press("#finding button")
    return begun


IS_READ = "return document.querySelector('#book-age').textContent.startsWith('The book was read')"


def nothing_waits_for_the_whole_book():
    with a_large_book() as pages:
        browser.forget()
        browser.go(pages.address + "/broker/")
        slow_line()
        try:
            browser.fill("#open", book="7", key=BROKER)
            browser.press("#open button")
            browser.says("MB", "#book-line", patience=20)
            begun = key_pressed("19999")
            browser.says("Pledge 19999 of book 7", "#statement")
            is_soon("a pledge by its number", time.monotonic() - begun, BY_NUMBER)
            expect("the book is on its way", browser.run(IS_READ), False)
            expect("the pledge that was found has the focus",
                   browser.run("return document.activeElement.closest('#statement') !== null"), True)
            receipt = take_while_the_book_comes()
            begun = key_pressed(receipt)
            browser.says("This receipt is live.", "#commands")
            is_soon("a pledge by its receipt", time.monotonic() - begun, BY_NUMBER)
            browser.until(IS_READ, "the whole book", patience=90)
            browser.says("reference B1", "#statement")
        finally:
            fast_line()
        part("all")
        browser.says(f"{COUNT + 1:,} of {COUNT + 1:,} pledges", "#all")
        no_faults()


def take_while_the_book_comes():
    """Takes a pledge and shows its receipt, before the whole book is there."""
    part("take")
    browser.fill("#taking", article="Bracelet", ref="B1", amount="100")
    browser.press("#taking button", "Take the pledge")
    browser.element("dialog button.grave")
    begun = time.monotonic()
    browser.press("dialog button.grave")
    browser.says(f"Taken as pledge {COUNT + 1}.", "#taking", patience=30)
    is_soon("a take, from its yes to its paper", time.monotonic() - begun, 2.0)
    expect("the book is on its way", browser.run(IS_READ), False)
    return browser.text(".paper .secret").strip()


def a_reference_waits_and_says_how_far_it_is():
    with a_large_book() as pages:
        browser.forget()
        browser.go(pages.address + "/broker/")
        slow_line()
        try:
            browser.fill("#open", book="7", key=BROKER)
            browser.press("#open button")
            browser.says("MB", "#book-line", patience=20)
            find("HS-000777")
            browser.says("MB.", "#finding")
            fast_line()
            browser.says("Pledge 777 of book 7", "#statement", patience=60)
        finally:
            fast_line()
        no_faults()


def a_book_that_cant_be_read_stops_neither_find_nor_take():
    """Only its beginning comes, from the first reading on; and half a minute later it is asked for by itself."""
    with Pages() as pages:
        make_book(pages)
        receipt = pages.session.open_pledge(1)
        cut = browser.devtools("Page.addScriptToEvaluateOnNewDocument", source=NO_WHOLE_BOOK)
        try:
            open_book(pages)
            browser.says("could not be read anew", "#book-line", patience=30)
            find("1")
            browser.says("£100.00 owed today", "#statement")
            find(receipt)
            browser.says("This receipt is live.", "#commands")
            part("take")
            browser.fill("#taking", article="Bracelet", ref="B1", amount="80")
            browser.press("#taking button", "Take the pledge")
            agree()
            browser.says("Taken as pledge 2.", "#taking")
            browser.says("£8.00 in 30 days on £100", ".paper")
            part("due")
            browser.says("The book could not be read", "#due")
            browser.run("window.whole = true")
            the_clock_goes_on(35)
            browser.says("The book was read", "#book-line", patience=30)
            browser.says("Ends within 7 days", "#due")
        finally:
            browser.devtools("Page.removeScriptToEvaluateOnNewDocument", **cut)


# The whole book never comes: its beginning does, and then the line is cut.
NO_WHOLE_BOOK = """{
  const real = window.fetch;
  window.fetch = async (path, how) => {
    const reply = await real(path, how);
    if (!path.endsWith("/export") || window.whole) return reply;
    const bytes = new TextEncoder().encode((await reply.text()).slice(0, 150));
    const body = new ReadableStream({
      start(to) { to.enqueue(bytes); }, pull(to) { to.error(new TypeError("cut")); },
    });
    return new Response(body, { headers: { ...Object.fromEntries(reply.headers), "Content-Length": "99999" } });
  };
}"""


# The first export is answered at once, and its reply comes only when the page's test lets it.
LATE = """{
  const real = window.fetch;
  const gate = new Promise((open) => { window.letIn = open; });
  let isFirst = true;
  window.fetch = async (path, how) => {
    const reply = await real(path, how);
    if (!path.endsWith("/export") || !isFirst) return reply;
    isFirst = false;
    const text = await reply.text();
    await gate;
    return new Response(text, { headers: Object.fromEntries(reply.headers) });
  };
}"""


def what_is_done_while_the_book_comes_is_in_it():
    """A hold, a take and a new receipt of this page: the book that was on its way does not know of them."""
    with Pages() as pages:
        make_book(pages)
        pages.session.open_pledge(1)
        late = browser.devtools("Page.addScriptToEvaluateOnNewDocument", source=LATE)
        try:
            open_book(pages)
            browser.says("The book is being read", "#book-line")
            find("1")
            browser.says("£100.00 owed today", "#statement")
            command("Put on hold", "Hold")
            browser.says("it can’t be redeemed", "#commands")
            take_a_ring(article="Bracelet", reference="B1", amount="80")
            find("1")
            browser.says("On hold", "#statement")
            browser.rests()
            browser.run("window.letIn()")
            the_book_is_read()
            browser.says("Reference", "#statement")
            expect("the focus stays", browser.run("return document.activeElement.closest('#statement') !== null"), True)
            part("all")
            browser.says("2 of 2 pledges. Out on loan on 2 open ones: £180.00", "#all")
            browser.run("location.hash = 'all=held'")
            browser.says("1 of 2 pledges", "#all")
            expect("the book was read once", browser.run(EXPORTS), 3)
        finally:
            browser.devtools("Page.removeScriptToEvaluateOnNewDocument", **late)
        no_faults()


# The whole book, and the beginning of it before the take and after.
EXPORTS = "return performance.getEntriesByType('resource').filter(({ name }) => name.endsWith('/export')).length"


def static_files_are_few_small_and_kept():
    """One script a page, which has its styles in it; packed; and asked again by their tags."""
    with Pages() as pages:
        for page in ("broker", "pawn"):
            browser.devtools("Network.clearBrowserCache")
            browser.forget()
            browser.go(f"{pages.address}/{page}/")
            browser.until(STARTED, "the page")
            names = browser.run("return performance.getEntriesByType('resource').map(({ name }) => name)")
            expect(f"{page}: what is loaded", sorted(name.split("/", 3)[3] for name in names if "mark" not in name),
                   [f"{page}/{page}.js"])
        for path in ("/broker/", "/broker/broker.js", "/pawn/pawn.js", "/shared/style.css"):
            is_packed_and_kept(pages.port, path)


def is_packed_and_kept(port, path):
    connection = http.client.HTTPConnection("127.0.0.1", port, timeout=10)
    connection.request("GET", path, headers={"Accept-Encoding": "gzip"})
    reply = connection.getresponse()
    body = reply.read()
    fields = (reply.getheader("Content-Encoding"), reply.getheader("Cache-Control"), bool(reply.getheader("ETag")))
    expect(f"GET {path}", fields, ("gzip", "no-cache", True))
    expect(f"{path} is smaller", len(body) < len(gzip.decompress(body)), True)
    connection.request("GET", path, headers={"Accept-Encoding": "gzip", "If-None-Match": reply.getheader("ETag")})
    again = connection.getresponse()
    expect(f"{path} again", (again.status, again.read()), (304, b""))
    connection.request("GET", "/books/7/export", headers={"Accept-Encoding": "gzip", "Pledge-Key": BROKER})
    expect("a reply of the service is not packed", connection.getresponse().getheader("Content-Encoding"), None)
    connection.close()


main(
    (),
    (
        static_files_are_few_small_and_kept, the_first_screen, nothing_waits_for_the_whole_book,
        a_reference_waits_and_says_how_far_it_is, a_book_that_cant_be_read_stops_neither_find_nor_take,
        what_is_done_while_the_book_comes_is_in_it,
    ),
)
