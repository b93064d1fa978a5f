"""Both pages as anybody uses them: by the keyboard alone, on screens of each width, light and dark, each field named
and each refusal tied to its field; and what nginx sends and notes. In a real browser, by the real nginx, in front of
the program. Pictures are left in build/pages/."""
import http.client
import os
import subprocess

from tests.library.checks import Failed, expect
from tests.library.keys import BROKER, OPERATOR
from tests.library.pages.browser import Pages
from tests.library.pages.steps import (
    a_pledge_by_its_receipt, ago, book_text, browser, command, fill_book, find, main, make_book, no_faults, open_book,
    part, read, show_receipt, take_a_ring, the_book_is_read,
)
from tests.library.paths import TOP

TAB, ENTER, SPACE, DOWN = "\ue004", "\ue007", " ", "\ue015"


def tab_to(words):
    """Goes on by the tabulator until something of these words or this name has the focus, and shows it."""
    for _ in range(40):
        browser.keys(TAB)
        found, shown = browser.run(
            "const one = document.activeElement; "
            "return [[one.textContent.trim(), one.name], getComputedStyle(one).outlineStyle !== 'none']"
        )
        if words in found:
            expect(f"the focus on {words} is seen", shown, True)
            return
    raise Failed(f"the tabulator never comes to {words}")


def by_the_keyboard_alone():
    with Pages() as pages:
        make_book(pages)
        receipt = pages.session.open_pledge(1)
        browser.go(pages.address + "/pawn/")
        for name, typed in (("receipts", receipt), ("book", "7")):
            tab_to(name)
            browser.keys(typed)
        tab_to("Show")
        browser.keys(ENTER)
        browser.says("Gold ring", "#cards")
        browser.run("document.activeElement.blur(); document.querySelector('h1').scrollIntoView()")
        tab_to("Redeem")
        browser.keys(ENTER)
        tab_to("Redeem for £100.00")
        browser.keys(ENTER)
        browser.until("return document.activeElement.textContent === 'Not yet'", "the question, with the focus on no")
        browser.keys("\ue00c")
        browser.says("Nothing was done.", "#cards")
        browser.go(pages.address + "/broker/")
        for name, typed in (("book", "7"), ("key", BROKER)):
            tab_to(name)
            browser.keys(typed)
        browser.keys(ENTER)
        browser.says("Waiting for an answer", "#sheet")
        tab_to("Find a pledge")
        browser.keys(ENTER)
        browser.until("return document.activeElement.tagName === 'H1'", "the heading")
        tab_to("wanted")
        browser.keys("1" + ENTER)
        browser.says("Gold ring", "#statement")
        tab_to("Put on hold")
        browser.keys(ENTER)
        tab_to("Hold")
        browser.keys(SPACE)
        browser.says("it can’t be redeemed", "#commands")
        no_faults()


def what_nginx_sends_and_notes():
    with a_pledge_by_its_receipt() as (pages, receipt):
        browser.says("Gold ring", "#cards")
        for path, status, keeping in (
            ("/", 200, "no-cache"), ("/pawn/", 200, "no-cache"), ("/pawn/pawn.js", 200, "no-cache"),
            ("/books/7/held", 400, "no-store"), ("/books/07/held", 404, "no-store"),
            ("/books/7/held?receipt=" + receipt, 404, "no-store"), ("/books/7/../7/held", 404, "no-store"),
            ("/nginx.conf", 404, "no-cache"), ("/README.md", 404, "no-cache"), ("/shared/api.js", 404, "no-cache"),
        ):
            connection = http.client.HTTPConnection("127.0.0.1", pages.port, timeout=10)
            connection.request("GET", path)
            reply = connection.getresponse()
            reply.read()
            policy = reply.getheader("Content-Security-Policy", "")
            expect(
                f"GET {path}",
                (
                    reply.status, reply.getheader("Cache-Control"), "require-trusted-types-for 'script'" in policy,
                    "unsafe" in policy,
                ),
                (status, keeping, True, False),
            )
            connection.close()
        for name in ("access.log", "error.log"):
            noted = read(pages.room, "room", name)
            expect(
                f"no secret in {name}",
                [secret for secret in (receipt, receipt[2:], BROKER, OPERATOR) if secret in noted], [],
            )


def starts_that_are_refused():
    with Pages() as pages:
        for words, says in (
            ({"PAGES_PORT": str(pages.port)}, f"port {pages.port} is taken"),
            ({"PAGES_PORT": "0"}, "are numbers from 1 to 65535"), ({"PORT": "x"}, "are numbers from 1 to 65535"),
        ):
            room = os.path.join(pages.room, "other")
            ran = subprocess.run(
                [os.path.join(TOP, "tools/pages")], env={**os.environ, **words, "ROOM": room}, stdin=subprocess.DEVNULL,
                capture_output=True, text=True, timeout=20,
            )
            expect(f"{words}", (ran.returncode, says in ran.stderr, os.path.exists(room)), (1, True, False))


# What is wrong for a user of a screen reader or of a touch screen, as a list of texts.
WRONG = r"""
const wrong = [];
const seen = [...document.querySelectorAll("body *")].filter((one) => one.checkVisibility());
for (const one of seen) {
  for (const name of ["aria-describedby", "aria-labelledby", "aria-errormessage"]) {
    const ids = (one.getAttribute(name) ?? "").split(" ").filter(Boolean);
    for (const id of ids) if (!document.getElementById(id)) wrong.push(`${name} of nothing: ${id}`);
  }
  const box = one.getBoundingClientRect();
  const isPressed = one.matches("a, button, summary, input:not([type=radio], [type=checkbox]), select, textarea");
  const name = one.textContent || one.name;
  if (isPressed && (box.height < 24 || box.width < 24)) wrong.push(`too small: ${name} ${box.width} by ${box.height}`);
  const isHint = one.matches(".hint");
  if (isHint && !document.querySelector(`[aria-describedby~="${one.id}"]`)) wrong.push(`a hint of nothing: ${name}`);
  if (isHint && one.closest("label")) wrong.push(`a hint in a name: ${name}`);
}
const heading = document.querySelector(".head h2");
if (heading?.checkVisibility() && heading.clientWidth < 120) wrong.push(`a heading ${heading.clientWidth} wide`);
for (const one of seen) {
  if (one.matches(".row-article") && one.clientWidth < 80) wrong.push(`an article ${one.clientWidth} wide`);
}
const { scrollWidth, clientWidth } = document.documentElement;
if (scrollWidth > clientWidth) wrong.push(`it is ${scrollWidth} wide`);
return wrong;
"""
PARTS = ("today", "take", "pledge", "all", "due", "till", "terms", "files", "shop")


def is_right(name):
    """A telephone of 390 points that is shown twice as large has room for 195, and half as large again for 260."""
    for width in (195, 260, 320, 390, 1280):
        browser.resize(width)
        expect(f"{name}: what is wrong at {width}", browser.run(WRONG), [])
    browser.resize(390)


def each_part_is_right(scheme):
    """Each part of the broker's page: the heading has the focus, the title names it, nothing is too wide or too
    small."""
    for name in PARTS:
        part(name)
        browser.until(
            "return document.activeElement.matches(`#${arguments[0]} h1`)", f"{name}: the focus on its heading", name,
        )
        browser.until("return document.title === document.activeElement.textContent + ', book 7'", f"{name}: the title")
        browser.says("The book was read", "#book-line")
        is_right(f"{scheme} {name}")
        browser.shoot(f"{scheme}-{name}")


LONG_NAMES = (
    "Ring with a very long name that goes on, and on, to eighty letters and no more",
    "A-REFERENCE-OF-FORTY-LETTERS-IN-ONE-WORD",
)
RING = "2-00000002-0000-4000-8000-000000000000"


def fill_with_all_sorts(pages):
    """A book with a pledge of each sort, long names and large sums, and terms of six places; a pawnor asks to come."""
    fill_book(pages, book_text([
        ("Clock", "G1", 9000, ago(400), ago(2), "yes"), (*LONG_NAMES, 9000, ago(3), "", "no"),
        ("Lamp", "G5", 100000000, ago(400), ago(-30), "no"), ("Vase", "G7", 9000, ago(400), "", "no"),
        ("Watch", "G8", 5000, ago(400), "", "no"),
    ], rates=(12667, 9123456, 1234567)))
    pages.session.bearer(RING, "POST", "/books/7/held/ask", {"day": str(ago(-3)), "window": 2})
    pages.session.bearer(RING, "POST", "/books/7/held/repay", {"pence": 1234, "seq": 1})


def a_pledge_is_right(scheme):
    """A pledge with a refusal, and a receipt."""
    find("2")
    browser.says("asked for, not confirmed yet", "#statement")
    command("Repayment", "Record the repayment", amount="x")
    browser.says("Write the amount in pounds", "#commands")
    form = "Write the amount in pounds, as 100, 99.50 or 1,000: pence are two digits after a full stop, or none."
    wanted = ["amount", "true", form, True]
    expect("the refusal is tied to its field, and is near it", browser.run(TIED), wanted)
    is_right(f"{scheme} pledge")
    browser.shoot(f"{scheme}-pledge")
    take_a_ring(reference=scheme)
    is_right(f"{scheme} receipt")
    browser.shoot(f"{scheme}-receipt")


def screens_of_each_width_light_and_dark():
    with Pages() as pages:
        make_book(pages, terms=False)
        fill_with_all_sorts(pages)
        for scheme in ("light", "dark"):
            browser.devtools("Emulation.setEmulatedMedia", features=[{"name": "prefers-color-scheme", "value": scheme}])
            browser.forget()
            browser.go(pages.address + "/broker/")
            browser.says("Open your book")
            is_right(f"{scheme} door")
            browser.shoot(f"{scheme}-door")
            open_book(pages)
            the_book_is_read()
            each_part_is_right(scheme)
            a_pledge_is_right(scheme)
            show_receipt(pages, RING)
            browser.says("Still yours", "#cards")
            is_right(f"{scheme} pawnor")
            browser.shoot(f"{scheme}-pawnor")
        browser.devtools("Emulation.setEmulatedMedia", features=[])
        no_faults()


TIED = """
const field = document.activeElement;
const said = document.getElementById(field.getAttribute("aria-errormessage"));
const apart = said.getBoundingClientRect().top - field.getBoundingClientRect().bottom;
return [field.name, field.ariaInvalid, said.textContent, Math.abs(apart) < 200];
"""


main(
    (),
    (by_the_keyboard_alone, screens_of_each_width_light_and_dark, what_nginx_sends_and_notes, starts_that_are_refused),
)
