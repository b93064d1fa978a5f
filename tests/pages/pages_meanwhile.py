"""What misled a clerk or a pawnor who went on while something was under way; in a real browser, in front of the
program."""
import os

from tests.library.checks import expect
from tests.library.dates import six_months_after
from tests.library.keys import BROKER
from tests.library.pages.browser import Pages
from tests.library.pages.steps import (
    a_pledge_at_the_counter, a_pledge_by_its_receipt, ago, agree, an_open_book, book_text, browser, close_the_book,
    command, entries, fill_book, find, in_words, main, make_book, no_faults, open_book, part, secret_of, send_taking,
    the_book_is_read, the_clock_goes_on,
)

# The first look at pledge 1 comes only once it is let go.
SLOW_LOOK = """
const real = window.fetch;
const gate = new Promise((go) => { window.letGo = go; });
let isFirst = true;
window.fetch = async (path, how) => {
  const reply = await real(path, how);
  if (!isFirst || !path.endsWith("/pledges/1") || how.method !== "GET") return reply;
  isFirst = false;
  const text = await reply.text();
  await gate;
  setTimeout(() => { window.come = 1; }, 100);
  return new Response(text, reply);
};"""


def two_pledges(pages):
    """The first is shown."""
    make_book(pages)
    pages.session.open_pledge(1)
    pages.session.open_pledge(2, article="Silver watch")
    open_book(pages)
    the_book_is_read()
    find("1")
    browser.says("Gold ring", "#statement")
    browser.rests()


def an_act_is_done_on_the_pledge_on_which_it_was_pressed():
    """Another pledge is opened before the look that precedes the entry has come: it gets no entry."""
    with Pages() as pages:
        two_pledges(pages)
        browser.run(SLOW_LOOK)
        command("Repayment", "Record the repayment", amount="10")
        browser.run("location.hash = '#pledge=2'")
        browser.says("Silver watch", "#statement")
        browser.run("window.letGo()")
        browser.says("Pledge 1: Repaid: £10.00", "#elsewhere")
        browser.rests()
        browser.shoot("broker-elsewhere")
        expect("the other pledge", entries(pages, 2), [])
        expect("the pledge", [line.split(" ", 3)[3] for line in entries(pages, 1)], ["repay 10.00"])
        expect("what is shown", browser.text("#statement h2"), "Silver watch")
        browser.press("#elsewhere a", "Pledge 1")
        browser.says("£90.00 owed today", "#statement")
        expect("it is not said any more", browser.text("#elsewhere"), "")
        no_faults()



def what_came_of_an_act_is_said_in_another_part():
    with Pages() as pages:
        two_pledges(pages)
        browser.run(SLOW_LOOK)
        command("Repayment", "Record the repayment", amount="10")
        part("today")
        browser.says("Coming", "#sheet")
        browser.run("window.letGo()")
        browser.says("Pledge 1: Repaid: £10.00", "#elsewhere")
        browser.rests()
        part("take")
        browser.says("Pledge 1: Repaid: £10.00", "#elsewhere")
        browser.press("#elsewhere a", "Pledge 1")
        browser.says("£90.00 owed today", "#statement")
        browser.says("Repaid: £10.00", "#commands > .notice")
        no_faults()


def a_book_that_was_opened_meanwhile_gets_no_act():
    """The pledge of the same number in the book that was opened next gets no entry, and the first one gets none."""
    with Pages() as pages:
        two_pledges(pages)
        make_book(pages, book=8)
        pages.session.broker("POST", "/books/8/pledges", {
            "article": "Brooch", "five_days": False, "kind": "fixed", "pence": 10000, "ref": "B1",
        })
        browser.run(SLOW_LOOK)
        command("Repayment", "Record the repayment", amount="10")
        close_the_book()
        browser.fill("#open", book="8", key=BROKER)
        browser.press("#open .buttons button")
        browser.says("Coming", "#sheet")
        find("1")
        browser.says("Brooch", "#statement")
        browser.rests()
        browser.run("window.letGo()")
        browser.until("return window.come", "the look, and what is done with it")
        browser.rests()
        for book in (7, 8):
            expect(f"book {book}", entries(pages, 1, book=book), [])
        browser.says("Book 7, pledge 1: The book was closed before this was sent, so it was not done.", "#elsewhere")
        no_faults()


def a_book_that_was_opened_meanwhile_gets_no_pledge():
    """The first book gets none, either: it was closed before the look that precedes the taking had come."""
    with an_open_book() as pages:
        make_book(pages, book=8)
        the_book_is_read()
        part("take")
        browser.rests()
        browser.run(SLOW_LOOK)
        browser.fill("#taking", article="Gold ring", ref="A1", amount="100")
        browser.press("#taking button", "Take the pledge")
        browser.press("dialog button", "Take it for £100.00")
        browser.until("return !document.querySelector('dialog')", "the look")
        close_the_book()
        browser.fill("#open", book="8", key=BROKER)
        browser.press("#open .buttons button")
        browser.says("Coming", "#sheet")
        the_book_is_read()
        browser.run("window.letGo()")
        browser.until("return window.come", "the look, and what is done with it")
        browser.rests()
        for book in (7, 8):
            expect(f"book {book}", pages.session.broker("GET", f"/books/{book}/pledges/1")[0], 404)
        browser.says("Book 7: The book was closed before this was sent, so it was not done.", "#elsewhere")
        part("take")
        expect("the form of the other book", browser.text("#taking .notice"), "")
        browser.rests()
        no_faults()


TAKING = """const { article, ref, kind, amount, agreed, five } = document.querySelector('#taking').elements;
return [article.value, ref.value, kind.value, amount.value, agreed.value, five.checked];"""


def a_form_that_is_half_filled_outlives_a_reload():
    """But neither the pledge that it took, nor the closing of its book."""
    with an_open_book() as pages:
        the_book_is_read()
        part("take")
        typed = dict(article="Gold ring", ref="A1", kind="running", amount="12.50", agreed=str(ago(-300)), five="yes")
        browser.fill("#taking", **typed)
        whole = ["Gold ring", "A1", "running", "12.50", str(ago(-300)), True]
        browser.ask("POST", "/refresh", {})
        browser.says("Article", "#take")
        expect("after a reload", browser.run(TAKING), whole)
        send_taking()
        browser.says("Taken as pledge 1.", "#taking")
        empty = ["", "", "fixed", "", "", False]
        browser.ask("POST", "/refresh", {})
        browser.says("Article", "#take")
        expect("after it was taken", browser.run(TAKING), empty)
        browser.fill("#taking", article="Silver watch")
        close_the_book()
        open_again = {"book": "7", "key": BROKER}
        browser.fill("#open", **open_again)
        browser.press("#open button")
        part("take")
        browser.says("Article", "#take")
        expect("after the book was closed", browser.run(TAKING), empty)
        browser.rests()
        no_faults()


DAYS = "return performance.getEntriesByType('resource').map(({ name }) => name.split('/days/')[1]).filter(Boolean)"


def the_sheets_of_the_next_days_are_read_once():
    with an_open_book():
        the_book_is_read()
        browser.rests()
        asked = browser.run(DAYS)
        for count in range(1, 8):
            expect(f"the sheet in {count} days", asked.count(str(ago(-count))), 1)


# The sheet of the last of the next days comes only once it is let go, and after it no sheet of today.
LAST_SHEET_IS_LATE = """
const real = window.fetch;
const gate = new Promise((go) => { window.letGo = go; });
const never = new Promise(() => {});
const [first, last] = [...arguments];
window.late = [];
window.fetch = async (path, how) => {
  if (path.endsWith(`/days/${first}`) && window.late.length > 0) { window.late.push(first); await never; }
  if (!path.endsWith(`/days/${last}`)) return real(path, how);
  window.late.push(last);
  await gate;
  setTimeout(() => { window.come = 1; }, 500);
  return real(path, how);
};"""


def the_sheet_stays_where_its_part_is_gone_to_again():
    """The sheets of the next days, which were asked for before, come while the sheet of the day is read anew."""
    with an_open_book():
        the_book_is_read()
        browser.rests()
        browser.run(LAST_SHEET_IS_LATE, str(ago(0)), str(ago(-7)))
        part("today")
        browser.until("return window.late.length === 1", "the last sheet of the first look")
        part("today")
        browser.until("return window.late.length === 2", "the first sheet of the second look")
        browser.run("window.letGo()")
        browser.until("return window.come", "the last sheet of the first look")
        browser.says("No visit is confirmed for this day.", "#sheet")
        no_faults()


def a_key_can_be_shown_while_it_is_typed():
    with Pages() as pages:
        make_book(pages)
        browser.forget()
        browser.go(pages.address + "/broker/")
        browser.fill("#open", book="7", key=BROKER)
        kind = "return document.querySelector('#open-key').type"
        expect("it is hidden", browser.run(kind), "password")
        browser.press("#show-key")
        expect("it is shown", browser.run(kind), "text")
        browser.shoot("broker-key-shown")
        browser.press("#open .buttons button")
        browser.says("Coming", "#sheet")
        browser.press("#close-book")
        browser.element("#open")
        expect("the next is hidden", browser.run(kind), "password")
        expect("as it is shown", browser.run("return document.querySelector('#show-key').checked"), False)
        browser.rests()
        no_faults()


# The look that follows an act comes only once it is let go.
SLOW_LOOK_AFTER = """
const real = window.fetch;
const gate = new Promise((go) => { window.letGo = go; });
let isNext = false;
window.held = 0;
window.fetch = async (path, how) => {
  const reply = await real(path, how);
  if (how.method === "POST") { isNext = true; return reply; }
  if (!isNext) return reply;
  isNext = false;
  const text = await reply.text();
  window.held = 1;
  await gate;
  setTimeout(() => { window.come = 1; }, 100);
  return new Response(text, reply);
};"""


def a_look_during_an_act_leaves_nothing_that_is_over():
    """The shop refuses the visit, and the pawnor looks again before the look that follows the asking has come."""
    with a_pledge_by_its_receipt() as (pages, _):
        browser.says("Gold ring", "#cards")
        browser.rests()
        browser.run(SLOW_LOOK_AFTER)
        command("Ask for a time to come", "Ask for this time", day=str(ago(-3)))
        browser.until("return window.held", "the look that follows")
        pages.session.broker("POST", "/books/7/pledges/1/decide", {"yes": False})
        browser.press("#look-again")
        browser.run("window.letGo()")
        browser.until("return window.come", "the look that follows, and what is done with it")
        browser.until("return !document.querySelector('#look-again').disabled", "the end of the look")
        browser.rests()
        text = browser.text("#cards")
        expect("what is shown", ("refused by the shop" in text, "Asked for" in text), (True, False))
        no_faults()


def the_row_of_parts_stays_where_it_was_moved():
    """Once a part has come, the row does not move under the finger that is about to press."""
    with an_open_book():
        the_book_is_read()
        part("take")
        browser.rests()
        browser.run(SLOW_SHEET)
        part("today")
        browser.until("return window.held", "a sheet")
        browser.run("document.querySelector('#places').scrollLeft = 10000")
        moved = "return document.querySelector('#places').scrollLeft"
        before = browser.run(moved)
        browser.run("window.letGo()")
        browser.rests()
        expect("the row", (before > 0, browser.run(moved)), (True, before))
        no_faults()


# Sheets come only once they are let go.
SLOW_SHEET = """
const real = window.fetch;
const gate = new Promise((go) => { window.letGo = go; });
window.held = 0;
window.fetch = async (path, how) => {
  const reply = await real(path, how);
  if (!path.includes("/days/")) return reply;
  window.held = 1;
  await gate;
  return reply;
};"""


# Once the reply to a decision has come, and before anything else is asked for, another clerk decides otherwise.
TWO_DECIDE = """
const real = window.fetch;
window.fetch = async (path, how) => {
  const reply = await real(path, how);
  if (path.endsWith("/decide")) {
    window.fetch = real;
    await real(path, { ...how, body: JSON.stringify({ yes: false }) });
  }
  return reply;
};"""


def a_decision_that_another_clerk_overtakes_is_not_reported_as_it_was():
    with Pages() as pages:
        make_book(pages)
        receipt = pages.session.open_pledge(1)
        pages.session.bearer(receipt, "POST", "/books/7/held/ask", {"day": str(ago(-3)), "window": 4})
        open_book(pages)
        find("1")
        browser.says("Gold ring", "#statement")
        browser.rests()
        browser.run(TWO_DECIDE)
        command("Visit", "Confirm")
        browser.says("Another decision was made at the same time.", "#commands .action[open]")
        browser.says("refused", "#commands .action[open] .notice")
        expect("not as it was", "is confirmed" in browser.text("#commands"), False)
        no_faults()


# How each new sentence about the book's age is announced.
ANNOUNCED = """
const line = document.querySelector("#book-age");
window.announced = [];
new MutationObserver(() => window.announced.push([line.ariaLive, line.textContent])).observe(line, { childList: true });
"""


def the_age_of_the_book_is_not_read_out_each_minute():
    """A screen reader reads out that the book was read, but neither how old it has become nor each piece that came."""
    with an_open_book():
        the_book_is_read()
        browser.rests()
        browser.run(ANNOUNCED)
        the_clock_goes_on(65)
        browser.says("The book was read a minute ago", "#book-line")
        the_clock_goes_on(65)
        browser.rests()
        expect("an older book", {how for how, _ in browser.run("return window.announced")}, {"off"})
        browser.run("window.announced.length = 0")
        browser.press("#read-book")
        browser.says("The book was read less than a minute ago", "#book-line")
        browser.rests()
        found = browser.run("return window.announced")
        expect("a reading", [how for how, said in found if said.startswith("The book was read")], ["polite"])
        no_faults()


# Of the next reply from this place only the beginning of the head comes: a browser returns it as 200 without a body.
CUT = """
const real = window.fetch;
window.fetch = async (path, how) => {
  const reply = await real(path, how);
  if (!path.endsWith(window.cut)) return reply;
  window.cut = "none";
  return new Response("", { headers: { "Content-Type": window.cutType } });
};"""


def a_reply_that_was_cut_in_its_head_is_a_lost_one():
    with an_open_book() as pages:
        pages.session.open_pledge(1)
        find("1")
        browser.says("£100.00 owed today", "#statement")
        browser.run(CUT)
        for count, amount, type_ in (1, "10", "applic"), (2, "20", "application/json"):
            browser.run(f"window.cut = '/repay'; window.cutType = '{type_}'")
            command("Repayment", "Record the repayment", amount=amount)
            browser.says(f"Repaid: £{amount}.00", "#commands")
            expect("it was sent again, and entered once", (browser.run("return window.cut"), len(entries(pages, 1))),
                   ("none", count))
        browser.run("window.cut = '/pledges/1'; window.cutType = 'text/plain'")
        find("1")
        browser.until("return window.cut === 'none'", "a reply that was cut")
        browser.says("£70.00 owed today", "#statement")
        no_faults()


def a_question_names_its_pledge_and_does_not_stay_above_another():
    """Back shows another pledge while a question is open: nothing is recorded, and that is said."""
    with Pages() as pages:
        two_pledges(pages)
        browser.run("location.hash = '#pledge=2'")
        browser.says("Silver watch", "#statement")
        browser.rests()
        command("Repayment", "Record the repayment", amount="80")
        browser.says("Pledge 2: Silver watch", "dialog")
        described = "document.getElementById(document.querySelector('dialog').getAttribute('aria-describedby'))"
        read_out = browser.run(f"return {described}?.textContent ?? ''")
        expect("its sentences are read out", ("Silver watch" in read_out, "is owed now" in read_out), (True, True))
        browser.run("history.back()")
        browser.says("Gold ring", "#statement")
        browser.until("return !document.querySelector('dialog')", "the end of the question")
        browser.says("Pledge 2: Nothing was recorded.", "#elsewhere")
        browser.rests()
        for number in (1, 2):
            expect(f"pledge {number}", entries(pages, number), [])
        no_faults()


def each_question_names_its_pledge():
    with Pages() as pages:
        make_book(pages, terms=False)
        pledges = [("Gold ring", "A1", 10000, ago(1), "", "no"), ("Old clock", "A2", 9000, ago(400), "", "no")]
        fill_book(pages, book_text(pledges))
        visit = {"day": str(ago(-3)), "window": 4}
        pages.session.bearer(f"1-{secret_of(1)}", "POST", "/books/7/held/ask", visit)
        open_book(pages)
        the_book_is_read()
        find("1")
        browser.says("Gold ring", "#statement")
        for title, button, typed in (
            ("Visit", "Refuse", {}), ("Repayment", "Record the repayment", {"amount": "80"}),
            ("Extend the period", "Extend", {"until": str(ago(-300))}), ("Renew", "Renew the pledge", {}),
            ("Print the receipt again", "Print the receipt again", {}),
            ("Replace a lost receipt", "Make a new receipt", {}),
        ):
            command(title, button, **typed)
            browser.says("Pledge 1: Gold ring", "dialog")
            browser.press("dialog button.plain")
            browser.says("Nothing was", "#commands .action[open]")
        find("2")
        browser.says("Old clock", "#statement")
        command("Sale", "Record the sale", amount="90")
        browser.says("Pledge 2: Old clock", "dialog")
        browser.press("dialog button.plain")
        browser.rests()
        no_faults()


# A reply to such a request comes only once it is let go.
SLOW_REPLY = """
const [method, end] = arguments;
const real = window.fetch;
const gate = new Promise((go) => { window.letGo = go; });
window.held = 0;
window.fetch = async (path, how) => {
  const reply = await real(path, how);
  if (how.method !== method || !path.endsWith(end)) return reply;
  window.fetch = real;
  const text = await reply.text();
  window.held = 1;
  await gate;
  return new Response(text, reply);
};"""


def close_and_open_another(close=close_the_book):
    """Closes book 7 while a reply is awaited, opens book 8, and lets the reply come."""
    browser.until("return window.held", "a reply that is late")
    close()
    browser.fill("#open", book="8", key=BROKER)
    browser.press("#open .buttons button")
    browser.says("Coming", "#sheet")


def an_act_of_a_book_that_was_closed_is_reported_with_its_book():
    """At the door: what was done in the book is not left unsaid."""
    with Pages() as pages:
        two_pledges(pages)
        browser.run(SLOW_REPLY, "POST", "/repay")
        command("Repayment", "Record the repayment", amount="10")
        browser.until("return window.held", "a reply that is late")
        close_the_book()
        browser.element("#open")
        browser.run("window.letGo()")
        browser.says("Book 7, pledge 1: Repaid: £10.00", "#elsewhere")
        browser.says("It is recorded, but the pledge can’t be read just now.", "#elsewhere")
        browser.shoot("broker-closed-meanwhile")
        expect("the pledge", [line.split(" ", 3)[3] for line in entries(pages, 1)], ["repay 10.00"])
        no_faults()


def a_renewal_of_a_book_that_was_closed_says_how_far_it_came():
    with Pages() as pages:
        make_book(pages, terms=False)
        fill_book(pages, book_text([("Gold ring", "A1", 10000, ago(30), "", "no")]))
        open_book(pages)
        the_book_is_read()
        find("1")
        browser.says("Gold ring", "#statement")
        browser.run(SLOW_REPLY, "POST", "/repay")
        command("Renew", "Renew the pledge")
        browser.press("dialog button.grave")
        browser.until("return window.held", "a reply that is late")
        close_the_book()
        browser.run("window.letGo()")
        browser.says("Book 7, pledge 1: £8.30 of charges was received. The period was not extended: the book was closed "
                     "meanwhile.", "#elsewhere")
        no_faults()


def no_question_is_asked_about_a_book_that_was_closed():
    """The book is closed before the look that precedes the question has come: the act ends there, and says so."""
    for title, button, method, end, typed in (
        ("Extend the period", "Extend", "GET", "/pledges/1", {"until": str(ago(-300))}),
        ("Renew", "Renew the pledge", "GET", "/pledges/1", {}),
        ("Redeem by the paper", "Redeem", "GET", "/held", {"receipt": f"1-{secret_of(1)}", "amount": "100"}),
    ):
        with Pages() as pages:
            make_book(pages, terms=False)
            fill_book(pages, book_text([("Gold ring", "A1", 10000, ago(30), "", "no")], rates=(0, 0, 0)))
            open_book(pages)
            the_book_is_read()
            find("1")
            browser.says("Gold ring", "#statement")
            browser.rests()
            browser.run(SLOW_REPLY, method, end)
            command(title, button, **typed)
            browser.until("return window.held", "a look that is late")
            close_the_book()
            browser.element("#open")
            browser.run("window.letGo()")
            browser.until(
                "return document.querySelector('dialog') || document.querySelector('#elsewhere').textContent",
                f"what comes of it: {title}",
            )
            expect(f"no question: {title}", browser.run("return document.querySelector('dialog')"), None)
            browser.says("Book 7, pledge 1: The book was closed before this was sent, so it was not done.", "#elsewhere")
            no_faults()


def no_pledge_is_asked_about_for_a_book_that_was_closed():
    """The book has no terms, so the page looks whether another till has added some; and it is closed meanwhile."""
    with Pages() as pages:
        make_book(pages, terms=False)
        open_book(pages)
        the_book_is_read()
        part("take")
        browser.rests()
        browser.run(SLOW_REPLY, "GET", "/export")
        browser.fill("#taking", article="Gold ring", ref="A1", amount="100")
        browser.press("#taking button", "Take the pledge")
        browser.until("return window.held", "a look that is late")
        close_the_book()
        browser.element("#open")
        browser.run("window.letGo()")
        browser.until(
            "return document.querySelector('dialog') || document.querySelector('#elsewhere').textContent",
            "what comes of it",
        )
        expect("no question", browser.run("return document.querySelector('dialog')"), None)
        browser.says("Book 7: The book was closed before this was sent, so it was not done.", "#elsewhere")
        no_faults()


def a_file_has_the_name_of_its_own_book():
    with Pages() as pages:
        two_pledges(pages)
        make_book(pages, book=8)
        saved = """const real = HTMLAnchorElement.prototype.click;
        HTMLAnchorElement.prototype.click = function () { if (this.download) window.saved = this.download; };"""
        part("files")
        browser.run(saved)
        browser.run(SLOW_REPLY, "GET", "/export")
        browser.press("#exporting button")
        close_and_open_another()
        part("files")
        browser.run("window.letGo()")
        browser.says("Book 7: The book is saved", "#elsewhere")
        expect("its name", browser.run("return window.saved")[:7], "book-7-")
        expect("the form of the other book", browser.text("#exporting .notice"), "")
        no_faults()


def what_is_typed_for_one_book_is_not_left_for_another():
    """Nor is the result of its terms said of the other book."""
    with Pages() as pages:
        two_pledges(pages)
        make_book(pages, book=8)
        part("files")
        file = os.path.join(pages.room, "book.csv")
        with open(file, "w") as it:
            it.write("row,c1\n")
        browser.fill("#importing", file=file)
        part("terms")
        browser.says("0.2667%", "#terms-list")
        browser.rests()
        browser.run(SLOW_REPLY, "POST", "/terms")
        browser.fill("#new-terms", rate="0.3")
        browser.press("#new-terms button")
        agree()
        close_and_open_another()
        part("terms")
        browser.says("Version 2", "#next-version")
        browser.run("window.letGo()")
        browser.says("Book 7: Version 2 is in the book.", "#elsewhere")
        browser.rests()
        said = browser.text("#new-terms .notice"), browser.text("#terms-example"), browser.text("#next-version")
        expect("the terms of the other book", said, ("", "", "Version 2"))
        left = "return [document.querySelector('#terms-rate').value, document.querySelector('#import-file').files.length]"
        expect("what was typed", browser.run(left), ["", 0])
        no_faults()


def what_was_looked_for_in_a_book_is_not_said_of_another():
    """By a receipt that is dead, by one that is live, and by a number."""
    for end, sought in (("/held", lambda _: f"1-{secret_of(1)}"), ("/held", str), ("/pledges/3", lambda _: "3")):
        with Pages() as pages:
            two_pledges(pages)
            receipt = pages.session.open_pledge(3, article="Brooch")
            make_book(pages, book=8)
            browser.run(SLOW_REPLY, "GET", end)
            find(sought(receipt))
            close_and_open_another(lambda: browser.press("#close-book"))
            part("pledge")
            browser.rests()
            browser.run("window.letGo()")
            browser.until("return document.querySelector('#finding .notice').textContent === ''", "no word of it")
            browser.rests()
            said = (browser.text("#finding .notice"), browser.text("#elsewhere"), browser.text("#found").strip())
            expect("what is said and shown", said, ("", "", ""))
            no_faults()


def a_search_that_ends_after_the_clerk_has_gone_on_takes_nobody_back():
    """By a number, by a receipt, and by a receipt that was typed where pledges are listed or taken."""
    with Pages() as pages:
        two_pledges(pages)
        receipt = pages.session.open_pledge(3, article="Brooch")
        for name, end, how in (
            ("pledge", "/pledges/3", lambda: find("3")),
            ("pledge", "/held", lambda: find(receipt)),
            ("all", "/held", lambda: browser.keys(receipt + "\ue007")),
            ("take", "/held", lambda: browser.press("#taking button", "Take the pledge")),
        ):
            part(name)
            browser.rests()
            browser.run("document.querySelector('#elsewhere').textContent = ''")
            browser.run(SLOW_REPLY, "GET", end)
            browser.run("document.querySelector('#search-text').focus()")
            if name == "take":
                browser.fill("#taking", article="Ring", ref=receipt, amount="5")
            how()
            browser.until("return window.held", "a reply that is late")
            part("till")
            browser.run("window.letGo()")
            browser.says("Pledge 3: It was found after you had gone on, so it was not opened.", "#elsewhere")
            browser.rests()
            expect(f"where the clerk is, after {name}", browser.run("return location.hash"), "#till")
        browser.press("#elsewhere a", "Pledge 3")
        browser.says("Brooch", "#statement")
        expect("it is not said any more", browser.text("#elsewhere"), "")
        expect("it is not called live, as it was before", "is live" in browser.text("#commands"), False)
        no_faults()


def a_search_that_fails_hides_no_pledge_that_was_opened_meanwhile():
    with Pages() as pages:
        two_pledges(pages)
        browser.run(SLOW_REPLY, "GET", "/pledges/99")
        find("99")
        browser.until("return window.held", "a reply that is late")
        browser.run("location.hash = '#pledge=2'")
        browser.says("Silver watch", "#statement")
        browser.run("window.letGo()")
        browser.rests()
        the_book_is_read()
        browser.rests()
        browser.says("Silver watch", "#pledge")
        no_faults()


def what_came_of_terms_is_said_where_their_part_is_shown_again():
    with an_open_book():
        the_book_is_read()
        part("terms")
        browser.says("Version 2", "#next-version")
        browser.rests()
        browser.run(SLOW_REPLY, "POST", "/terms")
        browser.fill("#new-terms", rate="0.3", before="0", after="0")
        browser.press("#new-terms button")
        browser.press("dialog button.grave")
        browser.until("return window.held", "a reply that is late")
        part("today")
        browser.says("Coming", "#sheet")
        part("terms")
        browser.run("window.letGo()")
        browser.says("Version 2 is in the book.", "#new-terms .notice")
        no_faults()


# No reply with the whole book comes.
NO_BOOK = """
const real = window.fetch;
window.fetch = (path, how) => (path.endsWith("/export") ? new Promise(() => {}) : real(path, how));"""


def a_look_at_the_terms_is_not_asked_about_where_the_book_is_closed():
    with Pages() as pages:
        make_book(pages)
        browser.forget()
        browser.go(pages.address + "/broker/")
        browser.fill("#open", book="7", key=BROKER)
        browser.run(NO_BOOK)
        browser.press("#open .buttons button")
        browser.says("Coming", "#sheet")
        part("terms")
        browser.says("One moment…", "#new-terms")
        browser.press("#close-book")
        browser.element("#open")
        expect("no question", browser.run("return document.querySelector('dialog')"), None)


def what_came_of_a_take_is_said_in_another_part():
    with an_open_book() as pages:
        the_book_is_read()
        part("take")
        browser.rests()
        browser.run(SLOW_REPLY, "POST", "/pledges")
        send_taking(article="Gold ring", ref="A1", amount="100")
        browser.until("return window.held", "a reply that is late")
        part("today")
        browser.says("Coming", "#sheet")
        browser.run("window.letGo()")
        browser.says("Take a pledge: Taken as pledge 1. Its receipt is ready to print.", "#elsewhere")
        browser.press("#elsewhere a", "Take a pledge")
        browser.says("Pledge 1 is in the book: Gold ring.", "#take")
        expect("it is not said any more", browser.text("#elsewhere"), "")
        no_faults()


def a_question_about_a_pledge_that_is_open_over_midnight_is_asked_again():
    with an_open_book() as pages:
        the_book_is_read()
        part("take")
        browser.fill("#taking", article="Gold ring", ref="A1", amount="100")
        browser.press("#taking button", "Take the pledge")
        browser.says(f"The period ends on {in_words(six_months_after(ago(0)))}", "dialog")
        the_clock_goes_on(86_400)
        browser.says("A new day has begun since this was asked. Days and sums in it are those of "
                     f"{in_words(ago(0))}.", "dialog")
        browser.press("dialog button", "Take it for £100.00")
        browser.says(f"The period ends on {in_words(six_months_after(ago(-1)))}", "dialog")
        browser.says("A new day has begun since you were asked.", "dialog")
        browser.press("dialog button", "Not now")
        browser.says("Nothing was done.", "#taking")
        expect("no pledge", pages.session.broker("GET", "/books/7/pledges/1")[0], 404)
        no_faults()


# The statements of the pledge are those of the next day, with a day's charges more.
A_DAY_MORE = """
const [status, charges, owing] = arguments;
const real = window.fetch;
window.fetch = async (path, how) => {
  const reply = await real(path, how);
  if (!path.endsWith("/pledges/1")) return reply;
  const text = (await reply.text()).replace(/^Status .*$/m, `Status ${status}`)
    .replace(/^Charges .*$/m, `Charges ${charges}`).replace(/^Owing .*$/m, `Owing ${owing}`);
  return new Response(text, reply);
};"""


def ask_to_renew(taken):
    """The question about the renewal of the one pledge, which was taken on this day; and then it is the next day."""
    find("1")
    browser.says("£100.00, a fixed sum", "#statement")
    command("Renew", "Renew the pledge", until=str(six_months_after(six_months_after(taken))))
    browser.says("of interest and safe keeping was received.", "dialog")
    the_clock_goes_on(86_400)


def a_renewal_that_is_asked_about_over_midnight_takes_the_charges_of_the_new_day():
    """The charges of the new day are asked about. If the period is over by then, nothing is asked."""
    for taken, status, button in ((ago(30), "inside", "Receive £8.26"), (ago(181), "grace", None)):
        with Pages() as pages:
            make_book(pages, terms=False)
            fill_book(pages, book_text([("Ring", "Ring-1", 10000, taken, "", "yes")], rates=(2667, 0, 0)))
            open_book(pages)
            the_book_is_read()
            ask_to_renew(taken)
            browser.run(A_DAY_MORE, status, "8.26", "108.26")
            browser.press("dialog button.grave")
            if button:
                browser.says("A new day has begun since you were asked.", "dialog")
                browser.says("£8.26 of interest and safe keeping was received.", "dialog")
                browser.says(button, "dialog")
                browser.press("dialog button", "Not now")
                browser.says("Nothing was done.", "#commands")
            else:
                browser.says("The period is over, so nothing more is drawn and the end is not moved.", "#commands")
            expect("no entry", entries(pages, 1), [])
            no_faults()


def what_was_said_of_a_pledge_is_not_left_over_midnight():
    """The sum of the day before is not left beside the sum of the new day."""
    with a_pledge_at_the_counter() as (_, receipt):
        find(receipt)
        browser.says("This receipt is live. £100.00 is owed today.", "#commands")
        browser.run(A_DAY_MORE, "inside", "0.26", "100.26")
        the_clock_goes_on(86_400)
        browser.says("£100.26 owed today", "#statement")
        browser.rests()
        expect("the sum of the day before", "£100.00 is owed today" in browser.text("#commands"), False)
        no_faults()


# The service takes the pledge on the day after.
NEXT_DAY = """
const [taken, ends] = arguments;
const real = window.fetch;
window.fetch = async (path, how) => {
  const reply = await real(path, how);
  if (!path.endsWith("/held")) return reply;
  const text = await reply.text();
  const moved = text.replace(/^Taken .*$/m, `Taken ${taken}`).replace(/^Ends .*$/m, `Ends ${ends}`);
  return new Response(moved, reply);
};"""


def a_pledge_that_is_taken_after_midnight_says_its_day():
    """The request went off before midnight, and the service did it after."""
    with an_open_book():
        the_book_is_read()
        part("take")
        browser.rests()
        next_end = six_months_after(ago(-1))
        browser.run(NEXT_DAY, str(ago(-1)), str(next_end))
        send_taking(article="Gold ring", ref="A1", amount="100")
        browser.says(f"Taken as pledge 1 on {in_words(ago(-1))}, and not on the day that was asked about: the period ends "
                     f"on {in_words(next_end)}.", "#taking")
        no_faults()


def a_day_that_cant_be_read_shows_no_other():
    """The cards of the day before go, and the title names the day that was asked for."""
    with Pages() as pages:
        make_book(pages)
        receipt = pages.session.open_pledge(1)
        pages.session.bearer(receipt, "POST", "/books/7/held/ask", {"day": str(ago(0)), "window": 4})
        pages.session.broker("POST", "/books/7/pledges/1/decide", {"yes": True})
        open_book(pages)
        the_book_is_read()
        browser.says("11:00 to 11:30", "#sheet")
        browser.rests()
        with browser.without_a_line():
            browser.press("#sheet-day button[value='1']")
            browser.says("The service can’t be reached just now.", "#today", patience=30)
            expect("the cards", browser.text("#sheet"), "")
            browser.says(in_words(ago(-1)), "#sheet-title")
        browser.press("#sheet-day button[value='0']")
        browser.says("Coming", "#sheet")
        browser.press("#sheet-day button[value='-1']")
        browser.says("11:00 to 11:30", "#sheet")
        with browser.without_a_line():
            browser.press("#sheet-day button[value='0']")
            browser.says("What is shown was read at ", "#today", patience=30)
            browser.says("11:00 to 11:30", "#sheet")


def a_sheet_that_is_read_again_is_not_left_under_what_failed():
    """The line went down, and the book was read again once it was back."""
    with an_open_book():
        the_book_is_read()
        browser.says("Coming", "#sheet")
        for step in "1", "0":
            browser.rests()
            with browser.without_a_line():
                browser.press(f"#sheet-day button[value='{step}']")
                browser.says("The service can’t be reached just now.", "#sheet-day", patience=30)
            browser.press("#read-book")
            browser.says("Coming", "#sheet")
            gone = "return document.querySelector('#sheet-day .notice').textContent === ''"
            browser.until(gone, f"{step}: no word of a failure")
            expect(f"{step}: when an old one was read", browser.text("#sheet-old"), "")


main(
    (),
    (
        an_act_is_done_on_the_pledge_on_which_it_was_pressed, what_came_of_an_act_is_said_in_another_part,
        a_book_that_was_opened_meanwhile_gets_no_act, a_book_that_was_opened_meanwhile_gets_no_pledge,
        a_form_that_is_half_filled_outlives_a_reload,
        the_sheets_of_the_next_days_are_read_once,
        the_sheet_stays_where_its_part_is_gone_to_again, a_key_can_be_shown_while_it_is_typed,
        a_look_during_an_act_leaves_nothing_that_is_over, the_row_of_parts_stays_where_it_was_moved,
        a_decision_that_another_clerk_overtakes_is_not_reported_as_it_was,
        the_age_of_the_book_is_not_read_out_each_minute, a_reply_that_was_cut_in_its_head_is_a_lost_one,
        a_question_names_its_pledge_and_does_not_stay_above_another, each_question_names_its_pledge,
        an_act_of_a_book_that_was_closed_is_reported_with_its_book,
        a_renewal_of_a_book_that_was_closed_says_how_far_it_came,
        no_question_is_asked_about_a_book_that_was_closed, no_pledge_is_asked_about_for_a_book_that_was_closed,
        a_file_has_the_name_of_its_own_book,
        what_is_typed_for_one_book_is_not_left_for_another, what_was_looked_for_in_a_book_is_not_said_of_another,
        a_search_that_ends_after_the_clerk_has_gone_on_takes_nobody_back,
        a_search_that_fails_hides_no_pledge_that_was_opened_meanwhile,
        what_came_of_a_take_is_said_in_another_part,
        what_came_of_terms_is_said_where_their_part_is_shown_again,
        a_look_at_the_terms_is_not_asked_about_where_the_book_is_closed,
        a_question_about_a_pledge_that_is_open_over_midnight_is_asked_again,
        a_renewal_that_is_asked_about_over_midnight_takes_the_charges_of_the_new_day,
        what_was_said_of_a_pledge_is_not_left_over_midnight,
        a_pledge_that_is_taken_after_midnight_says_its_day, a_day_that_cant_be_read_shows_no_other,
        a_sheet_that_is_read_again_is_not_left_under_what_failed,
    ),
)
