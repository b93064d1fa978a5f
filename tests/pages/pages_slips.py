"""Slips at the counter: what is asked before it is made, what is never sent, and what is found again after a lost
reply; in a real browser, in front of the program."""
import datetime
import re

from tests.library.book_texts import COLUMNS, row
from tests.library.checks import expect
from tests.library.dates import six_months_after, today
from tests.library.keys import BROKER
from tests.library.pages.browser import Pages
from tests.library.pages.steps import (
    LOST, WRONG_SECRET, a_pledge_at_the_counter, ago, agree, an_open_book, book_text, browser, command, entries, fill_book,
    find, in_short, in_words, main, make_book, no_faults, open_book, part, secret_of, send_taking, take_a_ring,
    the_book_is_read, unfold,
)
from tests.library.waiting import wait_for


def ends_of(pages, number=1):
    return re.search(r"^Ends (.*)$", pages.session.broker("GET", f"/books/7/pledges/{number}")[1], re.M)[1]


def an_extension_is_asked_about():
    """The old end, the new one and the days between; loudly above a year. Nothing is sent before."""
    with a_pledge_at_the_counter() as (pages, _):
        browser.says("£100.00 owed today", "#statement")
        end = six_months_after(today())
        command("Extend the period", "Extend", until="2199-12-31")
        for says in (
            "Extend the period?", f"The period ends on {in_words(end)} now.", "Tuesday 31 December 2199",
            "more than a year later", "can’t be made earlier again",
        ):
            browser.says(says, "dialog")
        browser.shoot("broker-extend")
        browser.press("dialog button", "Not now")
        browser.says("Nothing was done.", "#commands")
        expect("the end is unchanged", ends_of(pages), str(end))
        longer = end.replace(day=1).replace(year=end.year + 1)
        days = (longer - end).days
        browser.rests()
        browser.fill(".action[open] form", until=str(longer))
        browser.press(".action[open] button", "Extend")
        browser.says(f"{days} days later", "dialog")
        expect("not loudly", "more than a year later" in browser.text("dialog"), False)
        browser.press("dialog button", f"Extend it by {days} days")
        browser.says(f"The period ends on {in_words(longer)}.", "#commands")
        expect("it is extended", ends_of(pages), str(longer))
        no_faults()


def an_extension_whose_end_is_moved_during_its_question_is_asked_about_anew():
    """The question counts the days from the old end."""
    with a_pledge_at_the_counter() as (pages, _):
        browser.says("£100.00 owed today", "#statement")
        end = six_months_after(today())
        until, moved = end + datetime.timedelta(days=90), end + datetime.timedelta(days=60)
        command("Extend the period", "Extend", until=str(until))
        browser.says("90 days later", "dialog")
        pages.session.broker("POST", "/books/7/pledges/1/extend", {"until": str(moved)})
        browser.press("dialog button", "Extend it by 90 days")
        browser.says(f"its end was moved to {in_words(moved)}", "#commands .action[open]")
        expect("nothing was sent", ends_of(pages), str(moved))
        browser.rests()
        browser.press(".action[open] button", "Extend")
        browser.says(f"The period ends on {in_words(moved)} now.", "dialog")
        browser.press("dialog button", "Extend it by 30 days")
        browser.says(f"The period ends on {in_words(until)}.", "#commands")
        no_faults()


def an_earlier_end_is_not_sent():
    """Also where another till moved the end since the pledge was shown."""
    with a_pledge_at_the_counter() as (pages, _):
        browser.says("£100.00 owed today", "#statement")
        end = six_months_after(today())
        browser.run(COUNT_POSTS)
        for day in (ago(-3), end):
            browser.rests()
            unfold("Extend the period")
            browser.run("document.querySelector('.action[open] input').min = ''")
            browser.fill(".action[open] form", until=str(day))
            browser.press(".action[open] button", "Extend")
            browser.says(f"The new end is to be after {in_short(end)}.", "#commands")
            expect("the field is marked", browser.run("return document.activeElement.name"), "until")
        pages.session.broker("POST", "/books/7/pledges/1/extend", {"until": str(ago(-300))})
        browser.fill(".action[open] form", until=str(ago(-250)))
        browser.press(".action[open] button", "Extend")
        browser.says(f"its end was moved to {in_words(ago(-300))}", "#commands")
        expect("nothing was sent", browser.run("return window.posts"), [])


COUNT_POSTS = """
const real = window.fetch;
window.posts = [];
window.fetch = (path, how) => {
  if (how.method === "POST") window.posts.push([path.split("/").pop(), JSON.parse(how.body || "null")]);
  return real(path, how);
};"""


def an_unlike_amount_is_asked_about():
    """Half of what is lent and the charges are as usual; more is asked about, as is any sum from the shop's own on."""
    with an_open_book() as pages:
        pages.session.open_pledge(1)
        pages.session.open_pledge(2, kind="running", pence=50000, article="Teapot")
        find("1")
        command("Repayment", "Record the repayment", amount="50")
        browser.says("Repaid: £50.00", "#commands")
        command("Repayment", "Record the repayment", amount="26")
        browser.says("Record £26.00 as received?", "dialog")
        browser.says("An entry can’t be taken back", "dialog")
        browser.press("dialog button", "Not now")
        browser.says("Nothing was recorded.", "#commands")
        expect("one entry", len(entries(pages, 1)), 1)
        command("Repayment", "Record the repayment", amount="50")
        browser.says("That is all that is owed, but the pledge stays open", "dialog")
        browser.press("dialog button", "Not now")
        command("Repayment", "Record the repayment", amount="50.01")
        browser.says("That is more than is owed. Owed today: £50.00.", "#commands")
        find("2")
        command("Drawing", "Record the drawing", amount="250")
        browser.says("Drawn: £250.00", "#commands")
        part("shop")
        browser.fill("#shop-form", ask="20")
        browser.press("#shop-form button", "Keep these")
        browser.says("Kept in this browser.", "#shop")
        find("2")
        command("Drawing", "Record the drawing", amount="20")
        browser.says("Record £20.00 as paid out?", "dialog")
        browser.says("recorded as repaid", "dialog")
        browser.press("dialog button", "Record £20.00")
        browser.says("Drawn: £20.00", "#commands")
        no_faults()


def how_slips_are_mended_is_told():
    with an_open_book() as pages:
        take_a_ring()
        find("A1")
        unfold("If something was entered by mistake")
        for says in (
            "redeem the pledge by its own receipt for what is owed", "£100.00 is owed today.", "take it anew",
            "unless it was taken twice",
            "can’t be drawn again on a fixed sum",
            "A visit that was refused can’t be confirmed: the pawnor asks for it again.",
        ):
            browser.says(says, "#commands .action[open]")
        pages.session.open_pledge(2, kind="running", pence=50000, article="Teapot")
        find("2")
        unfold("If something was entered by mistake")
        browser.says("a repayment of too much is drawn again", "#commands .action[open]")
        browser.says("charges that were owed are part of the loan after it", "#commands .action[open]")
        browser.shoot("broker-slips")


def open_account(pages, *, taken, drawn, rate):
    """Shows the one pledge of a book: a running account up to £500, from which so many pence were drawn at once."""
    rows = [
        COLUMNS, row("B", 2, 1, 1), row("T", 1, rate, 0, 0),
        row("P", 1, "P1", "Piano", "running", 50000, taken, "", "no", 1, "no", taken, "open"),
        row("S", 1, 1, taken, "opening", secret_of(1)), row("E", 1, 1, taken, "draw", drawn),
    ]
    make_book(pages, terms=False)
    fill_book(pages, "\n".join(rows) + "\n")
    open_book(pages)
    find("1")


def a_repayment_is_drawn_again_up_to_the_limit():
    """Charges that were paid by mistake are part of the loan if they are drawn again, and may be above the limit."""
    with Pages() as pages:
        open_account(pages, taken=ago(60), drawn=50000, rate=2667)
        browser.says("£580.01 owed today", "#statement")
        command("Repayment", "Record the repayment", amount="500")
        browser.says("what was repaid by mistake is drawn again, up to the limit of the account.", "dialog")
        browser.press("dialog button", "Record £500.00")
        browser.says("£80.01 is owed now.", "#commands")
        unfold("If something was entered by mistake")
        browser.says(
            "a repayment of too much is drawn again, up to the limit of the account: charges that it paid may not fit "
            "under it.", "#commands .action[open]",
        )
        command("Drawing", "Record the drawing", amount="500")
        browser.says("Drawing that much would pass the limit of the account.", "#commands .action[open]")
        no_faults()


def a_repayment_after_the_period_is_not_drawn_again():
    with Pages() as pages:
        open_account(pages, taken=ago(200), drawn=20000, rate=0)
        browser.says("£200.00 owed today", "#statement")
        command("Repayment", "Record the repayment", amount="150")
        browser.says("can’t be taken back, and nothing is drawn again once the period is over.", "dialog")
        browser.press("dialog button", "Record £150.00")
        browser.says("£50.00 is owed now.", "#commands")
        unfold("If something was entered by mistake")
        browser.says(
            "A repayment of too much can’t be drawn again, since the period is over. If the pawnor agrees and brings "
            "the paper: redeem the pledge", "#commands .action[open]",
        )
        no_faults()


def a_sale_is_asked_about_with_its_surplus():
    with Pages() as pages:
        make_book(pages, terms=False)
        fill_book(pages, book_text([("Old clock", "O1", 9000, ago(220), "", "no")], rates=(0, 0, 0)))
        open_book(pages)
        find("1")
        browser.says("The period ended", "#statement")
        surplus = "The surplus is £30.25: it is the pawnor’s."
        for amount, says in (("120.25", surplus), ("80", "£10.00 less than is owed")):
            command("Sale", "Record the sale", amount=amount)
            browser.says("£90.00 is owed today.", "dialog")
            browser.says(says, "dialog")
            browser.press("dialog button", "Not now")
            browser.says("Nothing was done.", "#commands")
        command("Sale", "Record the sale", amount="1,500,000")
        browser.says("That amount can’t be taken", "#commands")
        expect("no question", browser.run("return document.querySelector('dialog')"), None)
        no_faults()


def a_sale_whose_reply_is_lost_is_told():
    with Pages() as pages:
        make_book(pages, terms=False)
        fill_book(pages, book_text([("Old clock", "O1", 9000, ago(220), "", "no")], rates=(0, 0, 0)))
        open_book(pages)
        find("1")
        browser.says("The period ended", "#statement")
        with pages.relay.loses("/sell"):
            command("Sale", "Record the sale", amount="120.25")
            browser.press("dialog button.grave")
            browser.says(
                LOST + "Sold for £120.25: £30.25 more than was owed, which is the pawnor’s.", "#commands", patience=30,
            )
        browser.says("Sold on", "#statement")
        no_faults()


def a_take_whose_reply_is_lost_is_found():
    """By its reference, once the book is read; and pressed again it is the same pledge, and no other reference."""
    with an_open_book() as pages:
        the_book_is_read()
        part("take")
        with pages.relay.loses("/pledges", times=10):
            send_taking(article="Gold ring", ref="A1", amount="100")
            browser.says("The reply was lost, but the pledge was taken. Taken as pledge 1.", "#taking", patience=40)
        receipt = browser.text(".paper .secret").strip()
        expect("its receipt is live", pages.session.bearer(receipt, "GET", "/books/7/held")[0], 200)
        expect("one pledge", pages.session.broker("GET", "/books/7/pledges/2")[0], 404)
        no_faults()


def a_take_that_is_lost_for_a_while_is_the_same_when_it_is_pressed_again():
    with an_open_book() as pages:
        the_book_is_read()
        part("take")
        browser.run(LOSE_ALL)
        send_taking(article="Gold ring", ref="A1", amount="100")
        browser.says("so the pledge may have been taken. Don’t choose another reference", "#taking", patience=40)
        browser.run("window.fetch = window.real")
        browser.press("#read-book")
        the_book_is_read()
        browser.rests()
        expect("no word of another reference", browser.text("#reference-in-use"), "")
        browser.press("#taking button", "Take the pledge")
        browser.says("Taken as pledge 1.", "#taking")
        expect("one pledge", pages.session.broker("GET", "/books/7/pledges/2")[0], 404)
        receipt = browser.text(".paper .secret").strip()
        expect("its receipt is live", pages.session.bearer(receipt, "GET", "/books/7/held")[0], 200)


# The take reaches the service, but no reply comes back from then on.
LOSE_ALL = """
const real = window.real = window.fetch;
let gone = false;
window.fetch = async (path, how) => {
  if (gone && how.method === "GET") throw new TypeError("no line");
  const reply = await real(path, how);
  if (how.method !== "POST") return reply;
  gone = true;
  throw new TypeError("lost");
};"""


def a_take_that_was_lost_with_its_page_can_be_opened():
    """The page was closed before the reply came. It names the pledge of that reference before it asks for another."""
    with an_open_book() as pages:
        the_book_is_read()
        part("take")
        with pages.relay.loses("/pledges", times=10):
            send_taking(article="Teapot", ref="A1", amount="100")
            wait_for(lambda: pages.relay.lost, "a reply that is lost", 10)
            browser.ask("POST", "/refresh", {})
        the_book_is_read()
        browser.fill("#taking", article="Teapot", ref="A1", amount="100")
        browser.press("#taking button", "Take the pledge")
        browser.says("If it is the pledge that you mean, open it; if not, choose another reference.", "#taking")
        browser.press("#taken-receipt a", "Open pledge 1")
        browser.says("Teapot", "#statement")
        command("Print the receipt again", "Print the receipt again")
        agree()
        browser.until("return document.querySelector('.paper .secret')", "a receipt")
        expect("one pledge", pages.session.broker("GET", "/books/7/pledges/2")[0], 404)


def nothing_is_sent_that_is_to_be_refused():
    """A take sends the pledge alone: no terms."""
    with an_open_book() as pages:
        the_book_is_read()
        browser.run(COUNT_POSTS)
        take_a_ring()
        expect("what was sent", [name for name, _ in browser.run("return window.posts")], ["pledges"])
        put = {"keep_after": 0, "keep_before": 0, "rate": 1000, "version": 2}
        expect("newer terms", pages.session.broker("POST", "/books/7/terms", put), (200, {"version": 2}))
        take_a_ring(reference="A2")
        browser.says("£3.00 in 30 days on £100", ".paper")
        expect("and again", [name for name, _ in browser.run("return window.posts")], ["pledges", "pledges"])
        for amount in ("1,500,000", "0"):
            browser.fill("#taking", article="Crown", ref="A3", amount=amount)
            browser.press("#taking button", "Take the pledge")
            browser.element("#take-amount[aria-invalid=true]")
            browser.says("it is at least a penny and at most a million pounds. Type another amount.", "#taking")
        expect("and no more", [name for name, _ in browser.run("return window.posts")], ["pledges", "pledges"])


def a_look_before_a_command_that_fails_is_told():
    """On a line that dropped: the command was not sent."""
    with a_pledge_at_the_counter() as (pages, receipt):
        find(receipt)
        browser.says("This receipt is live.", "#commands")
        later = str(six_months_after(today()) + datetime.timedelta(days=31))
        for title, button, fields in (
            ("Repayment", "Record the repayment", {"amount": "10"}),
            ("Redeem by the paper", "Redeem", {"receipt": receipt, "amount": "100"}),
            ("Extend the period", "Extend", {"until": later}),
            ("Renew", "Renew the pledge", {}),
        ):
            with browser.without_a_line():
                command(title, button, **fields)
                # It is said in the form at once, and above the forms once the look after it has failed, too.
                told = "What you asked for was not sent, so it was not done."
                browser.says(told, "#commands > .notice", patience=30)
        expect("no entry", entries(pages, 1), [])
        browser.faults()


# The book is read once it is let go.
HELD_BOOK = """
const real = window.fetch;
const gate = new Promise((go) => { window.letGo = go; });
window.fetch = async (path, how) => {
  if (path.endsWith("/export")) await gate;
  return real(path, how);
};"""


def what_came_of_an_act_is_told_although_the_book_was_read_meanwhile():
    """The forms are not drawn anew under a payment, and once the line has dropped it is reported above them."""
    with Pages() as pages:
        make_book(pages)
        pages.session.open_pledge(1)
        browser.forget()
        browser.go(pages.address + "/broker/")
        browser.run(HELD_BOOK)
        browser.fill("#open", book="7", key=BROKER)
        browser.press("#open button")
        find("1")
        browser.says("Gold ring", "#statement")
        unfold("Repayment")
        browser.fill(".action[open] form", amount="10")
        with pages.relay.loses("/repay", times=10):
            browser.press(".action[open] button", "Record the repayment")
            wait_for(lambda: pages.relay.lost, "a reply that is lost", 10)
            browser.run("window.letGo()")
            the_book_is_read()
            still = "return document.querySelector('.action[open] button').disabled"
            expect("it can't be pressed again meanwhile", browser.run(still), True)
            with browser.without_a_line():
                browser.says("The reply was lost, so this may have been done.", "#commands", patience=30)
        expect("one entry", len(entries(pages, 1)), 1)
        browser.faults()


def terms_are_put_after_a_take_that_wanted_them():
    """The form does not go on to say that the book has none."""
    with Pages() as pages:
        make_book(pages, terms=False)
        open_book(pages)
        the_book_is_read()
        part("take")
        send_taking(article="Ring", ref="A1", amount="100")
        browser.says("The book has no terms yet. Add terms first, under “Terms”.", "#taking")
        part("terms")
        browser.fill("#new-terms", rate="0.2667")
        browser.press("#new-terms button")
        browser.press("dialog button.grave")
        browser.says("Version 1 is in the book.", "#terms")
        part("take")
        browser.element("#taking")
        expect("no word of no terms", "no terms" in browser.text("#taking"), False)
        expect("what was typed", browser.run("return document.querySelector('#take-ref').value"), "A1")


def the_key_is_forgotten():
    """Once the book is closed the tab keeps no key and no receipt, and the page shows nothing of the book."""
    with an_open_book() as pages:
        receipt, _ = take_a_ring()
        expect("kept while it is open", browser.run("return sessionStorage.length"), 1)
        find(receipt)
        browser.says("This receipt is live.", "#commands")
        browser.press("#close-book")
        browser.says("Open your book", "main")
        expect("nothing is kept", browser.run("return sessionStorage.length"), 0)
        said = browser.run(
            "const typed = [...document.querySelectorAll('input')].map(({ value }) => value).join(); "
            "return typed + document.body.textContent"
        )
        expect("no secret is in the page", receipt.split("-", 1)[1] in said, False)
        browser.ask("POST", "/refresh", {})
        browser.says("Open your book", "main")


def a_receipt_that_is_scanned_is_in_the_form_that_is_open_already():
    with a_pledge_at_the_counter() as (_, receipt):
        unfold("Redeem by the paper")
        browser.fill("#finding", wanted=receipt)
        browser.press("#finding button")
        browser.says("This receipt is live.", "#commands")
        typed = browser.run("return document.querySelector('.action[open] [name=receipt]').value")
        expect("the receipt in the form", typed, receipt)
        no_faults()


def receipt_in_the_form(wanted, when):
    value = "document.querySelector('.action[open] [name=receipt]')?.value"
    browser.until(f"return {value} === arguments[0]", f"{wanted or 'no receipt'} in the form, {when}", wanted)


def no_receipt_of_another_paper_is_left_in_the_form():
    """The form has the receipt of the paper that was scanned last, and only if that one is live."""
    with a_pledge_at_the_counter() as (_, receipt):
        dead = f"1-{WRONG_SECRET}"
        for wanted, says, left in (
            (receipt, "This receipt is live.", receipt), (dead, "This receipt is not live:", ""),
            (receipt, "This receipt is live.", receipt),
        ):
            find(wanted)
            browser.says(says, "#commands > .notice")
            receipt_in_the_form(left, f"after {wanted}")
            browser.rests()
        browser.fill(".action[open] form", receipt=dead)
        find(receipt)
        receipt_in_the_form(receipt, "in the place of a mistyped one")
        no_faults()


def go_by_a_list():
    part("due")
    browser.run("location.hash = '#pledge=1'")


def find_where_it_is_shown():
    browser.fill("#finding", wanted="1")
    browser.press("#finding button")


def a_receipt_is_not_left_in_the_form_for_the_next_customer():
    """Who comes without a paper would be given the article for the paper of the one before."""
    with a_pledge_at_the_counter() as (_, receipt):
        the_book_is_read()
        for comes_back in (go_by_a_list, find_where_it_is_shown, lambda: find("A1")):
            find(receipt)
            receipt_in_the_form(receipt, "as it was scanned")
            browser.rests()
            comes_back()
            browser.says("£100.00 owed today", "#statement")
            browser.rests()
            left = browser.run("return document.querySelector('[name=receipt]').value")
            expect(f"what is left, after {comes_back.__name__}", left, "")
        no_faults()


def a_hold_bars_redemption_before_it_is_sent():
    """Also where another till put the hold since the pledge was shown."""
    with a_pledge_at_the_counter() as (pages, receipt):
        find(receipt)
        browser.says("This receipt is live.", "#commands")
        pages.session.broker("POST", "/books/7/pledges/1/hold")
        browser.run(COUNT_POSTS)
        browser.fill(".action[open] form", amount="100")
        browser.press(".action[open] button", "Redeem")
        browser.says("The pledge is on hold, so it can’t be redeemed. Find out why before you release the hold.",
                     "#commands")
        browser.says("On hold", "#statement")
        browser.element(".action > summary", "Release the hold")
        expect("nothing was sent", browser.run("return window.posts"), [])
        expect("and it is open", "Status inside" in pages.session.broker("GET", "/books/7/pledges/1")[1], True)


def an_extension_whose_reply_is_lost_is_told():
    """By the end of the pledge, which is read again; and a renewal shows its paper."""
    with a_pledge_at_the_counter() as (pages, _):
        end = six_months_after(today())
        done = f"{LOST}The period ends on "
        with pages.relay.loses("/extend", times=20):
            command("Extend the period", "Extend", until=str(end + datetime.timedelta(days=30)))
            browser.press("dialog button.grave")
            browser.says(f"{done}{in_words(end + datetime.timedelta(days=30))}.", "#commands", patience=40)
            command("Renew", "Renew the pledge", until=str(end + datetime.timedelta(days=60)))
            browser.press("dialog button.grave")
            browser.says(f"{done}{in_words(end + datetime.timedelta(days=60))}.", "#commands", patience=40)
        browser.says(in_words(end + datetime.timedelta(days=60)), ".paper")
        expect("the end", ends_of(pages), str(end + datetime.timedelta(days=60)))
        no_faults()


# The line drops once the end was moved, until it is mended.
DROPS_AT_THE_END = """
const real = window.fetch;
window.drops = false;
window.mended = false;
window.fetch = async (path, how) => {
  const reply = await real(path, how);
  window.drops ||= path.endsWith("/extend");
  if (window.drops && !window.mended) throw new TypeError("the line dropped");
  return reply;
};
"""


def a_renewal_after_which_nothing_can_be_looked_at_is_not_somebody_elses():
    """The end that is shown is the old one then, and the clerk's own press has moved it."""
    with a_pledge_at_the_counter() as (pages, _):
        end = six_months_after(today()) + datetime.timedelta(days=30)
        browser.run(DROPS_AT_THE_END)
        command("Renew", "Renew the pledge", until=str(end))
        browser.press("dialog button.grave")
        browser.says("The period was perhaps not extended", "#commands > .notice", patience=60)
        browser.run("window.mended = true")
        command("Extend the period", "Extend", until=str(end + datetime.timedelta(days=30)))
        browser.says(f"its end was moved to {in_words(end)}: by somebody else, or by a press whose reply", "#commands")
        expect("the end", ends_of(pages), str(end))
        no_faults()


def a_pledge_is_renewed_in_one_step():
    with Pages() as pages:
        make_book(pages, terms=False)
        fill_book(pages, book_text([("Ring", "Ring-1", 10000, ago(30), "", "yes")], rates=(2667, 0, 0)))
        open_book(pages)
        the_book_is_read()
        find("Ring-1")
        end = six_months_after(ago(30))
        later = six_months_after(end)
        command("Renew", "Renew the pledge", "broker-renew")
        for says in ("£8.00 of interest and safe keeping was received.", "£100.00 stays lent.", in_words(later)):
            browser.says(says, "dialog")
        browser.press("dialog button.grave")
        browser.says(f"£8.00 of charges was received. The period ends on {in_words(later)}.", "#commands")
        browser.says("If there is a tag on the bag, it has the old end: print it anew.", "#commands")
        browser.says(in_words(later), ".paper")
        expect("its receipt", browser.text(".paper .secret").strip(), f"1-{secret_of(1)}")
        expect("both were done", (len(entries(pages, 1)), ends_of(pages)), (1, str(later)))
        command("Print a tag for the bag", "Show the tag")
        for says in ("Ring-1", "Ring", f"Until {in_short(later + (ago(0) - ago(5)))}"):
            browser.says(says, ".tag")
        browser.shoot("broker-tag")
        no_faults()


def a_renewal_stops_where_the_pledge_was_changed_during_its_question():
    """Its yes would move the end a second time; and what is received once the charges were paid goes to the loan."""
    with Pages() as pages:
        make_book(pages, terms=False)
        fill_book(pages, book_text([("Ring", "Ring-1", 10000, ago(30), "", "no")], rates=(2667, 0, 0)))
        open_book(pages)
        the_book_is_read()
        find("Ring-1")
        until = ago(-300)
        for target, body, owed in (
            ("extend", {"until": str(until)}, "£108.00 is owed now"),
            ("repay", {"pence": 800, "seq": 1}, "£100.00 is owed now"),
        ):
            command("Renew", "Renew the pledge")
            browser.says("Receive £8.00, and extend by", "dialog")
            expect(target, pages.session.broker("POST", f"/books/7/pledges/1/{target}", body)[0], 200)
            browser.press("dialog button.grave")
            browser.says(f"it has changed. {owed}, and the period ends on {in_words(until)}. Look at the", "#commands")
        expect("only the other till's", (len(entries(pages, 1)), ends_of(pages)), (1, str(until)))
        no_faults()


def a_renewal_without_charges_stops_where_the_end_was_moved_during_its_question():
    with a_pledge_at_the_counter() as (pages, _):
        browser.says("£100.00 owed today", "#statement")
        moved = six_months_after(today()) + datetime.timedelta(days=30)
        command("Renew", "Renew the pledge")
        browser.says("No charges are owed today.", "dialog")
        pages.session.broker("POST", "/books/7/pledges/1/extend", {"until": str(moved)})
        browser.press("dialog button.grave")
        browser.says(f"its end was moved to {in_words(moved)}", "#commands .action[open]")
        expect("the end", ends_of(pages), str(moved))
        no_faults()


def once_the_period_is_over_it_says_how_to_go_on():
    """In the days of grace and after them, beside the commands that can't be done any more."""
    with Pages() as pages:
        make_book(pages, terms=False)
        fill_book(pages, book_text([
            ("Ring", "Ring-1", 10000, ago(400), ago(2), "yes"), ("Clock", "Clock-1", 10000, ago(400), ago(20), "no"),
        ]))
        open_book(pages)
        the_book_is_read()
        for number, badge in (("1", "Days of grace"), ("2", "Period over")):
            find(number)
            browser.says(badge, "#statement")
            for title in ("Renew", "Extend the period"):
                browser.rests()
                unfold(title)
                browser.says(
                    "The period is over, so its end can’t be moved any more. If the pawnor wants to go on, redeem the "
                    "pledge by the paper for what is owed, and take the article anew under another reference.",
                    ".action[open]",
                )
                later = "later end than" in browser.text(".action[open]")
                expect(f"{title} of {number} asks to agree on a later end", later, False)
        no_faults()


main(
    (),
    (
        an_extension_is_asked_about, an_extension_whose_end_is_moved_during_its_question_is_asked_about_anew,
        an_earlier_end_is_not_sent, an_unlike_amount_is_asked_about,
        how_slips_are_mended_is_told, a_repayment_is_drawn_again_up_to_the_limit,
        a_repayment_after_the_period_is_not_drawn_again,
        a_sale_is_asked_about_with_its_surplus, a_sale_whose_reply_is_lost_is_told, a_take_whose_reply_is_lost_is_found,
        a_take_that_is_lost_for_a_while_is_the_same_when_it_is_pressed_again,
        a_take_that_was_lost_with_its_page_can_be_opened, nothing_is_sent_that_is_to_be_refused,
        a_look_before_a_command_that_fails_is_told,
        what_came_of_an_act_is_told_although_the_book_was_read_meanwhile, terms_are_put_after_a_take_that_wanted_them,
        the_key_is_forgotten, a_receipt_that_is_scanned_is_in_the_form_that_is_open_already,
        no_receipt_of_another_paper_is_left_in_the_form, a_receipt_is_not_left_in_the_form_for_the_next_customer,
        a_hold_bars_redemption_before_it_is_sent,
        a_renewal_after_which_nothing_can_be_looked_at_is_not_somebody_elses, a_pledge_is_renewed_in_one_step,
        a_renewal_stops_where_the_pledge_was_changed_during_its_question,
        a_renewal_without_charges_stops_where_the_end_was_moved_during_its_question,
        once_the_period_is_over_it_says_how_to_go_on, an_extension_whose_reply_is_lost_is_told,
    ),
)
