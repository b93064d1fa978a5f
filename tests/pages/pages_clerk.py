"""What misled a clerk in a morning at the counter, and a pawnor on a telephone, each as it was found; in a real
browser, in front of the program."""
import datetime
import os

from tests.library.book_texts import row
from tests.library.checks import expect
from tests.library.dates import six_months_after, today
from tests.library.keys import BROKER
from tests.library.pages.browser import Pages
from tests.library.pages.steps import (
    WRONG_SECRET, a_pledge_at_the_counter, a_pledge_by_its_receipt, ago, an_open_book, book_text, browser,
    close_the_book, command, fill_book, find, in_short, in_words, main, make_book, no_faults, open_book, part,
    secret_of, the_book_is_read, unfold,
)
from tests.library.waiting import wait_for

TERMS_FIRST = "This book has no terms yet, and a pledge keeps the terms under which it is taken."


def terms_are_asked_for_before_the_form_is_filled():
    """And a form that was filled all the same is not asked about; the line goes once there are terms."""
    with Pages() as pages:
        make_book(pages, terms=False)
        open_book(pages)
        the_book_is_read()
        part("take")
        browser.says(TERMS_FIRST, "#take")
        browser.shoot("broker-terms-first")
        browser.fill("#taking", article="Gold ring", ref="A1", amount="100")
        browser.press("#taking button", "Take the pledge")
        browser.says("The book has no terms yet.", "#taking")
        expect("no question", browser.run("return document.querySelector('dialog')"), None)
        browser.press("#terms-first a", "Add terms first")
        browser.fill("#new-terms", rate="0.2667")
        browser.press("#new-terms button", "Add these terms")
        browser.press("dialog button", "Add version 1")
        browser.says("Version 1", "#new-terms .notice")
        part("take")
        browser.says("Article", "#take")
        expect("no word of terms", TERMS_FIRST in browser.text("#take"), False)
        browser.press("#taking button", "Take the pledge")
        browser.says("Take this pledge for £100.00?", "dialog")
        browser.press("dialog button", "Not now")
        no_faults()


def terms_that_another_till_put_are_seen():
    with Pages() as pages:
        make_book(pages, terms=False)
        open_book(pages)
        the_book_is_read()
        part("take")
        browser.says(TERMS_FIRST, "#take")
        put = {"keep_after": 0, "keep_before": 0, "rate": 2667, "version": 1}
        expect("terms", pages.session.broker("POST", "/books/7/terms", put), (200, {"version": 1}))
        browser.fill("#taking", article="Gold ring", ref="A1", amount="100")
        browser.press("#taking button", "Take the pledge")
        browser.says("Take this pledge for £100.00?", "dialog")
        browser.press("dialog button", "Take it for £100.00")
        browser.says("Taken as pledge 1.", "#taking")
        expect("no word of terms", TERMS_FIRST in browser.text("#take"), False)
        no_faults()


def a_key_is_read_in_each_of_its_forms():
    with Pages() as pages:
        make_book(pages)
        for typed in (
            BROKER.replace("-", ""), BROKER.replace("-", " "), BROKER.replace("-", "\u2013"), "{" + BROKER + "}",
            "urn:uuid:" + BROKER, f" {BROKER.upper()} ",
        ):
            open_book(pages, key=typed)
            browser.says("Coming", "#sheet")
        for typed, says in (
            ("2" * 31, "You typed 31 digits."), ("2" * 33, "You typed 33 digits."),
            ("2" * 31 + "g", "A key has no other letters."),
        ):
            open_book(pages, key=typed)
            browser.says(
                "That is no key. A key is 32 digits from 0 to 9 and a to f, with or without hyphens between them. "
                + says, "#open",
            )
            expect("the field", browser.run("return document.activeElement.name"), "key")
        no_faults()


def a_sum_that_is_no_longer_owed_has_the_pledge_shown_anew():
    """The pawnor recorded a payment since the pledge was shown: the page does not contradict itself."""
    with a_pledge_at_the_counter() as (pages, receipt):
        browser.says("£100.00 owed today", "#statement")
        pages.session.bearer(receipt, "POST", "/books/7/held/repay", {"pence": 1000, "seq": 1})
        command("Redeem by the paper", "Redeem", receipt=receipt, amount="100")
        browser.says("Since this pledge was shown here, it has changed.", "#commands .action[open]")
        browser.says("£90.00 is owed today, and redeeming requires all of it. You typed £100.00.", "#commands")
        browser.says("£90.00 owed today", "#statement")
        browser.says("£90.00 is owed today. All of it is to be received.", "#commands")
        expect(
            "what was typed, and the field", browser.run(
                "const { elements } = document.querySelector('.action[open] form'); "
                "return [elements.receipt.value, elements.amount.value, document.activeElement.name, "
                "elements.amount.ariaInvalid]"
            ), [receipt, "100", "amount", "true"],
        )
        browser.fill(".action[open] form", amount="90")
        browser.press(".action[open] button", "Redeem")
        browser.press("dialog button", "Redeem for £90.00")
        browser.says(f"Redeemed on {in_words(today())}: £90.00 was paid.", "#commands")
        no_faults()


def an_article_that_was_sold_meanwhile_is_told():
    """Its receipt is still live, but nothing is owed any more."""
    with Pages() as pages:
        make_book(pages, terms=False)
        fill_book(pages, book_text([("Watch", "Watch-1", 9000, ago(400), "", "no")], rates=(0, 0, 0)))
        open_book(pages)
        find("1")
        browser.says("£90.00 owed today", "#statement")
        sold = pages.session.broker("POST", "/books/7/pledges/1/sell", {"net": 9000})
        expect("sold", sold[0], 200)
        command("Redeem by the paper", "Redeem", receipt=f"1-{secret_of(1)}", amount="90")
        browser.says("The pledge is redeemed or sold already.", "#commands")
        browser.says("Sold on", "#statement")
        no_faults()


# A redemption does not come back, and goes to the service only once it is released.
REDEEMS_LATE = """
const real = window.fetch;
window.fetch = (path, how) => {
  if (!path.endsWith("/redeem")) return real(path, how);
  window.fetch = real;
  window.release = () => real(path, { ...how, signal: undefined }).then((reply) => reply.status);
  return Promise.reject(new TypeError("no line"));
};"""


def a_redemption_whose_reply_was_lost_is_pressed_again():
    """Not done so far, the article stays; pressed again, what was done late is told as done."""
    with a_pledge_at_the_counter() as (pages, receipt):
        browser.says("£100.00 owed today", "#statement")
        browser.run(REDEEMS_LATE)
        command("Redeem by the paper", "Redeem", receipt=receipt, amount="100")
        browser.press("dialog button", "Redeem for £100.00")
        for says in (
            "The reply was lost, and the pledge is not redeemed so far.", "Don’t hand out the article yet.",
            "Press “Redeem” again: the pledge is redeemed once, however often you press.",
        ):
            browser.says(says, "#commands .action[open]")
        expect("what was typed", browser.run(
            "const { elements } = document.querySelector('.action[open] form'); "
            "return [elements.receipt.value, elements.amount.value]"
        ), [receipt, "100"])
        browser.rests()
        expect("it is done late", browser.run_later("return window.release()"), 200)
        browser.press(".action[open] button", "Redeem")
        browser.says("The pledge is redeemed, by the press before, whose reply was lost.", "#commands")
        browser.says("£100.00 was paid. Hand out the article, and keep the receipt.", "#commands")
        browser.says("Redeemed on", "#statement")
        no_faults()


def a_redemption_that_never_arrived_is_done_by_the_next_press():
    with a_pledge_at_the_counter() as (pages, receipt):
        browser.says("£100.00 owed today", "#statement")
        browser.run(REDEEMS_LATE)
        command("Redeem by the paper", "Redeem", receipt=receipt, amount="100")
        browser.press("dialog button", "Redeem for £100.00")
        browser.says("Don’t hand out the article yet.", "#commands .action[open]")
        browser.rests()
        browser.press(".action[open] button", "Redeem")
        browser.press("dialog button", "Redeem for £100.00")
        browser.says("Hand out the article, and keep the receipt.", "#commands")
        expect("what arrives late is refused", browser.run_later("return window.release()"), 404)
        no_faults()


# The line drops once the redemption is sent.
DROPS_AT_REDEMPTION = """
const real = window.fetch;
let isGone = false;
window.fetch = (path, how) => {
  isGone ||= path.endsWith("/redeem");
  return isGone ? Promise.reject(new TypeError("no line")) : real(path, how);
};"""


def a_redemption_after_which_nothing_can_be_looked_at_says_what_to_do():
    """If the line dropped while the question was open, it was not sent."""
    with a_pledge_at_the_counter() as (pages, receipt):
        browser.says("£100.00 owed today", "#statement")
        unfold("Redeem by the paper")
        browser.fill(".action[open] form", receipt=receipt, amount="100")
        browser.press(".action[open] button", "Redeem")
        browser.says("Redeem pledge 1?", "dialog")
        with browser.without_a_line():
            browser.press("dialog button", "Redeem for £100.00")
            browser.says("What you asked for was not sent, so it was not done.", "#commands", patience=30)
            browser.says("What you asked for was not sent, so it was not done.", "#commands > .notice", patience=30)
        browser.run(DROPS_AT_REDEMPTION)
        command("Redeem by the paper", "Redeem", receipt=receipt, amount="100")
        browser.press("dialog button", "Redeem for £100.00")
        browser.says("The reply was lost, so the pledge may be redeemed.", "#commands", patience=30)
        browser.says("Don’t hand out the article yet.", "#commands")
        expect("it was not", "Status inside" in pages.session.broker("GET", "/books/7/pledges/1")[1], True)


# What the service says of pledge 1 comes only once it is let go, and so often as it is asked for.
SLOW_FIRST = """
const real = window.fetch;
const gate = new Promise((go) => { window.letGo = go; });
window.come = 0;
window.fetch = async (path, how) => {
  const reply = await real(path, how);
  if (!path.endsWith("/pledges/1") || how.method !== "GET") return reply;
  const text = await reply.text();
  await gate;
  setTimeout(() => { window.come += 1; }, 100);
  return new Response(text, reply);
};"""


def two_pledges(pages):
    make_book(pages)
    first = pages.session.open_pledge(1)
    second = pages.session.open_pledge(2, article="Silver watch")
    open_book(pages)
    the_book_is_read()
    return first, second


def let_go():
    browser.run("window.letGo()")
    browser.until("return window.come > 0", "what was slow")
    browser.rests()


def the_pledge_that_was_asked_for_last_is_shown():
    """On a slow line the one that was asked for before comes later, and does not take its place."""
    with Pages() as pages:
        two_pledges(pages)
        browser.run(SLOW_FIRST)
        browser.run("location.hash = '#pledge=1'")
        browser.run("setTimeout(() => { location.hash = '#pledge=2'; })")
        browser.says("Silver watch", "#statement")
        command("Put on hold", "Hold")
        browser.says("The pledge is on hold", "#commands")
        browser.rests()
        unfold("Repayment")
        browser.fill(".action[open] form", amount="12.34")
        let_go()
        expect("the pledge", browser.text("#statement h2"), "Silver watch")
        typed = browser.run("return document.querySelector('.action[open] [name=amount]').value")
        expect("what was typed", typed, "12.34")
        no_faults()


def what_is_searched_for_during_a_search_is_found():
    """Such as a receipt that is scanned: the press is not lost, and what is said of it is said of its pledge."""
    with Pages() as pages:
        _, second = two_pledges(pages)
        browser.run(SLOW_FIRST)
        find("1")
        find(second)
        browser.run("window.letGo()")
        browser.says("This receipt is live. £100.00 is owed today.", "#commands")
        browser.says("Silver watch", "#statement")
        let_go()
        expect("the pledge", browser.text("#statement h2"), "Silver watch")
        expect("the address", browser.run("return location.hash"), "#pledge=2")
        browser.says("This receipt is live. £100.00 is owed today.", "#commands")
        no_faults()


# Each reply to a look at a pledge comes only once it is let go, in the order in which the looks were sent.
EACH_SLOW = """
const real = window.fetch;
window.held = [];
window.letOne = () => window.held.shift()();
window.fetch = async (path, how) => {
  if (how.method !== "GET" || !/\\/(held|pledges\\/[0-9]+)$/.test(path)) return real(path, how);
  const reply = real(path, how);
  await new Promise((go) => { window.held.push(go); });
  return reply;
};
window.endSlow = () => {
  window.fetch = real;
  window.held.forEach((go) => go());
};"""
NOT_SLOW = "window.endSlow()"
ENTER = "\ue007"
SEARCH = "#find-wanted"


def let_one():
    browser.until("return window.held.length > 0", "a reply that is late")
    browser.run("window.letOne()")


def scan(text):
    browser.keys(text + ENTER)


def typed_to_find():
    return browser.run(f"return document.querySelector('{SEARCH}').value")


def at_the_search(pages):
    """Two pledges and their receipts, with the focus in the field of the search and each look slow."""
    receipts = two_pledges(pages)
    part("pledge")
    browser.until("return document.activeElement.matches('#pledge h1')", "the heading")
    browser.run(EACH_SLOW)
    browser.run(f"document.querySelector('{SEARCH}').focus()")
    return receipts


def nothing_is_shown_yet(what):
    """Nothing of an earlier search is shown, and the page says that it waits."""
    shown = browser.run(
        "return [document.querySelector('#found').checkVisibility(), "
        "document.querySelector('#pledge').innerText.includes('receipt is live'), "
        "document.querySelector('#finding .notice').textContent]"
    )
    expect(what, shown, [False, False, "One moment…"])


def a_scan_stays_whole_where_the_last_search_ends_during_it():
    """By an answer and by a refusal: neither takes the focus from the field, and the scan replaces the old text."""
    with Pages() as pages:
        first, second = at_the_search(pages)
        for sought, says, where in (
            (first, "This receipt is live.", "#commands"), ("999", "The book has no pledge of that", "#finding"),
        ):
            scan(sought)
            browser.until("return window.held.length > 0", "a reply that is late")
            browser.keys(second[:20])
            let_one()
            browser.says(says, where)
            expect(f"what is typed during the search for {sought}", typed_to_find(), second[:20])
            scan(second[20:])
            expect(f"what is typed after the search for {sought}", typed_to_find(), second)
            nothing_is_shown_yet(f"during the search after {sought}")
            let_one()
            browser.says("This receipt is live.", "#commands")
            browser.says("Silver watch", "#statement")
            redeemed = browser.run("return document.querySelector('.action[open] [name=receipt]').value")
            expect("the receipt that redeems", redeemed, second)
            browser.run(f"document.querySelector('{SEARCH}').focus(); document.querySelector('{SEARCH}').select()")
        no_faults()


def of_a_search_that_another_overtakes_nothing_is_shown():
    """Only the last one has its answer or its refusal, and has it at once."""
    dead = f"2-{WRONG_SECRET}"
    with Pages() as pages:
        first, second = at_the_search(pages)
        for sought, then, says, where in (
            (first, dead, "This receipt is not live", "#commands"),
            ("1", "999", "The book has no pledge of that number or reference.", "#finding"),
            (first, "999", "The book has no pledge of that number or reference.", "#finding"),
            (first, second, "This receipt is live.", "#commands"),
        ):
            scan(sought)
            browser.until("return window.held.length === 1", "the first look")
            scan(then)
            expect("what is typed", typed_to_find(), then)
            browser.until("return window.held.length === 2", "the second look", patience=3)
            let_one()
            browser.run_later("await new Promise((go) => { setTimeout(go, 300); })")
            nothing_is_shown_yet(f"the search for {sought} is over, that for {then} is not")
            browser.run(NOT_SLOW)
            browser.says(says, where)
            if where == "#commands":
                browser.says("Silver watch", "#statement")
            browser.run(EACH_SLOW)
            browser.run(f"document.querySelector('{SEARCH}').focus(); document.querySelector('{SEARCH}').select()")
        no_faults()


def a_key_that_is_held_down_looks_once():
    with Pages() as pages:
        first, _ = at_the_search(pages)
        scan(first + 5 * ENTER)
        browser.until("return window.held.length > 0", "the look")
        browser.run_later("await new Promise((go) => { setTimeout(go, 300); })")
        expect("how many looks", browser.run("return window.held.length"), 1)
        browser.run(NOT_SLOW)
        let_one()
        browser.says("This receipt is live.", "#commands")
        scan(first)
        browser.says("This receipt is live.", "#commands")
        no_faults()


def a_refusal_is_said_where_it_comes_before_the_reply_to_the_search_before():
    with Pages() as pages:
        first, _ = at_the_search(pages)
        scan(first)
        browser.until("return window.held.length === 1", "the first look")
        scan("zzz")
        browser.says("The book has no pledge of that number or reference.", "#finding")
        let_one()
        browser.run_later("await new Promise((go) => { setTimeout(go, 300); })")
        browser.says("The book has no pledge of that number or reference.", "#finding")
        expect("a pledge is shown", browser.run("return document.querySelector('#found').checkVisibility()"), False)
        no_faults()


def two_receipts_that_were_scanned_into_one_text_are_called_so():
    """Also where a part of both looks like the receipt of a third pledge."""
    with Pages() as pages:
        first, second = two_pledges(pages)
        like_a_third = "12-00000000-0000-4123-8000-000000000000" "1234-00000000-0000-4000-8000-000000000000"
        for typed in (first + second, like_a_third):
            find(typed)
            browser.says("That is more than one receipt. Scan or type one at a time.", "#finding")
        no_faults()


def what_came_of_an_act_is_not_said_of_another_pledge():
    with Pages() as pages:
        two_pledges(pages)
        find("1")
        browser.says("Gold ring", "#statement")
        browser.rests()
        browser.run(SLOW_FIRST)
        command("Put on hold", "Hold")
        wait_for(
            lambda: "Held yes" in pages.session.broker("GET", "/books/7/pledges/1")[1], "a hold on the first pledge",
        )
        browser.run("location.hash = '#pledge=2'")
        browser.says("Silver watch", "#statement")
        let_go()
        expect("the pledge", browser.text("#statement h2"), "Silver watch")
        expect("no word of the other", "The pledge is on hold" in browser.text("#pledge"), False)
        no_faults()


def what_can_still_be_drawn_is_told():
    with Pages() as pages:
        make_book(pages)
        pages.session.open_pledge(1, kind="running", pence=50000)
        pages.session.broker("POST", "/books/7/pledges/1/draw", {"seq": 1, "pence": 20000})
        open_book(pages)
        find("1")
        browser.says("£200.00 owed today", "#statement")
        browser.rests()
        unfold("Drawing")
        browser.says("£300.00 can still be drawn, up to the limit of £500.00.", "#commands")
        no_faults()


def a_receipt_of_a_pledge_that_is_over_says_who_has_the_article():
    with Pages() as pages:
        make_book(pages, terms=False)
        fill_book(pages, book_text([
            ("Vase", "Vase-1", 5000, ago(400), "", "no"), ("Violin", "Violin-2", 9000, ago(400), "", "no"),
        ]))
        expect("sold", pages.session.broker("POST", "/books/7/pledges/2/sell", {"net": 9000})[0], 200)
        open_book(pages)
        find(f"1-{secret_of(1)}")
        shows = "The receipt only shows what became of the pledge: don’t hand out the article for it."
        browser.says(f"The period is over, and the article is the shop’s. {shows}", "#commands")
        find(f"2-{secret_of(2)}")
        browser.says(f"The article was sold on {in_short(today())}. {shows}", "#commands")
        expect("it is not called live", "is live" in browser.text("#commands"), False)
        no_faults()


def a_written_statement_is_not_asked_for_above_the_small_credit():
    """Nothing is asked and nothing is sent that is refused."""
    with a_pledge_at_the_counter() as (pages, _):
        browser.says("£100.00 owed today", "#statement")
        command("Replace a lost receipt", "Make a new receipt", paper="written")
        browser.says(
            "A written statement is enough only for credit up to £75.00. Ask for a sworn declaration.", "#commands",
        )
        expect("no question", browser.run("return document.querySelector('dialog')"), None)
        no_faults()


def a_receipt_that_is_not_whole_is_counted():
    """For the clerk and for the pawnor; and one of several that is not whole is not left out in silence."""
    with Pages() as pages:
        make_book(pages)
        receipt = pages.session.open_pledge(1)
        short, wrong = receipt[:-1], receipt[:-1] + "o"
        counted = "There are 31 digits after the number, and a receipt has 32."
        letter = "It has the letter “o”, and a receipt has only the digits 0 to 9 and a to f."
        open_book(pages)
        the_book_is_read()
        for typed, says in ((short, counted), (wrong, letter)):
            find(typed)
            browser.says(says, "#finding")
        browser.forget()
        browser.go(pages.address + "/pawn/")
        for typed, says in (
            (short, "That is no receipt. " + counted), (receipt + "0", "There are 33 digits after the number"),
            (wrong, "That is no receipt. " + letter),
            (f"{pages.address}/pawn/#book=7&receipt={short}", "That link is not whole, so it opens nothing"),
            (f"{receipt}\n{short}", f"This is no receipt: {short}."),
        ):
            browser.fill("#find", receipts=typed, book="7")
            browser.press("#find button", "Show")
            browser.says(says, "#find-said")
            expect("the field", browser.run("return document.activeElement.name"), "receipts")
        expect("none is shown", browser.text("#cards"), "")
        browser.fill("#find", receipts=f"My receipt of May:\n{receipt}\nThank you", book="7")
        browser.press("#find button", "Show")
        browser.says("Gold ring", "#cards")
        no_faults()


def the_field_of_the_search_names_no_other_pledge():
    """By the buttons back and forward a pledge is shown that was not searched for last."""
    with Pages() as pages:
        two_pledges(pages)
        for number, article in (("1", "Gold ring"), ("2", "Silver watch")):
            find(number)
            browser.says(article, "#statement")
            browser.rests()
            expect("what was found", browser.run("return document.querySelector('#find-wanted').value"), number)
        browser.ask("POST", "/back", {})
        browser.says("Gold ring", "#statement")
        browser.rests()
        expect("back", browser.run("return document.querySelector('#find-wanted').value"), "")
        no_faults()


# It is ten past three in the afternoon, by the clock of the device.
AFTERNOON = "Date.prototype.getHours = () => 15; Date.prototype.getMinutes = () => 10;"


def a_visit_at_a_time_that_is_over_is_asked_about():
    """The first time on the list is chosen already, and by the afternoon it is over for today."""
    with a_pledge_by_its_receipt() as (pages, receipt):
        browser.says("Gold ring", "#cards")
        browser.rests()
        browser.run(AFTERNOON)
        command("Ask for a time to come", "Ask for this time", day=str(today()))
        browser.says("That time is over", "dialog h2")
        browser.says("Pledge 1: Gold ring", "dialog")
        browser.says("It is 15:10 by the clock of this device", "dialog")
        browser.press("dialog button", "Choose another time")
        browser.says("Nothing was done.", "#cards")
        expect("nothing is asked", "Booking none" in pages.session.bearer(receipt, "GET", "/books/7/held")[1], True)
        browser.rests()
        browser.fill(".action[open] form", window="12")
        browser.press(".action[open] button", "Ask for this time")
        browser.says(f"Asked for {in_words(today())}, 15:00 to 15:30.", "#cards")
        command("Ask for another time", "Ask for this time", day=str(ago(-1)), window="0")
        browser.says(f"Asked for {in_words(ago(-1))}, 09:00 to 09:30.", "#cards")
        no_faults()


def a_pledge_that_changed_is_shown_anew_before_it_is_renewed_or_extended():
    """Nobody has to find it again: its new sum and its new end are shown, with what was typed."""
    with a_pledge_at_the_counter() as (pages, receipt):
        browser.says("£100.00 owed today", "#statement")
        end = six_months_after(today())
        pages.session.bearer(receipt, "POST", "/books/7/held/repay", {"pence": 1000, "seq": 1})
        later = str(end + datetime.timedelta(days=90))
        command("Renew", "Renew the pledge", until=later)
        browser.says("Since this pledge was shown here, it has changed. £90.00 is owed now", "#commands .action[open]")
        browser.says("£90.00 owed today", "#statement")
        expect("the end that was typed", browser.run(UNTIL), later)
        moved = end + datetime.timedelta(days=30)
        pages.session.broker("POST", "/books/7/pledges/1/extend", {"until": str(moved)})
        browser.rests()
        browser.press(".action[open] button", "Renew the pledge")
        browser.says(f"its end was moved to {in_words(moved)}", "#commands .action[open]")
        browser.says(in_short(moved), "#statement")
        expect("the end that was typed", browser.run(UNTIL), later)
        browser.rests()
        browser.press(".action[open] button", "Renew the pledge")
        browser.says("Renew this pledge?", "dialog")
        browser.press("dialog button", "Not now")
        browser.says("Nothing was done.", "#commands .action[open]")
        browser.rests()
        moved = end + datetime.timedelta(days=31)
        pages.session.broker("POST", "/books/7/pledges/1/extend", {"until": str(moved)})
        command("Extend the period", "Extend", until=later)
        browser.says(f"its end was moved to {in_words(moved)}", "#commands .action[open]")
        browser.says(in_short(moved), "#statement")
        no_faults()


UNTIL = "return document.querySelector('.action[open] [name=until]').value"


def a_sale_of_what_was_redeemed_meanwhile_is_not_asked_about():
    with Pages() as pages:
        make_book(pages, terms=False)
        fill_book(pages, book_text([("Violin", "Violin-1", 9000, ago(400), "", "no")], rates=(0, 0, 0)))
        open_book(pages)
        find("1")
        browser.says("£90.00 owed today", "#statement")
        paid = pages.session.bearer(f"1-{secret_of(1)}", "POST", "/books/7/held/redeem", {"paid": 9000})
        expect("redeemed", paid[0], 200)
        command("Sale", "Record the sale", amount="120")
        browser.says("The pledge is redeemed or sold already.", "#commands")
        browser.says("Redeemed on", "#statement")
        expect("no question", browser.run("return document.querySelector('dialog')"), None)
        no_faults()


def a_mark_that_is_not_seen_is_not_taken_into_a_pledge():
    """Such as a control character, which the service refuses, or quotes of Windows-1252 that were decoded wrongly."""
    with an_open_book() as pages:
        the_book_is_read()
        part("take")
        for fields, name in (
            ({"article": "Ring\x7f", "ref": "A1"}, "The article"),
            ({"article": "Ring\x07", "ref": "A1"}, "The article"),
            ({"article": "Ring \x93gold\x94", "ref": "A1"}, "The article"),
            ({"article": "Ring", "ref": "A\u200b1"}, "The reference"),
            ({"article": "Ring", "ref": "\ufeff\xad"}, "The reference"),
        ):
            browser.fill("#taking", amount="10", **fields)
            browser.press("#taking button", "Take the pledge")
            browser.says(
                f"{name} has a mark that can’t be seen. Type it anew in place of pasting it.", "#taking .notice",
            )
            expect("no question", browser.run("return document.querySelector('dialog')"), None)
        browser.fill("#taking", article="Ring “18 ct” – £5…\t \xa0new", ref="A1")
        browser.press("#taking button", "Take the pledge")
        browser.says("Ring “18 ct” – £5… new, reference A1.", "dialog")
        browser.press("dialog button", "Not now")
        expect("nothing was taken", pages.session.broker("GET", "/books/7/pledges/1")[0], 404)
        no_faults()


def a_file_that_a_spreadsheet_saved_in_another_encoding_does_not_fill_the_book():
    """Its letters would be lost, and a filled book can't be filled again."""
    with Pages() as pages:
        make_book(pages, terms=False)
        path = os.path.join(pages.room, "book.csv")
        text = book_text([("Ring £5 café", "J9", 9000, ago(3), "", "no")])
        with open(path, "wb") as it:
            it.write(text.encode("cp1252"))
        open_book(pages)
        the_book_is_read()
        part("files")
        browser.fill("#importing", file=path)
        browser.press("#importing button")
        browser.says("The file is not as it was exported: its letters are not in UTF-8.", "#importing")
        expect("nothing came", pages.session.broker("GET", "/books/7/pledges/1")[0], 404)
        with open(path, "wb") as it:
            it.write(b"\xef\xbb\xbf" + text.encode())
        browser.fill("#importing", file=path)
        browser.press("#importing button")
        browser.says("Fill book 7 from this file?", "dialog")
        browser.says("book.csv, with 1 pledge.", "dialog")
        browser.press("dialog button", "Not now")
        browser.says("Nothing was done.", "#importing")
        expect("nothing came", pages.session.broker("GET", "/books/7/pledges/1")[0], 404)
        browser.press("#importing button")
        browser.press("dialog button", "Fill book 7")
        browser.says("The book is filled: 1 pledge came.", "#importing")
        expect("its letters", "Article Ring £5 café" in pages.session.broker("GET", "/books/7/pledges/1")[1], True)
        no_faults()


def pledges_of_two_books_are_told_apart():
    """Both are pledge 1, and a receipt that was typed names no shop."""
    with Pages() as pages:
        make_book(pages)
        make_book(pages, book=8)
        opening = {"article": "Gold ring", "five_days": False, "kind": "fixed", "pence": 10000, "ref": "A1"}
        receipts = [pages.session.broker("POST", f"/books/{book}/pledges", opening)[1]["receipt"] for book in (7, 8)]
        browser.forget()
        browser.go(pages.address + "/pawn/")
        for book, receipt in zip(("7", "8"), receipts):
            browser.element("#finder")
            browser.run("document.querySelector('#finder').open = true")
            browser.fill("#find", receipts=receipt, book=book)
            browser.press("#find button", "Show")
            browser.says(f"Pledge 1, number of the shop’s book: {book}", "#cards")
        browser.shoot("pawn-two-books")
        no_faults()


def a_paper_of_the_book_that_filled_this_one_is_found():
    """Its code names the old book, and the pawnor has no other paper."""
    with Pages() as pages:
        make_book(pages)
        receipt = pages.session.open_pledge(1)
        _, text = pages.session.broker("GET", "/books/7/export")
        make_book(pages, book=8, terms=False)
        fill_book(pages, text, book=8)
        open_book(pages, book=8)
        the_book_is_read()
        find(f"{pages.address}/pawn/#book=7&receipt={receipt}")
        browser.says(
            "That receipt is of book 7, and this is book 8. If book 8 was filled from a file of book 7, type the receipt "
            "from the paper, without its link.", "#finding",
        )
        find(receipt)
        browser.says("This receipt is live. £100.00 is owed today.", "#commands")
        no_faults()


def versions_of(pages):
    _, text = pages.session.broker("GET", "/books/7/export")
    return [line for line in text.splitlines() if line.startswith("T,")]


def terms_are_asked_about_and_added_once():
    """A rate that was mistyped would be kept by each pledge that is taken after it."""
    with an_open_book() as pages:
        the_book_is_read()
        part("terms")
        browser.says("Version 2", "#next-version")
        browser.rests()
        for typed, says in (
            ({"rate": "2.667"}, "The rate is above two per cent a day."),
            ({"rate": "0.2", "before": "11"}, "A charge for safe keeping is above ten pence a day."),
            ({"rate": "0.2", "before": "1", "after": "2"}, "costs more than before it."),
        ):
            browser.fill("#new-terms", **{"before": "0", "after": "0", **typed})
            browser.press("#new-terms button")
            browser.says(says, "#new-terms")
            expect("no question", browser.run("return document.querySelector('dialog')"), None)
        browser.fill("#new-terms", rate="1.667", before="0.5", after="0.25")
        browser.press("#new-terms button")
        browser.says("£100.00 for 30 days: £50.01 of interest", "dialog")
        browser.says("Safe keeping: 0.5p a day, after the end 0.25p a day.", "dialog")
        browser.shoot("broker-terms-question")
        browser.press("dialog button", "Not now")
        browser.says("Nothing was done.", "#new-terms")
        expect("nothing was added", len(versions_of(pages)), 1)
        browser.press("#new-terms button")
        browser.press("dialog button", "Add version 2")
        browser.says("Version 2 is in the book.", "#new-terms")
        browser.rests()
        browser.press("#new-terms button")
        expect("no question about them again", browser.run("return document.querySelector('dialog')"), None)
        browser.fill("#new-terms", rate="1.667", before="0.50", after="0.25")
        browser.press("#new-terms button")
        browser.says("Version 2 has these terms already, so nothing was added.", "#new-terms")
        expect("they are added once", len(versions_of(pages)), 2)
        no_faults()


def terms_that_another_till_replaced_are_added_again():
    """The list of the page is a copy: its last version is not the last one any more."""
    with an_open_book() as pages:
        the_book_is_read()
        part("terms")
        browser.says("Version 2", "#next-version")
        browser.rests()
        put = {"keep_after": 0, "keep_before": 0, "rate": 9999, "version": 2}
        expect("terms", pages.session.broker("POST", "/books/7/terms", put), (200, {"version": 2}))
        browser.fill("#new-terms", rate="0.2667", before="0", after="0")
        browser.press("#new-terms button")
        browser.says("They are version 3.", "dialog")
        browser.press("dialog button", "Add version 3")
        browser.says("Version 3 is in the book.", "#new-terms")
        expect("all versions", [line.split(",")[2] for line in versions_of(pages)], ["2667", "9999", "2667"])
        no_faults()


def terms_and_a_file_whose_replies_are_lost_say_what_to_do():
    """Neither speaks of a pledge, and the same terms do not become another version."""
    with Pages() as pages:
        make_book(pages, terms=False)
        path = os.path.join(pages.room, "book.csv")
        with open(path, "w") as it:
            it.write(book_text([("Ring", "J9", 9000, ago(3), "", "no")]))
        open_book(pages)
        the_book_is_read()
        part("files")
        browser.fill("#importing", file=path)
        with pages.relay.loses("/import", 10):
            browser.press("#importing button")
            browser.press("dialog button", "Fill book 7")
            browser.says("The reply was lost, so the book may have been filled. Send the same file again", "#importing")
        browser.press("#importing button")
        browser.press("dialog button", "Fill book 7")
        browser.says("The book is filled: 1 pledge came.", "#importing")
        part("terms")
        browser.says("Version 2", "#next-version")
        browser.rests()
        browser.fill("#new-terms", rate="0.3")
        with pages.relay.loses("/terms", 10):
            browser.press("#new-terms button")
            browser.press("dialog button", "Add version 2")
            lost = "The reply was lost, so the terms may have been added. Add them again: they are not added twice."
            browser.says(lost, "#new-terms", patience=30)
        browser.press("#new-terms button")
        browser.says("Version 2 has these terms already, so nothing was added.", "#new-terms")
        browser.says("0.3%", "#terms-list")
        expect("they are added once", len(versions_of(pages)), 2)
        no_faults()


def a_question_about_a_pledge_says_its_terms_and_days_of_grace():
    """And the result says so where other terms were added since the question was asked."""
    with an_open_book() as pages:
        the_book_is_read()
        part("take")
        browser.fill("#taking", article="Gold ring", ref="A1", amount="100")
        browser.press("#taking button", "Take the pledge")
        browser.says("with no days of grace.", "dialog")
        browser.says("Interest by version 1 of the terms: £8.00 in 30 days on £100.", "dialog")
        put = {"keep_after": 0, "keep_before": 0, "rate": 10000, "version": 2}
        expect("others", pages.session.broker("POST", "/books/7/terms", put), (200, {"version": 2}))
        browser.press("dialog button", "Take it for £100.00")
        browser.says("Taken as pledge 1, under terms that were added since you were asked, version 2: £30.00 in 30 days "
                     "on £100.", "#taking")
        expect("it is loud", browser.run("return document.querySelector('#taking .notice').className"), "notice bad")
        no_faults()


def papers_say_which_end_counts():
    """Neither an extended pledge nor one whose agreed end has no effect names another end beside its own."""
    with Pages() as pages:
        make_book(pages, terms=False)
        pledges = [("Gold ring", "A1", 10000, ago(20), "", "no"), ("Silver cup", "A2", 9000, ago(20), ago(-30), "no")]
        fill_book(pages, book_text(pledges))
        until = six_months_after(ago(20)) + datetime.timedelta(days=40)
        extended = pages.session.broker("POST", "/books/7/pledges/1/extend", {"until": str(until)})
        expect("extended", extended[0], 200)
        open_book(pages)
        the_book_is_read()
        for number, says in (
            (1, [f"{in_words(until)}, as extended", "Agreed end at first"]),
            (2, [in_words(six_months_after(ago(20))), f"{in_short(ago(-30))}, without effect: six months"]),
        ):
            find(str(number))
            browser.says(f"Pledge {number} of book 7", "#statement")
            command("Print the receipt again", "Print the receipt again")
            browser.press("dialog button", "Print it again")
            browser.says("Pawn receipt", "#new-receipt")
            for part_of in ("#statement", "#new-receipt"):
                for one in says:
                    browser.says(one, part_of)
            if number == 1:
                browser.shoot("broker-receipt-extended")
        no_faults()


def days_that_are_still_to_come_stop_no_list():
    """A service whose clock was ahead for a while has entries and pledges of days to come."""
    with Pages() as pages:
        make_book(pages, terms=False)
        pledges = [("Gold ring", "A1", 10000, ago(200), "", "yes"), ("Silver cup", "A2", 9000, ago(-40), "", "no")]
        lines = book_text(pledges).splitlines()
        lines[3] = lines[3].replace(f",no,{ago(200)},open", f",no,{ago(-30)},open")
        lines.insert(5, row("E", 1, 1, ago(-30), "repay", 100))
        fill_book(pages, "\n".join(lines) + "\n")
        open_book(pages)
        the_book_is_read()
        part("all")
        browser.says("2 of 2 pledges", "#search-count")
        browser.says("Gold ring", "#all-rows")
        part("due")
        browser.says("Gold ring", "#due-lists")
        find("1")
        browser.says("Gold ring", "#statement")
        browser.fill("#reckoning", day=str(ago(-10)))
        browser.press("#reckoning button", "Calculate")
        browser.says(f"Choose a day from {in_short(ago(-30))} on.", "#reckoning")
        browser.fill("#reckoning", day=str(ago(-31)))
        browser.press("#reckoning button", "Calculate")
        browser.says(f"On {in_words(ago(-31))} £", "#reckoning")
        no_faults()


def what_is_on_hold_is_marked_where_it_is_pulled_or_sold():
    """An article that may be stolen would be sold with the others. The rules allow it, so the question says it."""
    with Pages() as pages:
        make_book(pages, terms=False)
        ends_today = [day for day in (ago(count) for count in range(180, 186)) if six_months_after(day) == ago(0)]
        pledges = [("Old clock", "O1", 9000, ago(400), "", "no"), ("Gold ring", "O2", 9000, ago(400), "", "no"),
                   ("Silver cup", "O3", 9000, ends_today[0] if ends_today else ago(10), "", "no")]
        fill_book(pages, book_text(pledges))
        for number in (2, 3):
            expect("on hold", pages.session.broker("POST", f"/books/7/pledges/{number}/hold")[0], 200)
        open_book(pages)
        the_book_is_read()
        if ends_today:
            browser.says("Silver cup", "#sheet")
            browser.says("reference O3; on hold;", "#sheet")
        part("due")
        browser.says("Old clock", "#due-lists")
        marked = "return [...document.querySelectorAll(arguments[0])].filter((one) => /on hold/i.test(one.innerText))" \
            ".map((one) => one.querySelector('bdi').textContent)"
        expect("due", set(browser.run(marked, "#due-lists tr")) - {"Silver cup"}, {"Gold ring"})
        browser.shoot("broker-due-on-hold")
        part("all")
        browser.says("Old clock", "#all-rows")
        expect("all", set(browser.run(marked, "#all-rows li")), {"Gold ring", "Silver cup"})
        find("2")
        browser.says("On hold", "#statement")
        command("Sale", "Record the sale", amount="90")
        browser.says("Find out why it is on hold before the article is sold.", "dialog")
        browser.press("dialog button", "Not now")
        browser.says("Nothing was done.", "#commands")
        no_faults()


def a_receipt_that_is_scanned_into_a_field_of_the_shop_is_not_kept():
    """It would be printed on the papers of other customers."""
    with an_open_book() as pages:
        receipt = pages.session.open_pledge(1)
        the_book_is_read()
        part("shop")
        for name in ("name", "address", "till"):
            browser.fill("#shop-form", **{"name": "High Street", "address": "", "till": "", name: receipt})
            browser.press("#shop-form button")
            browser.says("That is a receipt, which would be printed on other papers. Clear the field.", "#shop-form")
            expect("the field", browser.run("return document.activeElement.name"), name)
        close_the_book()
        browser.fill("#open", book="7", key=BROKER, shop=receipt)
        browser.press("#open .buttons button")
        browser.says("That is a receipt, which would be printed on other papers. Clear the field.", "#open")
        expect("what is kept", receipt in browser.run("return JSON.stringify({ ...localStorage })"), False)
        no_faults()


def an_extension_says_that_the_article_does_not_pass_any_more():
    """The article of a small credit passes to the shop only if the period is six months."""
    with Pages() as pages:
        make_book(pages, terms=False)
        fill_book(pages, book_text([("Cup", "A1", 7000, ago(20), "", "no"), ("Ring", "A2", 8000, ago(20), "", "no")]))
        open_book(pages)
        the_book_is_read()
        for number, says in (1, True), (2, False):
            find(str(number))
            browser.says(f"Pledge {number} of book 7", "#statement")
            for title, button, typed in (
                ("Extend the period", "Extend", {"until": str(ago(-300))}), ("Renew", "Renew the pledge", {}),
            ):
                command(title, button, **typed)
                browser.says("The period ends on", "dialog")
                loses = "The article will not pass to the shop then: if it is not redeemed, it is to be sold."
                expect(f"{title} of pledge {number}", loses in browser.text("dialog"), says)
                browser.press("dialog button", "Not now")
                browser.says("Nothing was done.", "#commands")
        command("Extend the period", "Extend", until=str(ago(-300)))
        browser.press("dialog button.grave")
        browser.says(f"The period ends on {in_words(ago(-300))}. The pawnor’s paper has the old end", "#commands")
        browser.says("If there is a tag on the bag, it has the old end: print it anew.", "#commands")
        no_faults()


def an_agreed_end_of_a_wrong_year_is_asked_about_loudly():
    with an_open_book() as pages:
        the_book_is_read()
        part("take")
        six = six_months_after(today())
        for agreed, says in (six + datetime.timedelta(days=366), False), (six + datetime.timedelta(days=367), True):
            browser.fill("#taking", article="Gold ring", ref="A1", amount="100", agreed=str(agreed))
            browser.press("#taking button", "Take the pledge")
            browser.says(f"The period ends on {in_words(agreed)}", "dialog")
            loud = browser.run("return document.querySelector('dialog .loud')?.textContent ?? ''")
            expect(str(agreed), loud == "That is more than a year after the six months: look at the year again.", says)
            browser.press("dialog button", "Not now")
            browser.says("Nothing was done.", "#taking")
        no_faults()


main(
    (),
    (
        terms_are_asked_for_before_the_form_is_filled, terms_that_another_till_put_are_seen,
        a_key_is_read_in_each_of_its_forms, a_sum_that_is_no_longer_owed_has_the_pledge_shown_anew,
        an_article_that_was_sold_meanwhile_is_told, a_redemption_whose_reply_was_lost_is_pressed_again,
        a_redemption_that_never_arrived_is_done_by_the_next_press,
        a_redemption_after_which_nothing_can_be_looked_at_says_what_to_do, the_pledge_that_was_asked_for_last_is_shown,
        what_is_searched_for_during_a_search_is_found, a_scan_stays_whole_where_the_last_search_ends_during_it,
        of_a_search_that_another_overtakes_nothing_is_shown,
        a_key_that_is_held_down_looks_once,
        a_refusal_is_said_where_it_comes_before_the_reply_to_the_search_before,
        two_receipts_that_were_scanned_into_one_text_are_called_so, what_came_of_an_act_is_not_said_of_another_pledge,
        what_can_still_be_drawn_is_told, a_receipt_of_a_pledge_that_is_over_says_who_has_the_article,
        a_written_statement_is_not_asked_for_above_the_small_credit, a_receipt_that_is_not_whole_is_counted,
        the_field_of_the_search_names_no_other_pledge, a_visit_at_a_time_that_is_over_is_asked_about,
        a_pledge_that_changed_is_shown_anew_before_it_is_renewed_or_extended,
        a_sale_of_what_was_redeemed_meanwhile_is_not_asked_about, a_mark_that_is_not_seen_is_not_taken_into_a_pledge,
        a_file_that_a_spreadsheet_saved_in_another_encoding_does_not_fill_the_book, pledges_of_two_books_are_told_apart,
        terms_are_asked_about_and_added_once, terms_that_another_till_replaced_are_added_again,
        terms_and_a_file_whose_replies_are_lost_say_what_to_do, a_paper_of_the_book_that_filled_this_one_is_found,
        a_question_about_a_pledge_says_its_terms_and_days_of_grace,
        papers_say_which_end_counts, days_that_are_still_to_come_stop_no_list,
        what_is_on_hold_is_marked_where_it_is_pulled_or_sold,
        a_receipt_that_is_scanned_into_a_field_of_the_shop_is_not_kept,
        an_extension_says_that_the_article_does_not_pass_any_more, an_agreed_end_of_a_wrong_year_is_asked_about_loudly,
    ),
)
