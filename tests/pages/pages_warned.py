"""What a clerk and a pawnor are warned of before money, an article or a paper is out of their hands; in a real browser,
in front of the program."""
import datetime

from tests.library.checks import expect
from tests.library.dates import six_months_after, today
from tests.library.pages.browser import Pages
from tests.library.pages.steps import (
    LOST, WRONG_SECRET, a_pledge_at_the_counter, a_pledge_by_its_receipt, ago, an_open_book, book_text, browser,
    command, entries, fill_book, find, in_short, in_words, main, make_book, no_faults, open_book, part, secret_of,
    show_receipt, take_a_ring, the_book_is_read, unfold,
)

PAID_OUT = "Nothing is paid out yet: record each amount that you pay out as a drawing"
OLD = "It could not be read again just now: what is shown was read at "
COME_BACK = """
const real = Date.now;
window.Date.now = () => real() + arguments[0];
document.dispatchEvent(new Event("visibilitychange"));
"""
AT_THE_SHOP = (
    "Do it only at the shop, when you are given the article: without this receipt you can’t show that it is yours."
)
TYPED = "return document.querySelector('.action[open] [name=amount]').value"


def a_running_account_says_that_nothing_is_paid_out_yet():
    """A clerk who hands out money at once would not record it: the book would say that nothing is owed."""
    with an_open_book() as pages:
        part("take")
        browser.fill("#taking", article="Watch", ref="A1", amount="500", kind="running")
        browser.press("#taking button", "Take the pledge")
        browser.says("Take this pledge, up to £500.00?", "dialog")
        browser.says(PAID_OUT, "dialog")
        browser.press("dialog button", "Take it, up to £500.00")
        browser.says(f"Taken as pledge 1. Its receipt is ready to print. {PAID_OUT}", "#taking .notice")
        browser.press("#taken-receipt a", "Pledge 1")
        browser.says("£0.00 owed today", "#statement")
        command("Drawing", "Record the drawing", amount="200")
        browser.says("£200.00 owed today", "#statement")
        part("take")
        browser.fill("#taking", article="Ring", ref="A2", amount="50", kind="fixed")
        browser.press("#taking button", "Take the pledge")
        browser.says("£50.00 is lent.", "dialog")
        expect("a fixed sum is paid out", PAID_OUT in browser.text("dialog"), False)
        browser.press("dialog button", "Take it for £50.00")
        browser.says("Taken as pledge 2.", "#taking .notice")
        expect("a fixed sum is paid out", PAID_OUT in browser.text("#taking .notice"), False)
        no_faults()


def a_long_question_is_seen_from_its_beginning():
    """On a small screen its title and its buttons are in view, and the text between them can be moved."""
    with an_open_book():
        for width, height in ((853, 533), (320, 568)):
            browser.devtools(
                "Emulation.setDeviceMetricsOverride", width=width, height=height, deviceScaleFactor=1,
                mobile=width < 600,
            )
            part("take")
            browser.fill(
                "#taking", article="Gold chain with a long description of its stones, 18 carat", ref="B-2026-0001",
                amount="12000", kind="running", agreed="2199-12-31",
            )
            browser.press("#taking button", "Take the pledge")
            browser.says("That is a large sum", "dialog")
            expect(f"what is in view at {width}", browser.run(IN_VIEW), [True] * 4)
            browser.press("dialog button", "Not now")
            browser.says("Nothing was done.", "#taking .notice")
            browser.rests()
        browser.resize(390)
        no_faults()


# Whether the title, the first line and the buttons of a question are in view, and whether the rest can be reached.
IN_VIEW = """
const dialog = document.querySelector("dialog");
const { top, bottom } = dialog.getBoundingClientRect();
const isSeen = (one) => {
  const its = one.getBoundingClientRect();
  return its.top >= Math.max(0, top) && its.bottom <= Math.min(innerHeight, bottom);
};
const text = dialog.querySelector("h2 + div");
const first = text.querySelector("p:not(:empty)");
const seen = [dialog.querySelector("h2"), first, dialog.querySelector(".buttons")].map(isSeen);
text.focus();
text.lastChild.scrollIntoView();
return [...seen, isSeen(text.lastChild) && (text.scrollTop === 0 || document.activeElement === text)];
"""


def terms_that_were_added_in_the_morning_are_asked_about():
    """The book in the page is read every ten minutes, and its terms each time that a pledge is to be taken."""
    with an_open_book() as pages:
        the_book_is_read()
        browser.rests()
        put = {"keep_after": 0, "keep_before": 0, "rate": 3000, "version": 2}
        expect("terms", pages.session.broker("POST", "/books/7/terms", put), (200, {"version": 2}))
        browser.run("const now = performance.now.bind(performance); performance.now = () => now() + 61000")
        part("take")
        browser.rests()
        browser.fill("#taking", article="Ring", ref="A1", amount="50")
        browser.press("#taking button", "Take the pledge")
        browser.says("Interest by version 2 of the terms: £9.00 in 30 days on £100.", "dialog")
        browser.press("dialog button", "Take it for £50.00")
        browser.says("Taken as pledge 1. Its receipt is ready to print.", "#taking .notice")
        no_faults()


def a_pawnor_redeems_at_the_shop():
    """The receipt is worth nothing after it, so at home it would be given away for nothing."""
    with a_pledge_by_its_receipt() as (pages, receipt):
        unfold("Redeem")
        browser.says(AT_THE_SHOP, ".action[open]")
        browser.press(".action[open] button", "Redeem for £100.00")
        browser.says(AT_THE_SHOP, "dialog")
        browser.press("dialog button", "Not yet")
        pages.session.bearer(receipt, "POST", "/books/7/held/repay", {"pence": 10000, "seq": 1})
        browser.press("#look-again")
        browser.says("£0.00 owed today", "#cards")
        browser.rests()
        unfold("Redeem")
        browser.says("Nothing is owed today.", ".action[open]")
        browser.press(".action[open] button", "Redeem for £0.00")
        browser.says("Nothing is owed today.", "dialog")
        browser.says(AT_THE_SHOP, "dialog")
        expect("no amount is said to be received", "received" in browser.text("dialog"), False)
        browser.press("dialog button", "Yes, I am given the article")
        browser.says("£0.00 was paid.", "#cards")
        no_faults()


def a_payment_of_all_that_is_owed_does_not_redeem_the_pledge():
    """The pawnor's page says so, as the broker's does."""
    with a_pledge_by_its_receipt() as (_, _):
        open_it = "That is all that is owed, but the pledge stays open after it"
        browser.rests()
        unfold("Record a part payment")
        browser.fill(".action[open] form", amount="40")
        browser.press(".action[open] button", "Record the payment")
        browser.says("Record £40.00 as paid?", "dialog")
        expect("a part is no whole", open_it in browser.text("dialog"), False)
        browser.press("dialog button", "Not yet")
        browser.says("Nothing was recorded.", ".action[open]")
        browser.fill(".action[open] form", amount="100")
        browser.press(".action[open] button", "Record the payment")
        browser.says(f"{open_it}. To have the article, choose “Redeem” at the shop in place of this.", "dialog")
        browser.press("dialog button", "Not yet")
        no_faults()


def a_repayment_near_the_end_says_that_the_end_stays():
    """A clerk or a pawnor may take the charges for a renewal, and the article passes to the shop, or is sold."""
    with Pages() as pages:
        make_book(pages, terms=False)
        ends = six_months_after(ago(180))
        fill_book(pages, book_text([
            ("Ring", "A1", 5000, ago(180), "", "no"), ("Violin", "A2", 20000, ago(220), "", "no"),
            ("Cup", "A3", 20000, ago(20), "", "no"),
        ], rates=(0, 0, 0)))
        open_book(pages)
        for number, stays in (
            (1, f" This does not move the end of the period, {in_words(ends)}."),
            (2, f" This does not move the end of the period, {in_words(six_months_after(ago(220)))}."), (3, ""),
        ):
            find(str(number))
            command("Repayment", "Record the repayment", amount="1")
            owed = "£49.00" if number == 1 else "£199.00"
            browser.says(f"Repaid: £1.00, on {in_words(today())}. {owed} is owed now.{stays}", "#commands")
            expect("whether it is said", "This does not move" in browser.text("#commands"), stays != "")
        show_receipt(pages, f"1-{secret_of(1)}")
        command("Record a part payment", "Record the payment", amount="2")
        browser.press("dialog button", "Yes, £2.00 was received")
        browser.says(f"£47.00 is owed now. This does not move the end of the period, {in_words(ends)}.", "#cards")
        no_faults()


def nothing_more_is_repaid_where_nothing_is_owed():
    """Neither page offers it: money that is taken then is in no book."""
    with a_pledge_at_the_counter() as (pages, receipt):
        pages.session.bearer(receipt, "POST", "/books/7/held/repay", {"pence": 10000, "seq": 1})
        find("1")
        browser.says("£0.00 owed today", "#statement")
        browser.rests()
        unfold("Repayment")
        browser.says("Nothing is owed today.", ".action[open] .barred")
        show_receipt(pages, receipt)
        browser.says("£0.00 owed today", "#cards")
        expect("no part can be paid", "Record a part payment" in browser.text("#cards"), False)
        no_faults()


def the_till_says_what_of_a_sale_is_the_pawnors():
    """A surplus that is paid out of the drawer is in no book, so the drawer would seem to lack it."""
    with Pages() as pages:
        make_book(pages, terms=False)
        fill_book(pages, book_text(
            [("Coat", "A1", 10000, ago(400), "", "no"), ("Lamp", "A2", 10000, ago(400), "", "no")], rates=(0, 0, 0),
        ))
        open_book(pages)
        the_book_is_read()
        for number, net in ((1, 15000), (2, 9000)):
            sold = pages.session.broker("POST", f"/books/7/pledges/{number}/sell", {"net": net})
            expect("sold", sold[0], 200)
        browser.press("#read-book")
        browser.rests()
        part("till")
        browser.says("£240.00", "#till-lists .sums")
        browser.says(
            "Of the proceeds £50.00 is surplus, which is the pawnors’. The book does not record when you pay it to "
            "them: what you have paid of it is no longer in the drawer.", "#till-lists .sums",
        )
        browser.says("£50.00 surplus", "#till-lists")
        browser.says("£10.00 shortfall", "#till-lists")
        no_faults()


def a_pledge_that_is_left_open_is_read_again():
    """A clerk who comes back to it tells a customer what is owed. But not while a form is open: what came in between is
    asked about when it is sent."""
    with a_pledge_at_the_counter() as (pages, receipt):
        browser.says("£100.00 owed today", "#statement")
        the_book_is_read()
        browser.rests()
        command("Put on hold", "Hold")
        browser.says("The pledge is on hold: it can’t be redeemed.", "#commands")
        command("Release the hold", "Release")
        browser.says("The hold is released.", "#commands")
        browser.rests()
        pages.session.bearer(receipt, "POST", "/books/7/held/repay", {"pence": 1000, "seq": 1})
        browser.run(COME_BACK, 61_000)
        browser.says("£90.00 owed today", "#statement")
        browser.says("Since this pledge was shown here, it has changed.", "#commands > .notice")
        expect("what was said before", "The hold is released." in browser.text("#commands"), False)
        browser.rests()
        unfold("Repayment")
        browser.fill(".action[open] form", amount="20")
        pages.session.bearer(receipt, "POST", "/books/7/held/repay", {"pence": 2000, "seq": 2})
        browser.run(COME_BACK, 61_000)
        browser.rests()
        browser.says("£90.00 owed today", "#statement")
        browser.press(".action[open] button", "Record the repayment")
        browser.says("Something came in between", "dialog")
        browser.press("dialog button", "No, record nothing")
        browser.says("£70.00 owed today", "#statement")
        browser.rests()
        browser.run("for (const one of document.querySelectorAll('.action[open]')) one.open = false")
        no_faults()
        with browser.without_a_line():
            browser.run(COME_BACK, 61_000)
            browser.says("The pledge could not be read again just now: what is shown was read at ", "#commands")
            browser.says("£70.00 owed today", "#statement")
        browser.run(COME_BACK, 61_000)
        browser.until("return !document.querySelector('#commands .notice').textContent", "no word of it any more")


def a_warning_of_a_dead_receipt_stays_where_its_pledge_is_read_again():
    with a_pledge_at_the_counter() as (pages, receipt):
        the_book_is_read()
        find(f"1-{WRONG_SECRET}")
        browser.says("This receipt is not live", "#commands > .notice")
        browser.rests()
        pages.session.bearer(receipt, "POST", "/books/7/held/repay", {"pence": 1000, "seq": 1})
        browser.run(COME_BACK, 61_000)
        browser.says("£90.00 owed today", "#statement")
        browser.rests()
        browser.says("This receipt is not live", "#commands > .notice")
        no_faults()


def what_a_look_shows_after_a_lost_reply_is_said():
    """Of a hold and of a decision on a visit: the clerk is not sent to look at what is on the page."""
    day = today() + datetime.timedelta(days=3)
    with a_pledge_at_the_counter() as (pages, receipt):
        for target, title, button, says in (
            ("/hold", "Put on hold", "Hold", "The pledge is on hold: it can’t be redeemed."),
            ("/release", "Release the hold", "Release", "The hold is released."),
        ):
            with pages.relay.loses(target, times=10):
                command(title, button)
                browser.says(LOST + says, "#commands", patience=30)
        pages.session.bearer(receipt, "POST", "/books/7/held/ask", {"day": str(day), "window": 3})
        find("1")
        with pages.relay.loses("/decide", times=10):
            command("Visit", "Confirm")
            browser.says(LOST + f"The visit on {in_words(day)}, 10:30 to 11:00 is confirmed.", "#commands", patience=30)


def what_a_look_shows_the_pawnor_after_a_lost_reply_is_said():
    day = today() + datetime.timedelta(days=3)
    with a_pledge_by_its_receipt() as (pages, receipt):
        pages.session.bearer(receipt, "POST", "/books/7/held/ask", {"day": str(day), "window": 3})
        browser.press("#look-again")
        browser.says("10:30 to 11:00: asked for", "#cards")
        with pages.relay.loses("/cancel", times=10):
            command("Cancel the visit", "Cancel the visit")
            browser.says(LOST + f"The visit is cancelled: {in_words(day)}, 10:30 to 11:00.", "#cards", patience=30)
        with pages.relay.loses("/ask", times=10):
            command("Ask for a time to come", "Ask for this time", day=str(day), window="4")
            browser.says(LOST + f"Asked for {in_words(day)}, 11:00 to 11:30.", "#cards", patience=30)


def closing_the_book_asks_about_what_was_typed():
    """Under any part, in a fold that is open; and about nothing else."""
    question = "return document.querySelector('dialog')"
    with a_pledge_at_the_counter() as (pages, _):
        the_book_is_read()
        unfold("Renew")
        unfold("Repayment")
        browser.press("#close-book")
        browser.element("#open")
        expect("no question", browser.run(question), None)
        open_book(pages)
        the_book_is_read()
        value = "return document.querySelector(arguments[0]).value"
        for place, title, form, name, text in (
            ("take", "Take a pledge", "#taking", "article", "Brooch"), ("terms", "Terms", "#new-terms", "rate", "0.2"),
            ("shop", "Shop", "#shop-form", "till", "Till 2"),
        ):
            part(place)
            browser.fill(form, **{name: text})
            part("today")
            browser.press("#close-book")
            browser.says("Close the book?", "dialog")
            browser.says(f"What you typed under “{title}” was not sent, and is lost then.", "dialog")
            browser.press("dialog button", "Keep it open")
            part(place)
            expect("it is there", browser.run(value, f"{form} [name={name}]"), text)
            browser.run("document.querySelector(arguments[0]).reset()", form)
        find("1")
        browser.says("Pledge 1", "#statement")
        unfold("Repayment")
        browser.fill(".action[open] form", amount="10")
        browser.press("#close-book")
        browser.says("What you typed under “Repayment” was not sent, and is lost then.", "dialog")
        browser.shoot("broker-close")
        browser.press("dialog button", "Close the book")
        browser.element("#open")
        no_faults()


def a_float_does_not_keep_the_book_open():
    """A float that is kept is not lost with the book; one that is only typed is asked about."""
    question = "return document.querySelector('dialog')"
    with an_open_book() as pages:
        the_book_is_read()
        part("till")
        browser.fill("#till-lists .float", amount="50")
        browser.press("#close-book")
        browser.says("What you typed under “Till” was not sent, and is lost then.", "dialog")
        browser.press("dialog button", "Keep it open")
        browser.press("#till-lists .float button")
        browser.says("With its float of £50.00 it should have £50.00.", "#till-lists")
        browser.press("#close-book")
        browser.element("#open")
        expect("no question", browser.run(question), None)
        open_book(pages)
        the_book_is_read()
        part("till")
        expect("the float", browser.run("return document.querySelector('.float [name=amount]').value"), "50.00")
        browser.fill("#till-lists .float", amount="")
        browser.press("#till-lists .float button")
        browser.until("return !document.querySelector('#till-lists').textContent.includes('With its float')", "no float")
        no_faults()


def closing_the_book_asks_while_a_reply_is_awaited():
    with a_pledge_at_the_counter() as (pages, _):
        the_book_is_read()
        browser.rests()
        browser.run(SLOW_REPAYMENT)
        command("Repayment", "Record the repayment", amount="10")
        browser.until("return window.held", "a reply that is late")
        browser.press("#close-book")
        browser.says("The service has not answered yet what you sent.", "dialog")
        expect("it was sent", "was not sent" in browser.text("dialog"), False)
        browser.press("dialog button", "Keep it open")
        browser.run("window.letGo()")
        browser.says("Repaid: £10.00", "#commands")
        browser.rests()
        browser.press("#close-book")
        browser.element("#open")
        expect("one entry", pages.session.broker("GET", "/books/7/pledges/1")[1].count("Entry "), 1)
        no_faults()


def a_pledge_that_is_paid_is_still_to_be_fetched():
    """It passes to the shop, or may be sold, as if something were owed."""
    with Pages() as pages:
        make_book(pages, terms=False)
        taken = {1: ago(186), 2: ago(30)}
        fill_book(pages, book_text([
            ("Chain", "A1", 6000, taken[1], "", "yes"), ("Ring", "A2", 6000, taken[2], "", "no"),
        ], rates=(0, 0, 0)))
        last = {1: six_months_after(taken[1]) + datetime.timedelta(days=5), 2: six_months_after(taken[2])}
        lines = {1: ": pay what is owed to have it back", 2: ""}
        for number, day in last.items():
            receipt = f"{number}-{secret_of(number)}"
            show_receipt(pages, receipt)
            browser.says("£60.00 owed today", "#cards")
            expect("the headline", browser.text("#cards .line"), f"Still yours until {in_words(day)}{lines[number]}")
            paid = pages.session.bearer(receipt, "POST", "/books/7/held/repay", {"pence": 6000, "seq": 1})
            expect("all is paid", paid[0], 200)
            browser.press("button", "Look again")
            browser.says("£0.00 owed today", "#cards")
            expect(
                "the headline of what is paid", browser.text("#cards .line"),
                f"Still yours until {in_words(day)}: nothing is owed, but it has to be fetched by then",
            )
        no_faults()


def a_hold_does_not_hide_what_the_end_brings():
    """To the pawnor or to the clerk: the time of a pledge runs on while it is on hold."""
    with Pages() as pages:
        make_book(pages, terms=False)
        fill_book(pages, book_text([
            ("Ring", "A1", 5000, ago(30), "", "yes"), ("Watch", "A2", 9000, ago(30), "", "no"),
            ("Clock", "A3", 9000, ago(220), "", "no"), ("Spoon", "A4", 5000, ago(186), "", "yes"),
        ]))
        open_book(pages)
        find("1")
        browser.says("Pledge 1 of book 7", "#statement")
        unfold("Put on hold")
        browser.says("While the pledge is on hold, it can’t be redeemed, and its time runs on.", ".action[open]")
        ends = six_months_after(ago(30))
        grace = six_months_after(ago(186))
        days = datetime.timedelta(days=5)
        hold = "On hold: it can’t be redeemed until"
        for number, for_clerk, for_pawnor in (
            (1, f"The period ends on {in_words(ends)}, and five days of grace follow; "
             "after that the article is the shop’s, on hold or not",
             f"The period ends on {in_words(ends)}, and five days of grace follow if your paper says so; after that "
             "the article belongs to the pawnbroker, on hold or not"),
            (2, f"The period ends on {in_words(ends)}; after that the article may be sold, on hold or not", None),
            (3, f"The period ended on {in_words(six_months_after(ago(220)))}; the article may be sold any "
             "day, on hold or not", ...),
            (4, f"The period ended on {in_words(grace)}, and days of grace run until {in_words(grace + days)}; "
             "after that the article is the shop’s, on hold or not",
             f"The period ended on {in_words(grace)}, and days of grace run until {in_words(grace + days)}; "
             "after that the article belongs to the pawnbroker, on hold or not"),
        ):
            held = pages.session.broker("POST", f"/books/7/pledges/{number}/hold")
            expect("the hold", held, (200, {"held": True}))
            open_book(pages)
            the_book_is_read()
            find(str(number))
            browser.says(f"{hold} you release it", "#statement")
            browser.says(for_clerk, "#statement")
            show_receipt(pages, f"{number}-{secret_of(number)}")
            browser.says(f"{hold} the pawnbroker releases it", "#cards")
            if for_pawnor is not None:
                browser.says(for_clerk if for_pawnor is ... else for_pawnor, "#cards")
        no_faults()


def money_that_is_paid_out_on_a_hold_is_asked_about():
    """Whatever the amount: the article may not be the pawnor's."""
    with an_open_book() as pages:
        pages.session.open_pledge(1, kind="running", pence=50000)
        find("1")
        browser.says("Pledge 1", "#statement")
        command("Drawing", "Record the drawing", amount="1")
        browser.says("Drawn: £1.00", "#commands")
        pages.session.broker("POST", "/books/7/pledges/1/hold")
        find("1")
        browser.says("On hold", "#statement")
        command("Drawing", "Record the drawing", amount="2")
        browser.says("Record £2.00 as paid out?", "dialog")
        browser.says("Pledge 1: Gold ring. It is on hold.", "dialog")
        browser.press("dialog button", "Not now")
        browser.says("Nothing was recorded.", "#commands")
        command("Repayment", "Record the repayment", amount="0.50")
        browser.says("Repaid: £0.50", "#commands")
        expect("the entries", len(entries(pages, 1)), 2)
        no_faults()


def at_the_hour(hour):
    """It is this hour and ten minutes by the clock of the device."""
    browser.run(f"Date.prototype.getHours = () => {hour}; Date.prototype.getMinutes = () => 10;")


def a_visit_whose_time_is_over_is_told_the_clerk():
    """On the day's sheet, on its pledge, and before it is confirmed."""
    with a_pledge_at_the_counter() as (pages, receipt):
        the_book_is_read()
        pages.session.bearer(receipt, "POST", "/books/7/held/ask", {"day": str(today()), "window": 3})
        at_the_hour(8)
        part("today")
        browser.says("today, 10:30 to 11:00", "#sheet")
        expect("it is to come", "is over" in browser.text("#sheet"), False)
        at_the_hour(12)
        part("today")
        browser.says("today, 10:30 to 11:00, which is over", "#sheet")
        find("1")
        over = f"{in_words(today())}, 10:30 to 11:00: asked for, not confirmed yet, at a time that is over"
        browser.says(over, "#statement")
        command("Visit", "Confirm")
        browser.says("It is 12:10 by the clock of this device.", "dialog")
        browser.says(over, "dialog")
        browser.press("dialog button", "Not now")
        browser.says("Nothing was done.", "#commands")
        command("Visit", "Confirm")
        browser.press("dialog button", "Confirm it all the same")
        browser.says(f"The visit on {in_words(today())}, 10:30 to 11:00 is confirmed.", "#commands")
        part("today")
        browser.says("10:30 to 11:00, which is over", "#sheet")
        browser.says("1 of 2 places", "#sheet")
        no_faults()


def what_came_in_between_is_named():
    """Where it is no entry, it is not called one."""
    day = six_months_after(today()) + datetime.timedelta(days=40)
    with a_pledge_at_the_counter() as (pages, _):
        unfold("Repayment")
        browser.fill(".action[open] form", amount="5")
        pages.session.broker("POST", "/books/7/pledges/1/extend", {"until": str(day)})
        pages.session.broker("POST", "/books/7/pledges/1/hold")
        browser.press(".action[open] button")
        browser.says(f"The period ends on {in_words(day)} now.", "dialog")
        browser.says("The pledge was put on hold.", "dialog")
        browser.says("Do you still want to record your repayment of £5.00?", "dialog")
        browser.press("dialog button", "No, record nothing")
        browser.says("Nothing was recorded.", "#commands")
        browser.rests()
        browser.fill(".action[open] form", amount="6")
        pages.session.broker("POST", "/books/7/pledges/1/release")
        pages.session.broker("POST", "/books/7/pledges/1/repay", {"pence": 600, "seq": 1})
        browser.press(".action[open] button")
        browser.says("The hold was released.", "dialog")
        browser.says("Is your repayment of £6.00 another one? If it is listed here already, record nothing.", "dialog")
        browser.press("dialog button", "No, record nothing")
        expect("one entry", len(entries(pages, 1)), 1)
        no_faults()


def a_payment_that_came_during_another_act_is_said():
    """The act shows the pledge anew with it, so the repayment after that is not asked about any more."""
    with a_pledge_at_the_counter() as (pages, receipt):
        browser.rests()
        unfold("Put on hold")
        paid = pages.session.bearer(receipt, "POST", "/books/7/held/repay", {"pence": 6000, "seq": 1})
        expect("the pawnor's payment", paid[0], 200)
        browser.press(".action[open] button", "Hold")
        browser.says(
            "The pledge is on hold: it can’t be redeemed. Since this pledge was shown here, this happened: "
            f"Repaid: £60.00, on {in_short(today())}. £40.00 is owed now.", "#commands",
        )
        browser.rests()
        unfold("Replace a lost receipt")
        pages.session.bearer(receipt, "POST", "/books/7/held/repay", {"pence": 500, "seq": 2})
        browser.press(".action[open] button", "Make a new receipt")
        browser.press("dialog button", "Not now")
        browser.says(
            "Nothing was done. Since this pledge was shown here, this happened: "
            f"Repaid: £5.00, on {in_short(today())}. £35.00 is owed now.", "#commands",
        )
        command("Repayment", "Record the repayment", amount="4")
        browser.says(f"Repaid: £4.00, on {in_words(today())}. £31.00 is owed now.", "#commands")
        expect("what this page recorded is no news", "this happened" in browser.text("#commands"), False)
        no_faults()


def a_drawing_that_came_in_between_is_not_asked_about_as_a_repayment():
    with an_open_book() as pages:
        the_book_is_read()
        take_a_ring(kind="running")
        draw = {"pence": 1000, "seq": 1}
        expect("a drawing", pages.session.broker("POST", "/books/7/pledges/1/draw", draw)[0], 200)
        find("1")
        browser.says("£10.00 owed today", "#statement")
        draw["seq"] = 2
        expect("another till's", pages.session.broker("POST", "/books/7/pledges/1/draw", draw)[0], 200)
        command("Repayment", "Record the repayment", amount="10")
        browser.says(f"Drawn: £10.00, on {in_short(today())}.", "dialog")
        browser.says("Do you still want to record your repayment of £10.00?", "dialog")
        browser.press("dialog button", "Yes, record £10.00")
        browser.says("Repaid: £10.00", "#commands")
        for name, seq in ("repay", 4), ("draw", 5):
            made = pages.session.broker("POST", f"/books/7/pledges/1/{name}", {"pence": 1000, "seq": seq})
            expect("another till's", made[0], 200)
        command("Drawing", "Record the drawing", amount="10")
        for came in ("Repaid", "Drawn"):
            browser.says(f"{came}: £10.00, on {in_short(today())}.", "dialog")
        browser.says("Is your drawing of £10.00 another one? If it is listed here already, record nothing.", "dialog")
        browser.press("dialog button", "Yes, record £10.00 as well")
        browser.says("£20.00 is owed now.", "#commands")
        no_faults()


# The service's reply to a repayment does not come before it is let go.
SLOW_REPAYMENT = """
const real = window.fetch;
const gate = new Promise((go) => { window.letGo = go; });
window.fetch = async (...request) => {
  const reply = await real(...request);
  if (!request[0].endsWith("/repay")) return reply;
  window.held = true;
  await gate;
  return reply;
};"""


def a_receipt_that_is_cut_is_counted_where_it_is_redeemed():
    """As where it is found."""
    with a_pledge_at_the_counter() as (_, receipt):
        command("Redeem by the paper", "Redeem", receipt=receipt[:-1], amount="100")
        browser.says("There are 31 digits after the number, and a receipt has 32.", ".action[open]")
        browser.rests()
        browser.fill(".action[open] form", receipt=receipt[:-1] + "x")
        browser.press(".action[open] button", "Redeem")
        browser.says("It has the letter “x”", ".action[open]")
        no_faults()


def what_is_scanned_after_a_search_that_failed_takes_its_place():
    """It would be added to what was typed, and a live receipt would be called dead."""
    with a_pledge_at_the_counter() as (_, receipt):
        find("99")
        browser.says("The book has no pledge of that number or reference.", "#finding")
        browser.rests()
        browser.keys(receipt + "\ue007")
        browser.says("This receipt is live. £100.00 is owed today.", "#commands")
        no_faults()


def what_is_scanned_while_a_day_or_a_box_has_the_focus_is_found():
    """No text can be typed there: the scan would change the day, or do nothing at all."""
    with a_pledge_at_the_counter() as (_, receipt):
        for name, field in (
            ("today", "#sheet-of"), ("all", "#search-group"), ("take", "#taking [name=five]"),
            ("take", "#taking [name=kind]"), ("till", "#till-of"), ("take", "#take-agreed"),
        ):
            part(name)
            browser.element(field)
            browser.rests()
            browser.run("document.querySelector(arguments[0]).focus()", field)
            browser.keys(receipt + "\ue007")
            browser.says("This receipt is live. £100.00 is owed today.", "#commands")
            wanted = {"#sheet-of": str(today()), "#till-of": str(today()), "#take-agreed": ""}
            if field in wanted:
                day = browser.run("return document.querySelector(arguments[0]).value", field)
                expect(f"the day of {field}", day, wanted[field])
        no_faults()


def what_is_scanned_while_a_question_is_open_does_not_answer_it():
    """A scanner ends with Enter, which presses the button that has the focus."""
    with a_pledge_at_the_counter() as (pages, receipt):
        end = six_months_after(today())
        for answer in ("button.grave", "button.plain"):
            command("Extend the period", "Extend", until=str(end + datetime.timedelta(days=30)))
            browser.element(f"dialog {answer}")
            browser.run("document.querySelector(arguments[0]).focus()", f"dialog {answer}")
            browser.keys(receipt + "\ue007")
            browser.says("Extend the period?", "dialog")
            browser.press("dialog button", "Not now")
            browser.says("Nothing was done.", "#commands")
        expect("the end", f"Ends {end}\n" in pages.session.broker("GET", "/books/7/pledges/1")[1], True)
        no_faults()


def what_is_scanned_into_the_form_of_a_new_pledge_is_found():
    """The form is not complete, so the browser would ask for its other fields, and the receipt would stay in it."""
    with a_pledge_at_the_counter() as (_, receipt):
        for field in ("article", "ref", "amount"):
            part("take")
            browser.fill("#taking", **{"article": "Silver watch", "ref": "A2", "amount": "5", field: ""})
            browser.rests()
            browser.run("document.querySelector(arguments[0]).focus()", f"#taking [name={field}]")
            browser.keys(receipt + "\ue007")
            browser.says("This receipt is live. £100.00 is owed today.", "#commands")
            left = "const { article, ref, amount } = document.querySelector('#taking').elements; " \
                "return [article, ref, amount].map((one) => one.value)"
            typed = {"article": "Silver watch", "ref": "A2", "amount": "5", field: ""}
            expect(f"what is left in the form, after {field}", browser.run(left), list(typed.values()))
        no_faults()


def a_link_that_comes_after_its_receipt_says_what_it_says():
    """A receipt that was typed first lacks the shop, the terms and the days of grace."""
    with a_pledge_by_its_receipt() as (_, receipt):
        browser.says("£100.00 owed today", "#cards")
        expect("no terms", "Interest\n" in browser.text("#cards"), False)
        browser.rests()
        browser.run(
            "location.hash = arguments[0]", f"#book=7&receipt={receipt}&terms=2667.0.0&grace=5&shop=High+Street&ref=A1",
        )
        browser.says("Pledge 1 at High Street", "#cards")
        browser.says("£8.00 in 30 days on £100", "#cards")
        browser.says("five days of grace follow", "#cards")
        expect("one pledge", browser.run("return document.querySelectorAll('#cards > *').length"), 1)
        browser.ask("POST", "/refresh", {})
        browser.says("Pledge 1 at High Street", "#cards")
        no_faults()


def what_an_act_reports_stays_where_one_came_back_during_its_question():
    """A pawnor rings the shop while the question is open, and comes back to it."""
    with a_pledge_by_its_receipt() as (_, _):
        command("Record a part payment", "Record the payment", amount="10")
        browser.element("dialog button", "Yes, £10.00 was received")
        browser.run(COME_BACK, 61_000)
        browser.press("dialog button", "Yes, £10.00 was received")
        browser.says("£90.00 owed today", "#cards")
        browser.rests()
        browser.says("Repaid: £10.00", "#cards .pledge > .notice")
        no_faults()


def a_visit_to_an_article_that_is_sold_is_not_asked_about():
    """The shop sold it after the pawnor's page had shown it: the page has read that, and says so at once."""
    with Pages() as pages:
        make_book(pages, terms=False)
        fill_book(pages, book_text([("Coat", "A1", 10000, ago(400), "", "no")], rates=(0, 0, 0)))
        show_receipt(pages, f"1-{secret_of(1)}&grace=0&terms=0.0.0")
        browser.says("You can still fetch it, until the shop sells it", "#cards")
        expect("the sale", pages.session.broker("POST", "/books/7/pledges/1/sell", {"net": 12000})[0], 200)
        command("Ask for a time to come", "Ask for this time", day=str(ago(-2)), window="3")
        browser.until(
            "return document.querySelector('dialog') || document.body.innerText.includes('sold already')", "an answer",
        )
        expect("no question", browser.run("return document.querySelector('dialog')?.innerText ?? null"), None)
        browser.says("The pledge is redeemed or sold already. Nothing more is done on it.", "#cards")
        browser.says("£20.00 more than was owed, which is yours: ask the shop for it", "#cards")
        no_faults()


def a_visit_after_the_time_is_over_says_what_becomes_of_the_article():
    """An article that may be sold never belongs to the shop, and no day is better than another; one that passes can't
    be fetched on any day after that."""
    with Pages() as pages:
        make_book(pages, terms=False)
        fill_book(pages, book_text([
            ("Coat", "A1", 10000, ago(400), "", "no"), ("Pin", "A2", 7000, ago(30), "", "no"),
        ]))
        day = today() + datetime.timedelta(days=2)
        show_receipt(pages, f"1-{secret_of(1)}&grace=0&terms=2667.0.0")
        browser.says("You can still fetch it, until the shop sells it", "#cards")
        command("Ask for a time to come", "Ask for this time", day=str(day), window="3")
        browser.says("The article may be sold before you come", "dialog")
        expect("no word of passing", "belong" in browser.text("dialog"), False)
        browser.press("dialog button", "Ask for this day all the same")
        browser.says(f"Asked for {in_words(day)}", "#cards")
        end = six_months_after(ago(30))
        after = end + datetime.timedelta(days=1)
        show_receipt(pages, f"2-{secret_of(2)}&grace=0&terms=2667.0.0")
        browser.says("Still yours until", "#cards")
        command("Ask for a time to come", "Ask for this time", day=str(after), window="3")
        browser.says(
            f"From {in_words(after)} on the article belongs to the pawnbroker. Choose a day up to {in_words(end)}.",
            ".action[open]",
        )
        expect("no question", browser.run("return document.querySelector('dialog')"), None)
        show_receipt(pages, f"2-{secret_of(2)}")
        browser.says("Still yours until", "#cards")
        command("Ask for a time to come", "Ask for this time", day=str(after), window="3")
        browser.says("the article may belong to the shop.", "dialog")
        browser.says("If your paper says that it has days of grace, they last five days more.", "dialog")
        browser.press("dialog button", "Choose another day")
        no_faults()


def the_pledge_of_a_link_is_the_one_that_is_seen():
    """A tab that has other receipts shows the pledges one under the other, and the new one last."""
    with a_pledge_by_its_receipt() as (pages, receipt):
        browser.says("£100.00 owed today", "#cards")
        browser.rests()
        last = pages.session.open_pledge(2, article="Pearl necklace")
        browser.run("location.hash = arguments[0]", f"#book=7&receipt={last}")
        browser.says("Pearl necklace", "#cards")
        browser.rests()
        expect("the focus", browser.run("return document.activeElement.textContent"), "Pearl necklace")
        browser.run("location.hash = arguments[0]", f"#book=7&receipt={receipt}")
        browser.until("return document.activeElement.textContent === 'Gold ring'", "the focus on the other")
        browser.go(f"{pages.address}/pawn/#book=7&receipt={last}")
        browser.until("return document.activeElement.textContent === 'Pearl necklace'", "the focus after a reload")
        no_faults()


def a_pawnor_who_comes_back_sees_what_the_shop_decided():
    """A telephone keeps a tab for days: what it shows is read again, or says when it was read."""
    with a_pledge_by_its_receipt() as (pages, receipt):
        day = today() + datetime.timedelta(days=3)
        pages.session.bearer(receipt, "POST", "/books/7/held/ask", {"day": str(day), "window": 3})
        browser.press("#look-again")
        browser.says("asked for, not confirmed yet", "#cards")
        browser.rests()
        unfold("Record a part payment")
        browser.fill(".action[open] form", amount="12.34")
        decided = pages.session.broker("POST", "/books/7/pledges/1/decide", {"yes": True})
        expect("confirmed", decided[0], 200)
        browser.run(COME_BACK, 120_000)
        browser.says("10:30 to 11:00: confirmed", "#cards")
        expect("what was typed", browser.run(TYPED), "12.34")
        no_faults()
        with browser.without_a_line():
            browser.run(COME_BACK, 120_000)
            browser.says(OLD, "#cards")
            browser.says("£100.00 owed today", "#cards")
            browser.press("#look-again")
            browser.until("return !document.querySelector('#look-again').disabled", "the end of the look")
            browser.says(OLD, "#cards")
            browser.says("£100.00 owed today", "#cards")
            expect("what was typed", browser.run(TYPED), "12.34")
        browser.press("#look-again")
        browser.rests()
        expect("it was read", OLD in browser.text("#cards"), False)


main(
    (),
    (
        a_repayment_near_the_end_says_that_the_end_stays,
        nothing_more_is_repaid_where_nothing_is_owed, a_running_account_says_that_nothing_is_paid_out_yet,
        a_long_question_is_seen_from_its_beginning,
        terms_that_were_added_in_the_morning_are_asked_about, a_pawnor_redeems_at_the_shop,
        a_payment_of_all_that_is_owed_does_not_redeem_the_pledge, the_till_says_what_of_a_sale_is_the_pawnors,
        a_pledge_that_is_left_open_is_read_again, a_warning_of_a_dead_receipt_stays_where_its_pledge_is_read_again,
        what_a_look_shows_after_a_lost_reply_is_said,
        what_a_look_shows_the_pawnor_after_a_lost_reply_is_said, a_receipt_that_is_cut_is_counted_where_it_is_redeemed,
        what_is_scanned_after_a_search_that_failed_takes_its_place,
        what_is_scanned_into_the_form_of_a_new_pledge_is_found,
        what_is_scanned_while_a_day_or_a_box_has_the_focus_is_found,
        what_is_scanned_while_a_question_is_open_does_not_answer_it,
        a_link_that_comes_after_its_receipt_says_what_it_says, a_pawnor_who_comes_back_sees_what_the_shop_decided,
        what_an_act_reports_stays_where_one_came_back_during_its_question, the_pledge_of_a_link_is_the_one_that_is_seen,
        a_visit_to_an_article_that_is_sold_is_not_asked_about,
        a_visit_after_the_time_is_over_says_what_becomes_of_the_article,
        closing_the_book_asks_about_what_was_typed, a_float_does_not_keep_the_book_open,
        closing_the_book_asks_while_a_reply_is_awaited,
        a_pledge_that_is_paid_is_still_to_be_fetched, a_hold_does_not_hide_what_the_end_brings,
        a_visit_whose_time_is_over_is_told_the_clerk,
        what_came_in_between_is_named, a_payment_that_came_during_another_act_is_said,
        a_drawing_that_came_in_between_is_not_asked_about_as_a_repayment,
        money_that_is_paid_out_on_a_hold_is_asked_about,
    ),
)
