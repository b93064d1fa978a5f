"""What the pawnor's page once said that was not so, each as it was found, and its words; in a real browser, by the real
nginx, in front of the program."""
import datetime
import re

from tests.library.checks import expect
from tests.library.dates import six_months_after, today
from tests.library.pages.browser import Pages
from tests.library.pages.steps import (
    a_pledge_by_its_receipt, ago, agree, an_open_book, browser, command, entries, in_short, in_words, main, make_book,
    no_faults, take_a_ring, the_clock_goes_on, unfold,
)
from tests.library.waiting import wait_for


NOT_SENT = "What you asked for was not sent, so it was not done."


def type_receipts(pages, receipts, book=""):
    browser.forget()
    browser.go(pages.address + "/pawn/")
    browser.fill("#find", receipts=receipts, book=book)
    browser.press("#find button")


def two_equal_payments_are_two():
    with a_pledge_by_its_receipt() as (pages, receipt):
        browser.says("£100.00 owed today", "#cards")
        pages.session.broker("POST", "/books/7/pledges/1/repay", {"pence": 1000, "seq": 1})
        command("Record a part payment", "Record the payment", amount="10")
        browser.press("dialog button", "Yes, £10.00 was received")
        browser.says(f"Repaid: £10.00, on {in_short(today())}.", "dialog")
        browser.press("dialog button", "Yes, record £10.00 as well")
        browser.says("£80.00 is owed now.", "#cards")
        browser.says("£80.00 owed today", "#cards")
        expect("two entries", len(entries(pages, 1)), 2)
        pages.session.broker("POST", "/books/7/pledges/1/repay", {"pence": 1000, "seq": 3})
        command("Record a part payment", "Record the payment", amount="10")
        browser.press("dialog button", "Yes, £10.00 was received")
        browser.says("Something came in between", "dialog")
        browser.press("dialog button", "No, record nothing")
        browser.says("Nothing was recorded.", "#cards")
        browser.says("£70.00 owed today", "#cards")
        expect("three entries", len(entries(pages, 1)), 3)
        no_faults()


def a_no_shows_what_the_shop_recorded_meanwhile():
    """The question names it, and after the answer no nothing older than the question is shown."""
    with a_pledge_by_its_receipt() as (pages, _):
        browser.says("£100.00 owed today", "#cards")
        pages.session.broker("POST", "/books/7/pledges/1/repay", {"pence": 3000, "seq": 1})
        command("Record a part payment", "Record the payment", amount="30")
        browser.says(f"Repaid: £30.00, on {in_short(today())}.", "dialog")
        browser.press("dialog button", "Not yet")
        browser.says("Nothing was recorded.", "#cards")
        browser.says("£70.00 owed today", "#cards")
        expect("what was typed stays", browser.run("return document.querySelector('.action[open] [name=amount]').value"), "30")
        command("Redeem", "Redeem for £70.00")
        browser.says("Redeem this pledge?", "dialog")
        pages.session.broker("POST", "/books/7/pledges/1/repay", {"pence": 1000, "seq": 2})
        browser.press("dialog button", "Not yet")
        browser.says("Nothing was done.", "#cards")
        browser.says("£60.00 owed today", "#cards")
        no_faults()


def an_amount_that_is_refused_is_not_asked_about():
    """Above what is owed, also if the shop recorded a payment since the pledge was shown; and nothing."""
    with a_pledge_by_its_receipt() as (pages, _):
        browser.says("£100.00 owed today", "#cards")
        for amount, says in (
            ("100.01", "That is more than is owed. Owed today: £100.00."), ("0", "That amount can’t be taken"),
        ):
            command("Record a part payment", "Record the payment", amount=amount)
            browser.says(says, "#cards")
            expect("no question", browser.run("return document.querySelector('dialog')"), None)
        pages.session.broker("POST", "/books/7/pledges/1/repay", {"pence": 9000, "seq": 1})
        command("Record a part payment", "Record the payment", amount="20")
        browser.says("That is more than is owed. Owed today: £10.00.", "#cards")
        browser.says("£10.00 owed today", "#cards")
        expect("no question", browser.run("return document.querySelector('dialog')"), None)
        expect("one entry", len(entries(pages, 1)), 1)
        no_faults()


def what_was_redeemed_on_this_page_stays_redeemed():
    """Also once the page looks again, or is loaded again: the receipt is not called wrong or replaced."""
    with a_pledge_by_its_receipt() as (_, receipt):
        browser.says("£100.00 owed today", "#cards")
        command("Redeem", "Redeem for £100.00")
        browser.press("dialog button", "Yes, £100.00 was received")
        done = f"Redeemed on {in_words(today())}. £100.00 was paid."
        browser.says(done, "#cards")
        browser.press("#look-again")
        browser.rests()
        browser.says(done, "#cards")
        browser.ask("POST", "/refresh", {})
        browser.says(done, "#cards")
        browser.says("Pledge 1: Gold ring", "#cards")
        browser.press("button", "Put this receipt away")
        expect("the tab keeps nothing of it", receipt in browser.run("return sessionStorage.getItem('receipts')"), False)
        no_faults()


def a_receipt_that_died_says_one_thing():
    """By the page of a pawnor, whose pledge got a newer receipt, or was redeemed with a reply that was lost."""
    with a_pledge_by_its_receipt() as (pages, _):
        browser.says("£100.00 owed today", "#cards")
        pages.session.broker("POST", "/books/7/pledges/1/declare", {"paper": "sworn"})
        command("Record a part payment", "Record the payment", amount="10")
        browser.says("This receipt was replaced or used", "#cards")
        browser.rests()
        browser.says("What you asked for just now was not done.", "#cards")
        browser.until("return document.activeElement.matches('#cards h2')", "the focus on what is said")
        expect("and nothing else", "a character may be wrong" in browser.text("#cards"), False)
        browser.ask("POST", "/refresh", {})
        browser.says("This receipt was replaced or used", "#cards")
    with a_pledge_by_its_receipt() as (pages, _):
        browser.says("£100.00 owed today", "#cards")
        with pages.relay.loses("/redeem"):
            command("Redeem", "Redeem for £100.00")
            browser.press("dialog button", "Yes, £100.00 was received")
            browser.says("Redeemed, most likely", "#cards", patience=30)
        browser.rests()
        browser.says("The reply was lost, so this may have been done.", "#cards")
        expect("and nothing else", "Look at the pledge" in browser.text("#cards"), False)
        browser.ask("POST", "/refresh", {})
        browser.says("Redeemed, most likely", "#cards")
        no_faults()


# The next redemption is not sent, and the page can't know that.
REDEMPTION_IS_LOST = """
const real = window.fetch;
window.fetch = async (path, how) => {
  if (!path.endsWith("/redeem")) return real(path, how);
  window.fetch = real;
  throw new TypeError("no line");
};
"""


def an_act_by_a_receipt_that_died_is_said_not_to_be_done():
    """A visit, too; but not a redemption: a browser may have sent that twice, and the first one has been done."""
    not_done = "What you asked for just now was not done."
    with a_pledge_by_its_receipt() as (pages, receipt):
        browser.says("£100.00 owed today", "#cards")
        pages.session.bearer(receipt, "POST", "/books/7/held/redeem", {"paid": 10000})
        command("Ask for a time to come", "Ask for this time", day=(today() + datetime.timedelta(days=2)).isoformat())
        browser.says("This receipt was replaced or used", "#cards")
        browser.says(not_done, "#cards")
        browser.press("#look-again")
        browser.until("return !document.querySelector('#cards').innerText.includes(arguments[0])", "one word of it", not_done)
        browser.says("This receipt was replaced or used", "#cards")
    with a_pledge_by_its_receipt() as (pages, receipt):
        browser.says("£100.00 owed today", "#cards")
        browser.rests()
        command("Redeem", "Redeem for £100.00")
        browser.says("Redeem this pledge?", "dialog")
        pages.session.bearer(receipt, "POST", "/books/7/held/redeem", {"paid": 10000})
        browser.press("dialog button", "Yes, £100.00 was received")
        browser.says("This receipt was replaced or used", "#cards")
        browser.rests()
        expect("not said of a redemption", not_done in browser.text("#cards"), False)
        no_faults()


def a_redemption_that_was_not_done_is_forgotten():
    """The pledge, read again, is open: a receipt that dies later is not said to be of that redemption."""
    with a_pledge_by_its_receipt() as (pages, _):
        browser.says("£100.00 owed today", "#cards")
        browser.rests()
        browser.run(REDEMPTION_IS_LOST)
        command("Redeem", "Redeem for £100.00")
        browser.press("dialog button", "Yes, £100.00 was received")
        browser.says("The reply was lost, so this may have been done.", "#cards")
        browser.says("£100.00 owed today", "#cards")
        browser.rests()
        pages.session.broker("POST", "/books/7/pledges/1/declare", {"paper": "sworn"})
        browser.press("#look-again")
        browser.says("This receipt was replaced or used", "#cards")
        no_faults()


def a_redemption_that_is_refused_is_not_asked_about():
    """The shop recorded a payment, or put the pledge on hold, since it was shown."""
    with a_pledge_by_its_receipt() as (pages, receipt):
        browser.says("£100.00 owed today", "#cards")
        pages.session.broker("POST", "/books/7/pledges/1/repay", {"pence": 1000, "seq": 1})
        command("Redeem", "Redeem for £100.00")
        browser.says("Since this pledge was shown here, it has changed. £90.00 is owed now.", "#cards")
        expect("no question", browser.run("return document.querySelector('dialog')"), None)
        browser.says("£90.00 owed today", "#cards")
        pages.session.broker("POST", "/books/7/pledges/1/hold")
        command("Redeem", "Redeem for £90.00")
        browser.says("The pledge is on hold, so it can’t be redeemed just now.", "#cards")
        expect("no question", browser.run("return document.querySelector('dialog')"), None)
        pages.session.broker("POST", "/books/7/pledges/1/release")
        browser.press("#look-again")
        browser.says("Still yours", "#cards")
        command("Redeem", "Redeem for £90.00")
        browser.press("dialog button", "Yes, £90.00 was received")
        browser.says(f"Redeemed on {in_words(today())}. £90.00 was paid.", "#cards")
        no_faults()


def what_the_page_says_of_links():
    with a_pledge_by_its_receipt() as (pages, receipt):
        browser.says("Gold ring", "#cards")
        browser.says("And a link that you opened may stay in the browser’s history, with the receipt.")
        browser.says("open the link in a private window")
        expect("what is not so", "keeps it in this tab alone" in browser.text(), False)


# Nothing can be asked for, and the browser does not report it; until it is mended.
NO_LINE = """
const real = window.fetch;
window.mend = () => { window.fetch = real; };
window.fetch = async () => { throw new TypeError("no line"); };
"""


def without_a_line():
    """Where the browser does not say that the line is back, a button tries again."""
    with a_pledge_by_its_receipt() as (pages, receipt):
        browser.says("£100.00 owed today", "#cards")
        for is_asked_before in (False, True):
            if is_asked_before:
                command("Record a part payment", "Record the payment", amount="10")
                browser.element("dialog button", "Yes, £10.00 was received")
            with browser.without_a_line():
                if is_asked_before:
                    browser.press("dialog button", "Yes, £10.00 was received")
                else:
                    command("Record a part payment", "Record the payment", amount="10")
                browser.says("The pledge can’t be shown just now", "#cards", patience=20)
                browser.says(NOT_SENT, "#cards")
            browser.says("£100.00 owed today", "#cards")
            expect("no entry", entries(pages, 1), [])
        browser.rests()
        browser.run(NO_LINE)
        command("Record a part payment", "Record the payment", amount="10")
        browser.says("The pledge can’t be shown just now", "#cards", patience=20)
        browser.run("window.mend()")
        browser.press("button", "Try again")
        browser.says("£100.00 owed today", "#cards")
        expect("no entry", entries(pages, 1), [])
        command("Redeem", "Redeem for £100.00")
        browser.press("dialog button", "Not yet")
        browser.says("Nothing was done.", "#cards")
        expect(
            "and is not shown as done",
            browser.run("return [...document.querySelectorAll('.notice')].find((one) => one.textContent).className"),
            "notice quiet",
        )


def a_pledge_is_tried_again_by_itself_once_the_line_is_back():
    """What was said of the act on the line that dropped stays."""
    with a_pledge_by_its_receipt() as (pages, receipt):
        browser.says("£100.00 owed today", "#cards")
        browser.rests()
        with browser.without_a_line():
            command("Record a part payment", "Record the payment", amount="10")
            browser.says("The pledge can’t be shown just now", "#cards", patience=20)
            browser.element("button", "Try again")
        browser.says("£100.00 owed today", "#cards")
        browser.says(NOT_SENT, "#cards .pledge > .notice")
        browser.faults()
        shown = "return performance.getEntriesByType('resource').length"
        browser.rests()
        before = browser.run(shown)
        browser.run("dispatchEvent(new Event('online'))")
        browser.rests()
        expect("what is shown is not read again", browser.run(shown), before)
        no_faults()


# What a card waits for, the sums that are seen, and whether what is owed together is said.
SEEN = """
const { innerText } = document.querySelector("#cards");
const waiting = innerText.split("One moment…").length - 1;
return [waiting, innerText.includes("£"), document.querySelector("#sum-line").checkVisibility()];
"""


def sums_of_another_day_are_not_shown_as_owed_today():
    """A telephone is looked at again on a later day, and its line is away: more may be owed by then."""
    with Pages() as pages:
        make_book(pages)
        receipts = [pages.session.open_pledge(number, article=f"Ring {number}") for number in range(1, 6)]
        browser.forget()
        browser.go(f"{pages.address}/pawn/#book=7&" + "&".join(f"receipt={one}" for one in receipts))
        owed = "£500.00 is owed today on 5 pledges together."
        browser.says(owed, "#sum-line")
        browser.rests()
        with browser.without_a_line():
            the_clock_goes_on(60)
            expect("on the same day", browser.run(SEEN), [0, True, True])
            the_clock_goes_on(86_400)
            expect("on the next day", browser.run(SEEN), [5, False, False])
        browser.says(owed, "#sum-line", patience=30)
        browser.rests()
        expect("once it was read", browser.run(SEEN), [0, True, True])
        browser.faults()
        unfold("Record a part payment")
        browser.fill(".action[open] form", amount="12.34")
        browser.run("document.querySelector('.action[open] [name=amount]').focus()")
        the_clock_goes_on(2 * 86_400)
        browser.says(owed, "#sum-line")
        browser.rests()
        typed = "return [document.activeElement.name, document.activeElement.value]"
        expect("what was typed, and the focus", browser.run(typed), ["amount", "12.34"])
        no_faults()


def a_payment_on_a_line_that_drops():
    """Once it was sent, no word says that it was not done."""
    with a_pledge_by_its_receipt() as (pages, receipt):
        browser.says("£100.00 owed today", "#cards")
        command("Record a part payment", "Record the payment", amount="10")
        with pages.relay.loses("/repay", times=10):
            browser.press("dialog button", "Yes, £10.00 was received")
            wait_for(lambda: pages.relay.lost, "a reply that is lost", 10)
            with browser.without_a_line():
                browser.says("The pledge can’t be shown just now", "#cards", patience=30)
                browser.says("The reply was lost, so this may have been done.", "#cards")
                expect("no word that it was not sent", NOT_SENT in browser.text("#cards"), False)


def a_receipt_that_is_typed_again_takes_the_place_of_the_mistyped_one():
    """What was mistyped is not shown above the pledge; a pledge, and what cannot be reached, stays."""
    with a_pledge_by_its_receipt() as (pages, receipt):
        browser.says("Gold ring", "#cards")
        other = pages.session.open_pledge(2, article="Silver spoon")
        browser.press("#finder summary")
        browser.fill("#find", receipts=other[:-1] + ("0" if other[-1] != "0" else "1"), book="7")
        browser.press("#find button")
        browser.says("This receipt opens no pledge", "#cards")
        browser.fill("#find", receipts=other)
        browser.press("#find button")
        browser.says("Silver spoon", "#cards")
        browser.rests()
        expect("the mistyped one is gone", "opens no pledge" in browser.text("#cards"), False)
        browser.says("Gold ring", "#cards")
        no_faults()


def a_payment_whose_reply_is_lost_for_good():
    with a_pledge_by_its_receipt() as (pages, receipt):
        browser.says("£100.00 owed today", "#cards")
        with pages.relay.loses("/repay", times=10):
            command("Record a part payment", "Record the payment", amount="10")
            browser.press("dialog button", "Yes, £10.00 was received")
            browser.says("The reply was lost, but the pledge, read again, has the entry.", "#cards", patience=20)
        browser.says("£90.00 owed today", "#cards")
        expect("one entry", len(entries(pages, 1)), 1)


def a_visit_after_the_end():
    with a_pledge_by_its_receipt() as (pages, receipt):
        end = six_months_after(today())
        late = ago(-200)
        command("Ask for a time to come", "Ask for this time", day=str(late), window="3")
        browser.says(f"The time of this pledge is over after {in_words(end)}.", "dialog")
        browser.press("dialog button", "Choose another day")
        browser.says("Nothing was done.", "#cards")
        browser.press(".action[open] button", "Ask for this time")
        agree()
        browser.says(f"Asked for {in_words(late)}, 10:30 to 11:00.", "#cards")


def receipts_as_people_write_them():
    with Pages() as pages:
        make_book(pages)
        receipt = pages.session.open_pledge(1)
        link = f"{pages.address}/pawn/#book=7&receipt={receipt}"
        number, secret = receipt.split("-", 1)
        spelled = (
            receipt.upper(), receipt.replace("-", "–"), f" {number} - {secret.replace('-', ' ')} ",
            secret and f"{number}-{secret.replace('-', '')}", f"{number}—{{{secret}}}", f"{number}-urn:uuid:{secret}",
        )
        for typed in spelled:
            type_receipts(pages, typed, "7")
            browser.says("Gold ring", "#cards")
        for typed in (link, f"See {link}", link.replace("-", "%E2%80%93")):
            type_receipts(pages, typed)
            browser.says("Gold ring", "#cards")
        type_receipts(pages, receipt)
        browser.says("Type the number of the shop’s book too", "#find")
        expect(
            "its field is marked",
            browser.run("return document.activeElement.name + document.activeElement.ariaInvalid"), "booktrue",
        )
        no_faults()


def a_cut_receipt_among_others_is_told():
    """However short it is: nothing is shown as if it were all that was typed."""
    with Pages() as pages:
        make_book(pages)
        receipt = pages.session.open_pledge(1)
        for cut, why in (
            ("2-12345", "There are 5 digits after the number, and a receipt has 32."),
            (receipt[:12], "digits after the number, and a receipt has 32."),
            (f"{pages.address}/pawn/#book=7&recei", "The link is not whole."),
        ):
            type_receipts(pages, f"{receipt}\n{cut}", "7")
            browser.says(f"This is no receipt: {cut}.", "#find")
            browser.says(why, "#find")
            browser.says("Nothing was shown: correct it, or leave it out.", "#find")
            expect("no card", browser.run("return document.querySelectorAll('.card.pledge').length"), 0)
        # Words beside a receipt are no receipt, and are left out.
        type_receipts(pages, f"My ring, of 30 November:\n{receipt}\n\n", "7")
        browser.says("Gold ring", "#cards")
        no_faults()


def forty_receipts_at_once():
    with Pages() as pages:
        make_book(pages)
        receipts = [pages.session.open_pledge(number, article=f"Ring {number}") for number in range(1, 41)]
        joined = browser_joins(pages, receipts[:2])
        expect("a browser joins equal fields, and two receipts in one are none", joined, 710)
        type_receipts(pages, "\n".join(receipts), "7")
        wait_for(
            lambda: browser.run("return document.querySelectorAll('.card.pledge .amount').length") == 40,
            "forty pledges", 40,
        )
        browser.says("Ring 40", "#cards")
        expect("none was refused", browser.text("#cards").count("can’t be shown"), 0)
        expect("nor met the proxy’s limit", browser.run(STATUSES), [200])


STATUSES = """
const asked = performance.getEntriesByType("resource").filter(({ name }) => name.endsWith("/held"));
return [...new Set(asked.map(({ responseStatus }) => responseStatus))];
"""


def browser_joins(pages, receipts):
    browser.go(pages.address + "/")
    return browser.run_later("""
        const fields = new Headers();
        for (const receipt of given[0]) fields.append("Pledge-Receipt", receipt);
        return (await (await fetch("/books/7/held", { headers: fields })).json()).code;""", receipts)


def the_link_names_the_shop():
    with an_open_book() as pages:
        receipt, link = take_a_ring()
        expect(
            "the link", re.sub(r"^.*#", "", link),
            f"book=7&receipt={receipt}&terms=2667.0.0&grace=0&shop=High+Street+Pawnbrokers&ref=A1",
        )
        browser.forget()
        browser.go(link)
        browser.says("Pledge 1 at High Street Pawnbrokers", "#cards")
        for says in ("£8.00 in 30 days on £100", "are as the receipt’s link says"):
            browser.says(says, "#cards")
        browser.ask("POST", "/refresh", {})
        browser.says("Pledge 1 at High Street Pawnbrokers", "#cards")
        browser.shoot("pawn-shop")
        browser.forget()
        browser.go(
            f"{pages.address}/pawn/#book=7&receipt={receipt}&"
            f"shop=%3Cimg%20src%3Dx%20onerror%3D%22document.title%3D'ran'%22%3E"
        )
        browser.says("at <img src=x", "#cards")
        expect(
            "a shop of markup stays a text", browser.run("return [document.images.length, document.title]"),
            [0, "Your pledge"],
        )
        browser.forget()
        browser.go(f"{pages.address}/pawn/#book=7&receipt={receipt}&rate=%C2%A38.00+in+30+days+on+%C2%A3100")
        browser.says("Interest, as the receipt’s link says: £8.00 in 30 days on £100.", "#cards")
        expect(
            "an older link, and no word of clerks",
            [word for word in ("book 7", "not live", "Running") if word in browser.text("#cards")], [],
        )
        no_faults()


def a_visit_is_not_said_to_be_cancelled_before_it_is():
    """Whoever only opens the fold still has the visit."""
    day = ago(-3)
    with a_pledge_by_its_receipt() as (pages, receipt):
        pages.session.bearer(receipt, "POST", "/books/7/held/ask", {"day": str(day), "window": 3})
        browser.press("#look-again")
        browser.says("10:30 to 11:00: asked for", "#cards")
        browser.press(".action > summary", "Cancel the visit")
        browser.says(f"Your visit is in 3 days, on {in_words(day)}. If you cancel it, you can ask for another.", "#cards")
        expect("it is not taken back", "taken back" in browser.text("#cards"), False)
        no_faults()


def a_confirmed_visit_is_given_up_after_a_question():
    """The shop confirmed it since the page showed it."""
    with a_pledge_by_its_receipt() as (pages, receipt):
        browser.says("Gold ring", "#cards")
        command("Ask for a time to come", "Ask for this time", day=str(ago(-3)), window="3")
        browser.says("Asked for", "#cards")
        browser.rests()
        pages.session.broker("POST", "/books/7/pledges/1/decide", {"yes": True})
        command("Ask for another time", "Ask for this time", day=str(ago(-4)), window="3")
        browser.says(f"The shop has confirmed your visit on {in_words(ago(-3))}, 10:30 to 11:00.", "dialog")
        browser.says("It is given up as soon as you ask for another time", "dialog")
        browser.shoot("pawn-confirmed-visit")
        browser.press("dialog button", "Keep the visit")
        browser.says("Nothing was done.", "#cards")
        browser.press("#look-again")
        browser.says("10:30 to 11:00: confirmed", "#cards")
        command("Cancel the visit", "Cancel the visit")
        browser.press("dialog button", "Keep the visit")
        browser.says("Nothing was done.", "#cards")
        stands = pages.session.broker("GET", "/books/7/pledges/1")[1]
        expect("it stands", f"Booking {ago(-3)} 3 confirmed" in stands, True)
        browser.press(".action > summary", "Ask for another time")
        browser.says("A new time replaces your confirmed visit at once.", "#cards")
        command("Ask for another time", "Ask for this time", day=str(ago(-4)), window="3")
        browser.press("dialog button", "Ask for the new time")
        browser.says(f"Asked for {in_words(ago(-4))}", "#cards")
        no_faults()


def a_pledge_that_was_shown_has_the_focus():
    """The form is folded away: without that the focus would be nowhere."""
    with Pages() as pages:
        make_book(pages)
        receipt = pages.session.open_pledge(1)
        type_receipts(pages, receipt, book="7")
        browser.says("Gold ring", "#cards")
        focused = "const { tagName, textContent } = document.activeElement; return tagName + textContent === arguments[0]"
        browser.until(focused, "the focus on the article", "H2Gold ring")
        browser.press("#finder summary")
        wrong = receipt[:-1] + ("0" if receipt[-1] != "0" else "1")
        browser.fill("#find", receipts=wrong, book="7")
        browser.press("#find button")
        browser.says("This receipt opens no pledge", "#cards")
        browser.until(focused, "the focus on what is wrong", "H2This receipt opens no pledge")
        no_faults()


main(
    (),
    (
        two_equal_payments_are_two, a_no_shows_what_the_shop_recorded_meanwhile,
        an_amount_that_is_refused_is_not_asked_about,
        a_receipt_that_died_says_one_thing, what_was_redeemed_on_this_page_stays_redeemed,
        an_act_by_a_receipt_that_died_is_said_not_to_be_done,
        a_redemption_that_was_not_done_is_forgotten, a_redemption_that_is_refused_is_not_asked_about,
        what_the_page_says_of_links, without_a_line,
        a_pledge_is_tried_again_by_itself_once_the_line_is_back, a_payment_on_a_line_that_drops,
        sums_of_another_day_are_not_shown_as_owed_today,
        a_receipt_that_is_typed_again_takes_the_place_of_the_mistyped_one,
        a_visit_is_not_said_to_be_cancelled_before_it_is, a_payment_whose_reply_is_lost_for_good,
        a_visit_after_the_end, receipts_as_people_write_them,
        a_cut_receipt_among_others_is_told, forty_receipts_at_once, the_link_names_the_shop,
        a_confirmed_visit_is_given_up_after_a_question, a_pledge_that_was_shown_has_the_focus,
    ),
)
