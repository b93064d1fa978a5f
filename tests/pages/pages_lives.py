"""The life of pledges on both pages, in a real browser, by the real nginx, in front of the program. Pictures are left
in build/pages/."""
import datetime
import os

from tests.library.checks import expect
from tests.library.dates import six_months_after, today
from tests.library.keys import BROKER
from tests.library.pages.browser import Pages
from tests.library.pages.steps import (
    WRONG_SECRET, a_pledge_at_the_counter, ago, an_open_book, book_text, browser, command, entries, find, in_words,
    main, make_book, no_faults, open_book, part, receipts_made, show_receipt, take_a_ring, unfold,
)
from tests.library.waiting import wait_for

EVIL = "<img src=x onerror=document.title='ran'>"


def the_life_of_a_pledge():
    with Pages() as pages:
        make_book(pages, terms=False)
        open_book(pages)
        browser.says(in_words(today()), "#today")
        browser.says("Nobody waits for an answer", "#today")
        browser.press("#places a[href='#terms']")
        browser.says("The book has no terms yet", "#terms")
        browser.fill("#new-terms", rate="0.2667", before="0", after="0")
        browser.says("£100.00 for 30 days: £8.00 of interest", "#terms-example")
        browser.press("#new-terms button")
        browser.press("dialog button", "Add version 1")
        browser.says("Version 1 is in the book.", "#terms")
        browser.shoot("broker-terms")
        receipt, link = take_a_ring()
        expect("the link", link.startswith(f"{pages.address}/pawn/#book=7&receipt={receipt}&terms=2667.0.0"), True)
        browser.shoot("broker-receipt")
        visit = today() + datetime.timedelta(days=5)
        show_receipt(pages, receipt)
        browser.says("£100.00 owed today", "#cards")
        browser.says(f"Kept for you until {in_words(six_months_after(today()))}", "#cards")
        browser.says(f"{(six_months_after(today()) - today()).days} days left", "#cards")
        expect("the address is cleared", browser.run("return location.href"), pages.address + "/pawn/")
        browser.shoot("pawn-pledge")
        command("Ask for a time to come", "Ask for this time", "pawn-asking", day=str(visit), window="3")
        browser.says(f"Asked for {in_words(visit)}, 10:30 to 11:00.", "#cards")
        command("Cancel the visit", "Cancel the visit")
        browser.says("The visit is cancelled:", "#cards")
        command("Ask for a time to come", "Ask for this time", day=str(visit), window="3")
        browser.says("asked for, not confirmed yet", "#cards")
        broker_answers(pages, visit, receipt)


def show_day(pages, day):
    """The broker looks at the sheet of a day."""
    open_book(pages)
    browser.says("Coming", "#sheet")
    browser.fill("#sheet-day", day=str(day))
    browser.press("#sheet-day button", "Show")


def broker_answers(pages, visit, receipt):
    """The broker confirms the visit, records ten pounds, extends the period and puts the pledge on hold."""
    show_day(pages, visit)
    browser.says("10:30 to 11:00", "#sheet")
    browser.shoot("broker-day")
    browser.press("#sheet a", "Pledge 1")
    browser.says("asked for, not confirmed yet", "#statement")
    command("Visit", "Confirm")
    browser.says(f"The visit on {in_words(visit)}, 10:30 to 11:00 is confirmed.", "#commands")
    command("Repayment", "Record the repayment", amount="10.00")
    browser.says("Repaid: £10.00", "#commands")
    browser.says("£90.00 owed today", "#statement")
    command("Repayment", "Record the repayment", amount="500")
    browser.says("That is more than is owed. Owed today: £90.00.", "#commands")
    browser.rests()
    unfold("Drawing")
    browser.says("This pledge is for a fixed sum, so nothing more can be drawn.", ".action[open]")
    expect("nothing can be pressed", browser.run(LIVE), [])
    longer = six_months_after(today()) + datetime.timedelta(days=30)
    command("Extend the period", "Extend", until=str(longer))
    browser.press("dialog button", "Extend it by 30 days")
    browser.says(f"The period ends on {in_words(longer)}.", "#commands")
    command("Put on hold", "Hold")
    browser.says("it can’t be redeemed", "#commands")
    browser.shoot("broker-pledge")
    hold_is_released(pages, visit, receipt)
    pawnor_redeems(pages, receipt)


def hold_is_released(pages, visit, receipt):
    show_receipt(pages, receipt)
    browser.says("On hold: it can’t be redeemed", "#cards")
    browser.shoot("pawn-held")
    show_day(pages, visit)
    browser.says("1 of 2", "#sheet")
    browser.shoot("broker-coming")
    find("1")
    command("Release the hold", "Release")
    browser.says("The hold is released.", "#commands")


def pawnor_redeems(pages, receipt):
    """The pawnor pays a part, and redeems for the rest."""
    show_receipt(pages, receipt)
    browser.says("confirmed", "#cards")
    command("Record a part payment", "Record the payment", amount="20")
    browser.says("received", "dialog")
    browser.press("dialog button", "Yes, £20.00 was received")
    browser.says("Repaid: £20.00", "#cards")
    browser.says("£70.00 owed today", "#cards")
    browser.shoot("pawn-paid")
    command("Redeem", "Redeem for £70.00")
    browser.shoot("pawn-question")
    browser.press("dialog button", "Not yet")
    browser.says("Nothing was done.", "#cards")
    browser.press(".action[open] button", "Redeem for £70.00")
    browser.press("dialog button", "Yes, £70.00 was received")
    browser.says(f"Redeemed on {in_words(today())}. £70.00 was paid.", "#cards")
    browser.shoot("pawn-redeemed")
    show_receipt(pages, receipt)
    browser.says("This receipt opens no pledge", "#cards")
    browser.shoot("pawn-surrendered")
    open_book(pages)
    find("A1")
    browser.says("Redeemed on", "#statement")
    browser.says("reference A1", "#statement")
    no_faults()


LIVE = "return [...document.querySelectorAll('.action[open] button:enabled')].map((one) => one.textContent)"


def a_running_account_and_what_is_refused():
    with an_open_book() as pages:
        part("take")
        browser.fill("#taking", article="Silver teapot", ref="R/1", kind="running", amount="1,000.00", five="yes")
        browser.press("#taking button", "Take the pledge")
        browser.press("dialog button", "Take it, up to £1,000.00")
        browser.says("Credit up to", ".paper")
        receipt = browser.text(".paper .secret").strip()
        find("R/1")
        browser.says("a running account up to £1,000.00", "#statement")
        for amount, says in (
            ("250", "Drawn: £250.00"), ("750.01", "Drawing that much would pass the limit"), ("0", "at least a penny"),
            ("ten", "Write the amount in pounds"),
        ):
            command("Drawing", "Record the drawing", amount=amount)
            browser.says(says, "#commands")
        browser.says("£250.00 owed today", "#statement")
        browser.press(".action[open] > summary")
        command("Replace a lost receipt", "Make a new receipt", "broker-commands", paper="written")
        browser.says(
            "A written statement is enough only for credit up to £75.00. Ask for a sworn declaration.", "#commands"
        )
        expect("it is not asked about", browser.run("return document.querySelector('dialog')"), None)
        for title, says in (
            ("Sale", "It can be sold from"), ("Visit", "No visit of this pledge waits for an answer."),
        ):
            browser.rests()
            unfold(title)
            browser.says(says, ".action[open]")
            expect(f"{title}: nothing can be pressed", browser.run(LIVE), [])
        pages.session.bearer(receipt, "POST", "/books/7/held/ask", {"day": str(today()), "window": 0})
        find("R/1")
        command("Visit", "Refuse")
        browser.press("dialog button", "Refuse the visit")
        browser.says(f"The visit on {in_words(today())}, 09:00 to 09:30 is refused.", "#commands")
        find("R/2")
        browser.says("The book has no pledge of that number or reference.", "#finding")
        no_faults()


def a_lost_receipt_is_replaced():
    with a_pledge_at_the_counter() as (pages, first):
        command("Replace a lost receipt", "Make a new receipt")
        browser.press("dialog button", "Make a new receipt")
        browser.says("A new receipt is below.", "#commands")
        second = browser.text(".paper .secret").strip()
        show_receipt(pages, first)
        browser.says("This receipt opens no pledge", "#cards")
        browser.press("button", "Put this receipt away")
        browser.fill("#find", book="7", receipts=f"{second}\n{first}")
        browser.press("#find button")
        browser.says("Gold ring", "#cards")
        browser.says("This receipt opens no pledge", "#cards")
        expect("a card for each", browser.run("return document.querySelectorAll('.card.pledge').length"), 2)
        browser.shoot("pawn-several")
        browser.ask("POST", "/refresh", {})
        browser.says("Gold ring", "#cards")
        no_faults()


def wrong_keys_and_receipts():
    with Pages() as pages:
        make_book(pages)
        receipt = pages.session.open_pledge(1)
        open_book(pages, key=BROKER[:-1] + "3")
        browser.says("There is no such book, or this is not its key.", "#open")
        browser.shoot("broker-door")
        expect("nothing is kept", browser.run("return sessionStorage.length"), 0)
        browser.fill("#open", book="7", key="secret")
        browser.press("#open button")
        browser.says("That is no key.", "#open")
        browser.go(pages.address + "/pawn/")
        for book, typed, says in (
            ("x", receipt, "The book is a number"), ("7", "1-12", "That is no receipt."),
            ("7", "1-" + "g" * 36, "That is no receipt."),
        ):
            browser.fill("#find", book=book, receipts=typed)
            browser.press("#find button")
            browser.says(says, "#find")
        browser.fill("#find", book="7", receipts="1-" + WRONG_SECRET)
        browser.press("#find button")
        browser.says("This receipt opens no pledge", "#cards")
        browser.fill("#find", book="7", receipts=f"{pages.address}/pawn/#book=7&receipt={receipt}")
        browser.press("#find button")
        browser.says("Gold ring", "#cards")
        no_faults()


def a_text_of_markup_stays_a_text():
    with an_open_book() as pages:
        receipt, _ = take_a_ring(article=EVIL, reference=EVIL[:40])
        browser.says(EVIL, ".paper")
        browser.shoot("broker-markup")
        find(EVIL[:40])
        browser.says(EVIL, "#statement")
        part("due")
        browser.says("Nothing can be sold today.", "#due")
        show_receipt(pages, receipt)
        browser.says(EVIL, "#cards")
        found = browser.run("""
            const script = document.createElement("script");
            let held = "no";
            try { script.text = "document.title = 'ran'"; document.body.append(script); } catch { held = "yes"; }
            return [document.images.length, document.title, held];""")
        expect("nothing ran", found, [0, "Your pledge", "yes"])
        browser.faults()
        expect(
            "other places can't be asked",
            browser.run_later("return fetch('http://localhost:1/').then(() => 'asked', () => 'refused')"), "refused",
        )
        browser.faults()


def ended_periods():
    """A book of six pledges: to be sold, passed, in grace, ending today, running, and to be sold after days of
    grace."""
    long_ago = ago(220)
    return book_text(
        [
            ("Silver, old", "S1", 10000, long_ago, "", "no"), ("Watch", "S2", 5000, long_ago, "", "no"),
            ('"Big" clock', "S3", 9000, long_ago, ago(2), "yes"), ("Brooch", "S4", 8000, long_ago, today(), "no"),
            ("Violin", "S5", 20000, today(), "", "no"), ("Lamp", "S6", 5000, long_ago, ago(9), "yes"),
        ]
    )


def what_is_due_and_the_book_as_a_file():
    with Pages() as pages:
        make_book(pages, terms=False)
        path, text = os.path.join(pages.room, "book.csv"), ended_periods()
        with open(path, "w") as it:
            it.write(text)
        open_book(pages)
        part("files")
        browser.fill("#importing", file=path)
        browser.press("#importing button")
        browser.press("dialog button", "Fill book 7")
        browser.says("The book is filled: 6 pledges came.", "#files")
        browser.press("#exporting button")
        browser.says("The book is saved, with 14 rows.", "#files")
        saved = os.path.join(browser.room.name, f"book-7-{today()}.csv")
        wait_for(lambda: os.path.exists(saved), "the file")
        with open(saved) as it:
            expect("the file", it.read(), text)
        browser.shoot("broker-files")
        part("due")
        browser.says("Silver, old", "#due-lists")
        lists = browser.run(
            "return [...document.querySelectorAll('#due-lists .card')].map((card) => "
            "[...card.querySelectorAll('tbody tr')].map((row) => row.cells[0].textContent))"
        )
        expect("what is due", lists, [["3"], ["4"], [], [], ["1", "6"], ["2"]])
        browser.shoot("broker-due")
        sell_and_show_ended(pages)


def sell_and_show_ended(pages):
    find("S1")
    command("Sale", "Record the sale", amount="100")
    browser.press("dialog button", "Sold for £100.00")
    browser.says("less than was owed", "#commands")
    browser.says(f"Sold on {in_words(today())} for £100.00", "#statement")
    browser.shoot("broker-sold")
    browser.forget()
    wanted = "&".join(f"receipt={number}-{number:08}-0000-4000-8000-000000000000" for number in (1, 2, 3, 6))
    browser.go(f"{pages.address}/pawn/#book=7&{wanted}")
    for says in (
        "Sold on", "The article belongs to the pawnbroker now", "days of grace run",
        "You can still fetch it, until the shop sells it",
    ):
        browser.says(says, "#cards")
    browser.shoot("pawn-ended")
    no_faults()


def replies_that_are_lost():
    with a_pledge_at_the_counter() as (pages, receipt):
        with pages.relay.loses("/repay"):
            command("Repayment", "Record the repayment", amount="10")
            browser.says("Repaid: £10.00", "#commands")
        expect("it was asked again, and entered once", (pages.relay.lost, len(entries(pages, 1))), (1, 1))
        with pages.relay.loses("/declare"):
            command("Replace a lost receipt", "Make a new receipt")
            browser.press("dialog button", "Make a new receipt")
            browser.says("so a new receipt may have been made", "#commands")
        expect("one new receipt was made", len(receipts_made(pages, 1)), 2)
        browser.shoot("broker-lost")
        command("Replace a lost receipt", "Make a new receipt")
        browser.says("The new receipt was made already, by the press whose reply was lost.", "#commands")
        expect("pressed again, it acts once", len(receipts_made(pages, 1)), 2)
        command("Print the receipt again", "Print the receipt again")
        browser.press("dialog button", "Print it again")
        browser.says("The pledge has had 2 receipts.", "#commands")
        newest = browser.text(".paper .secret").strip()
        expect("it is another", newest != receipt, True)
        show_receipt(pages, newest)
        with pages.relay.loses("/redeem"):
            command("Redeem", "Redeem for £90.00")
            browser.press("dialog button", "Yes, £90.00 was received")
            browser.says("so this may have been done", "#cards")
        browser.says("Redeemed, most likely", "#cards")
        browser.shoot("pawn-lost")
        no_faults()


def a_service_that_is_down():
    with Pages() as pages:
        make_book(pages)
        receipt = pages.session.open_pledge(1)
        open_book(pages)
        browser.says("Coming", "#sheet")
        show_receipt(pages, receipt)
        browser.says("Gold ring", "#cards")
        pages.relay.stop_listening()
        command("Ask for a time to come", "Ask for this time", day=str(ago(-1)), window="3")
        browser.says("What you asked for was not sent, so it was not done.", "#cards")
        browser.ask("POST", "/refresh", {})
        browser.says("The pledge can’t be shown just now", "#cards")
        browser.shoot("pawn-down")
        expect("it can be tried again", browser.element("button", "Try again") is not None, True)
        no_faults()


main(
    (),
    (
        the_life_of_a_pledge, a_running_account_and_what_is_refused, a_lost_receipt_is_replaced,
        wrong_keys_and_receipts, a_text_of_markup_stays_a_text, what_is_due_and_the_book_as_a_file,
        replies_that_are_lost, a_service_that_is_down,
    ),
)
