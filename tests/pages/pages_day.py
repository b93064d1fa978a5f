"""A shop's day at the counter: pledges are found by their references, what is typed is looked at, parts are gone to and
fro, and the till shows the day; in a real browser, in front of the program."""
import os

from tests.library.checks import expect
from tests.library.dates import six_months_after, today
from tests.library.pages.browser import Pages
from tests.library.pages.steps import (
    ago, agree, an_open_book, book_text, browser, command, fill_book, find, in_words, is_told_quietly, main, make_book,
    no_faults, open_book, part, secret_of, take_a_ring, the_book_is_read, the_clock_goes_on, unfold,
)


def references_are_found():
    with Pages() as pages:
        make_book(pages)
        for number, reference in enumerate(("A1", "X", "2", "J1 "), 1):
            pages.session.open_pledge(number, ref=reference, article=f"Ring {number}")
        open_book(pages)
        find("j1")
        browser.says("Ring 4", "#statement")
        find(" J1 ")
        browser.says("Ring 4", "#statement")
        find("2")
        browser.says("More than one pledge can be meant.", "#finding")
        expect(
            "the one of the reference first",
            browser.run("return [...document.querySelectorAll('#choices a')].map((one) => one.textContent)"),
            ["Pledge 3", "Pledge 2"],
        )
        browser.press("#choices a", "Pledge 3")
        browser.says("Ring 3", "#statement")
        for typed, article in (("3", "Ring 3"), ("#1", "Ring 1"), ("Pledge 4", "Ring 4")):
            find(typed)
            browser.says(article, "#statement")
            part("all")
            browser.fill("#searching", text=typed)
            browser.says(article, "#all-rows")
            browser.fill("#searching", text="")
        take_a_ring(article="  Silver   spoon ", reference=" B1 ")
        expect(
            "trimmed when it is taken", ",B1,Silver spoon," in pages.session.broker("GET", "/books/7/export")[1], True,
        )
        part("take")
        browser.fill("#taking", ref="b1")
        browser.says("Pledge 5 has this reference: Silver spoon.", "#reference-in-use")
        browser.run("document.querySelector('#taking').reset()")
        take_a_ring(article="Fork", reference="B2")
        browser.press("#next-reference")
        expect("the next of a series", browser.run("return document.querySelector('#take-ref').value"), "B3")
        no_faults()


def a_number_is_found_with_noughts_before_it():
    """Bags have tags such as "007". A reference with noughts is found as it is written."""
    with Pages() as pages:
        make_book(pages)
        for number, reference in enumerate(("A1", "004", "A3", "A4", "A5", "0006"), 1):
            pages.session.open_pledge(number, ref=reference, article=f"Ring {number}")
        open_book(pages)
        the_book_is_read()
        for typed, article in (
            ("003", "Ring 3"), ("#01", "Ring 1"), ("Pledge 0005", "Ring 5"), ("0006", "Ring 6"),
            ("0000000000003", "Ring 3"),
        ):
            find(typed)
            browser.says(article, "#statement")
            part("all")
            browser.fill("#searching", text=typed)
            browser.says("1 of 6 pledges", "#search-count")
            browser.says(article, "#all-rows")
            browser.fill("#searching", text="")
        find("004")
        browser.says("More than one pledge can be meant.", "#finding")
        offered = "return [...document.querySelectorAll('#choices a')].map((one) => one.textContent)"
        expect("the one of the reference first", browser.run(offered), ["Pledge 2", "Pledge 4"])
        part("all")
        browser.fill("#searching", text="004")
        browser.says("2 of 6 pledges", "#search-count")
        for typed in ("007", "000"):
            find(typed)
            browser.says("The book has no pledge of that number or reference.", "#finding")
        no_faults()


OPEN_FOLDS = "return [...document.querySelectorAll('.action[open] > summary')].map((one) => one.textContent)"


def a_reference_that_another_till_took_is_not_offered_again():
    with Pages() as pages:
        make_book(pages)
        for number in (1, 2):
            pages.session.open_pledge(number)
        open_book(pages)
        the_book_is_read()
        the_clock_goes_on(5)
        pages.session.open_pledge(3)
        part("take")
        browser.press("#next-reference", "Use A3")
        browser.fill("#taking", article="Ring", amount="100")
        browser.press("#taking button", "Take the pledge")
        agree()
        browser.says("Another pledge has that reference.", "#taking")
        browser.element("#next-reference", "Use A4")
        expect("nothing was taken", "P,4," in pages.session.broker("GET", "/books/7/export")[1], False)
        no_faults()


def what_was_typed_for_one_pledge_is_not_carried_to_another():
    """Neither a sum nor a receipt. And a pledge that could not be found leaves no other in its place."""
    with Pages() as pages:
        make_book(pages)
        receipts = [pages.session.open_pledge(number, article=f"Ring {number}") for number in (1, 2)]
        open_book(pages)
        the_book_is_read()
        find("1")
        browser.says("Ring 1", "#statement")
        unfold("Repayment")
        browser.fill(".action[open] form", amount="50")
        find("2")
        browser.says("Ring 2", "#statement")
        expect("the folds of another pledge", browser.run(OPEN_FOLDS), [])
        for number, receipt in enumerate(receipts, 1):
            find(receipt)
            browser.says(f"Ring {number}", "#statement")
            browser.says("This receipt is live.", "#commands")
            field = "return document.querySelector('.action[open] [name=receipt]').value"
            expect("the receipt that was scanned", browser.run(field), receipt)
        with browser.without_a_line():
            find("1")
            browser.says("The service can’t be reached just now.", "#finding", patience=30)
        expect("another pledge is shown", browser.run("return document.querySelector('#found').hidden"), True)
        find("1")
        browser.says("Ring 1", "#statement")
        browser.element("#found")
        browser.faults()


def all_entries_can_be_seen():
    with Pages() as pages:
        make_book(pages)
        pages.session.open_pledge(1)
        for seq in range(1, 131):
            pages.session.broker("POST", "/books/7/pledges/1/repay", {"pence": seq, "seq": seq})
        open_book(pages)
        find("1")
        browser.says("The last 12 of 130 payments and drawings", "#statement")
        browser.press("#statement button", "Show 100 earlier ones")
        browser.says("The last 112 of 130 payments and drawings", "#statement")
        browser.press("#statement button", "Show 18 earlier ones")
        expect("all of them", browser.run("return document.querySelectorAll('#statement .entries tr').length"), 130)


def back_reload_and_today():
    with Pages() as pages:
        make_book(pages)
        pages.session.open_pledge(1)
        pages.session.open_pledge(2, article="Silver spoon")
        open_book(pages)
        the_book_is_read()
        later = ago(-5)
        browser.fill("#sheet-day", day=str(later))
        browser.press("#sheet-day button", "Show")
        browser.says(f"{in_words(later)}, in 5 days", "#today")
        browser.ask("POST", "/refresh", {})
        browser.says(f"{in_words(later)}, in 5 days", "#today")
        find("1")
        browser.says("Gold ring", "#statement")
        find("2")
        browser.says("Silver spoon", "#statement")
        expect("the title", browser.run("return document.title"), "Pledge 2, book 7")
        browser.ask("POST", "/refresh", {})
        browser.says("Silver spoon", "#statement")
        browser.ask("POST", "/back", {})
        browser.says("Gold ring", "#statement")
        part("today")
        browser.says(f"Today, {in_words(today())}", "#today")
        expect("the heading has the focus", browser.run("return document.activeElement.id"), "sheet-title")
        tomorrow = ago(-1)
        the_clock_goes_on(86400)
        browser.says(f"Today, {in_words(tomorrow)}", "#today")


def what_is_typed_is_looked_at():
    with an_open_book() as pages:
        part("take")
        for fields, says in (
            ({"article": "   ", "ref": "A1", "amount": "1"}, "The article is empty."),
            ({"article": "é" * 41, "ref": "A1", "amount": "1"}, "The article is too long by 2"),
            ({"article": "Ring", "ref": "£" * 21, "amount": "1"}, "The reference is too long by 2"),
            (
                {"article": "Ring", "ref": "A1", "amount": "1", "agreed": str(today())},
                "The agreed end is not after today",
            ),
        ):
            browser.fill("#taking", **fields)
            browser.press("#taking button", "Take the pledge")
            browser.says(says, "#taking")
            expect("its field is marked", browser.run("return document.activeElement.ariaInvalid"), "true")
        browser.fill("#taking", article="Ring", ref="A1", amount="1,000,000", agreed=str(ago(-3)))
        browser.press("#taking button", "Take the pledge")
        for says in (
            "Take this pledge for £1,000,000.00?", "counts for nothing", "That is a large sum",
            f"The period ends on {in_words(six_months_after(today()))}"
        ):
            browser.says(says, "dialog")
        browser.shoot("broker-large")
        browser.press("dialog button", "Not now")
        browser.says("Nothing was done.", "#taking")
        is_told_quietly("#taking")
        expect("nothing was taken", pages.session.broker("GET", "/books/7/pledges/1")[0], 404)
        no_faults()


def the_same_file_is_one_import():
    """Where the book was filled from it before, nothing comes, and the page says so: the pledges may be over by now."""
    with Pages() as pages:
        make_book(pages, terms=False)
        path = os.path.join(pages.room, "book.csv")
        with open(path, "w") as it:
            it.write(book_text([("Ring", "J9", 9000, ago(3), "", "no")], rates=(0, 0, 0)))
        for asked, says in (
            ("A book is filled once", "The book is filled: 1 pledge came."),
            (
                "Book 7 is not empty: it has 1 pledge. If it was filled from this file, nothing is changed.",
                "Nothing was changed: book 7 was filled from this file before, with 1 pledge.",
            ),
        ):
            open_book(pages)
            part("files")
            browser.fill("#importing", file=path)
            browser.press("#importing button")
            browser.says(asked, "dialog")
            browser.press("dialog button", "Fill book 7")
            browser.says(says, "#files")
            pages.session.bearer(f"1-{secret_of(1)}", "POST", "/books/7/held/redeem", {"paid": 9000})
        is_told_quietly("#importing")
        no_faults()


def a_shops_day():
    """From opening to the till's sum: taken, drawn, repaid at the counter and by the pawnor, redeemed, sold."""
    with Pages() as pages:
        make_book(pages, terms=False)
        fill_book(
            pages,
            book_text(
                [("Old clock", "O1", 9000, ago(220), "", "no"), ("Old ring", "O2", 20000, ago(30), "", "no")],
                rates=(0, 0, 0),
            ),
        )
        open_book(pages)
        the_book_is_read()
        part("shop")
        browser.fill("#shop-form", address="1 High Street, Leeds", till="Till 2")
        browser.press("#shop-form button", "Keep these")
        browser.says("Till 2", "#whose-book")
        receipt, _ = take_a_ring(amount="100")
        browser.says("1 High Street, Leeds", ".paper")
        take_a_ring(article="Teapot", reference="A2", amount="500", kind="running")
        find("A2")
        command("Drawing", "Record the drawing", amount="200.50")
        browser.says("Drawn: £200.50", "#commands")
        find("A1")
        command("Repayment", "Record the repayment", amount="30")
        browser.says("Repaid: £30.00", "#commands")
        pages.session.bearer(receipt, "POST", "/books/7/held/repay", {"pence": 500, "seq": 2})
        find(f"2-{secret_of(2)}")
        browser.says("This receipt is live.", "#commands")
        browser.fill(".action[open] form", amount="200")
        browser.press(".action[open] button", "Redeem")
        agree()
        browser.says("Redeemed on", "#commands")
        find("O1")
        command("Sale", "Record the sale", amount="120.25")
        agree()
        browser.says("Sold for £120.25", "#commands")
        the_till_tells_it()


def the_till_tells_it():
    part("till")
    browser.press("#read-book")
    browser.says("Repaid2: £35.00", "#till-lists")
    sums = browser.run(
        "return Object.fromEntries([...document.querySelectorAll('.sums .facts > div')].map((one) => "
        "[one.firstChild.textContent, one.lastChild.textContent]))"
    )
    expect(
        "the sums", sums,
        {
            "Taken: lent on fixed sums": "£100.00", "Drawn": "£200.50", "Paid out": "£300.50", "Repaid": "£35.00",
            "of which charges": "£0.00", "of which loans": "£200.00", "Redeemed": "£200.00", "Sold, net": "£120.25",
            "Received": "£355.25",
        },
    )
    # The book does not say which till did what, so the sums of a shop with several are those of all its drawers.
    browser.says("Sums of todayof all tills", "#till-lists")
    browser.says("The drawers of all tills together have £54.75 more than at the day’s beginning", "#till-lists")
    browser.fill("#till-lists .float", amount="200")
    browser.press("#till-lists .float button", "Keep the floats")
    browser.says("With their floats of £200.00 they should have £254.75.", "#till-lists")
    browser.shoot("broker-till")
    browser.ask("POST", "/refresh", {})
    browser.says("The drawers of all tills together have £54.75 more", "#till-lists")
    no_faults()


def the_till_has_a_pawnors_payment_once_the_book_is_read_again():
    """It must not say that the payment is among its sums before."""
    with Pages() as pages:
        make_book(pages)
        receipt = pages.session.open_pledge(1)
        open_book(pages)
        the_book_is_read()
        pages.session.bearer(receipt, "POST", "/books/7/held/repay", {"pence": 3000, "seq": 1})
        part("till")
        browser.says("Repaid0: £0.00", "#till-lists")
        browser.says("are in the sums as far as they were made before the book was read", "#till")
        browser.press("#read-book")
        browser.says("Repaid1: £30.00", "#till-lists")
        no_faults()


main(
    (),
    (
        references_are_found, a_number_is_found_with_noughts_before_it,
        a_reference_that_another_till_took_is_not_offered_again,
        what_was_typed_for_one_pledge_is_not_carried_to_another, all_entries_can_be_seen,
        back_reload_and_today, what_is_typed_is_looked_at,
        the_same_file_is_one_import, a_shops_day,
        the_till_has_a_pawnors_payment_once_the_book_is_read_again,
    ),
)
