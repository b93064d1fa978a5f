"""What the broker's page shows where a clerk looks: days of grace, rate and reference, who waits, what is owed, and
what this machine keeps; in a real browser, in front of the program."""
import os

from tests.library.book_texts import row
from tests.library.checks import expect
from tests.library.dates import six_months_after, today
from tests.library.pages.browser import Pages
from tests.library.pages.steps import (
    a_pledge_at_the_counter, ago, an_open_book, book_text, browser, command, fill_book, find, in_short,
    in_words, main, make_book, no_faults, open_book, part, secret_of, show_receipt, take_a_ring, the_book_is_read,
    the_clock_goes_on, unfold,
)

def what_a_pledge_has_beside_its_statement():
    """The days of grace count; reference, agreed end, rate and safe keeping are there, and on the day's sheet."""
    agreed = ago(-400)
    with Pages() as pages:
        make_book(pages, terms=False)
        fill_book(pages, book_text([
            ("Ring", "HS/1", 10000, ago(3), agreed, "yes"), ("Spoon", "HS/2", 10000, ago(200), today(), "yes"),
        ], rates=(2667, 1000000, 500000)))
        pages.session.bearer(f"1-{secret_of(1)}", "POST", "/books/7/held/ask", {"day": str(today()), "window": 2})
        open_book(pages)
        the_book_is_read()
        find("1")
        for says in (
            f"To be kept until {in_words(ago(-405))}", "five days of grace follow", "405 days left", "Reference",
            "HS/1", "Agreed end", in_short(agreed), "Days of grace", "Five", "£8.00 in 30 days on £100",
            "30p in 30 days, after the end 15p in 30 days", f"from {in_short(ago(-406))} on the article may be sold",
        ):
            browser.says(says, "#statement")
        browser.shoot("broker-known")
        part("today")
        for says in (
            "Ring", "reference HS/1; £100.83 owed today", f"ends {in_short(agreed)}, as agreed, with five days of grace",
            "£8.00 in 30 days on £100; safe keeping 30p in 30 days", "Spoon", "reference HS/2",
        ):
            browser.says(says, "#sheet")
        browser.shoot("broker-sheet")
        no_faults()


def the_sheet_is_read_anew():
    """By the tab, by the button, and by itself after a minute, also for visits of the next days."""
    with Pages() as pages:
        make_book(pages)
        receipts = [pages.session.open_pledge(number, article=f"Ring {number}") for number in (1, 2, 3)]
        pages.session.bearer(receipts[2], "POST", "/books/7/held/ask", {"day": str(today()), "window": 5})
        pages.session.broker("POST", "/books/7/pledges/3/decide", {"yes": True})
        open_book(pages)
        the_book_is_read()
        browser.says("Nobody waits for an answer", "#sheet")
        browser.says("Ring 3", "#sheet")
        pages.session.bearer(receipts[0], "POST", "/books/7/held/ask", {"day": str(today()), "window": 2})
        pages.session.bearer(receipts[2], "POST", "/books/7/held/cancel")
        part("today")
        browser.says("Ring 1", "#sheet")
        browser.says("No visit is confirmed for this day.", "#sheet")
        pages.session.bearer(receipts[1], "POST", "/books/7/held/ask", {"day": str(today()), "window": 3})
        browser.rests()
        browser.press("#read-book")
        browser.says("Ring 2", "#sheet")
        pages.session.bearer(receipts[2], "POST", "/books/7/held/ask", {"day": str(ago(-3)), "window": 4})
        browser.rests()
        the_clock_goes_on(65)
        browser.says("Ring 3", "#sheet")
        no_faults()


def dues_are_what_is_owed_and_can_be_ticked_off():
    long_ago = ago(220)
    pledges = [
        ("Clock", "B10", 10000, long_ago, "", "no"), ("Lamp", "B2", 20000, long_ago, "", "no"),
        ("Watch", "Watch-1", 5000, long_ago, "", "no"), ("Brooch", "Watch-2", 6000, long_ago, "", "no"),
        ("Ring", "Ring-1", 10000, ago(30), "", "no"),
    ]
    with Pages() as pages:
        make_book(pages, terms=False)
        fill_book(pages, book_text(pledges, rates=(1000, 0, 0)))
        open_book(pages)
        the_book_is_read()
        part("due")
        browser.says("2: £366.00", "#due-lists")
        browser.says("£122.00", "#due-lists")
        order = "return [...document.querySelectorAll('#due-lists .card')].slice(-2)[0].innerText"
        browser.fill("#due-order", order="day")
        by_day = browser.run(order)
        expect("by day", by_day.index("B10") < by_day.index("B2\n"), True)
        browser.run("const field = document.querySelector('#due-by'); field.value = 'reference'; "
                    "field.dispatchEvent(new Event('change', { bubbles: true }))")
        by_reference = browser.run(order)
        expect("by reference", by_reference.index("B2\n") < by_reference.index("B10"), True)
        days = (six_months_after(long_ago) - long_ago).days
        watch, brooch = 5000 + 5 * days, 6000 + 6 * days
        both, one = (f"{pence / 100:.2f}" for pence in (watch + brooch, brooch))
        browser.says(f"2: £{both}", "#due-lists")
        browser.says("What you tick off as dealt with is kept in this browser: other tills still list it.", "#due-lists")
        browser.press("#due-lists .tick", "Dealt with")
        browser.says(f"1: £{one}", "#due-lists")
        browser.says("Passed and dealt with: 1", "#due-lists")
        browser.shoot("broker-dealt")
        browser.ask("POST", "/refresh", {})
        browser.says("Passed and dealt with: 1", "#due-lists")
        browser.press("#due-lists summary")
        browser.press("#due-lists details .tick", "Dealt with")
        browser.says(f"2: £{both}", "#due-lists")
        part("all")
        browser.says("5 of 5 pledges. Out on loan on 3 open ones: £400.00, with £69.00 of charges today.", "#all")
        browser.fill("#searching", text="Ring")
        browser.says("1 of 5 pledges. Out on loan on 1 open one: £100.00, with £3.00 of charges today.", "#all")
        no_faults()


def what_has_passed_is_listed_with_what_was_owed_then():
    """One that was repaid is listed with nothing, and a running account without what was never drawn."""
    taken = ago(220)
    with Pages() as pages:
        make_book(pages, terms=False)
        text = book_text([("Cup", "A1", 5000, taken, "", "no")], rates=(0, 0, 0)).replace("B,2,1,1", "B,2,1,2")
        fill_book(pages, text + "\n".join([
            row("E", 1, 1, taken, "repay", 5000),
            row("P", 2, "A2", "Pin", "running", 7000, taken, "", "no", 1, "no", taken, "open"),
            row("S", 2, 1, taken, "opening", secret_of(2)), row("E", 2, 1, taken, "draw", 1000),
        ]) + "\n")
        open_book(pages)
        the_book_is_read()
        part("due")
        browser.says("Passed to the shop", "#due-lists")
        browser.says("2: £10.00", "#due-lists")
        sums = "return [...document.querySelectorAll('#due-lists td.number')].map((one) => one.textContent)"
        expect("each sum", browser.run(sums), ["£0.00", "£10.00"])
        browser.says("of what has passed to the shop, what was owed on its last day.", "#due-lead")
        no_faults()


def the_till_parts_what_was_repaid_and_has_a_float():
    with Pages() as pages:
        make_book(pages, terms=False)
        fill_book(pages, book_text(
            [("Ring", "Ring-1", 10000, ago(30), "", "no"), ("Cup", "Ring-2", 5000, ago(30), "", "no")],
            rates=(1000, 0, 0),
        ))
        pages.session.broker("POST", "/books/7/pledges/1/repay", {"pence": 2300, "seq": 1})
        pages.session.bearer(f"2-{secret_of(2)}", "POST", "/books/7/held/redeem", {"paid": 5150})
        open_book(pages)
        the_book_is_read()
        part("till")
        browser.says("£3.00 charges, £20.00 loan", "#till-lists")
        browser.says("£1.50 charges, £50.00 loan", "#till-lists")
        browser.fill("#till-lists .float", amount="50")
        browser.press("#till-lists .float button")
        browser.says("With its float of £50.00 it should have £124.50.", "#till-lists")
        browser.ask("POST", "/refresh", {})
        browser.says("With its float of £50.00 it should have £124.50.", "#till-lists")
        browser.shoot("broker-float")
        expect("the hour is on the print", browser.run(
            "dispatchEvent(new Event('beforeprint')); "
            r"return / at \d\d:\d\d\.$/.test(document.querySelector('#paper-head').textContent)"
        ), True)
        no_faults()


def a_float_of_one_drawer_is_not_that_of_all():
    """Where the till gets a name, the shop has several drawers: what was kept of one is not said of all."""
    with an_open_book():
        the_book_is_read()
        take_a_ring()
        part("till")
        browser.fill("#till-lists .float", amount="250")
        browser.press("#till-lists .float button", "Keep the float")
        browser.says("With its float of £250.00 it should have £150.00.", "#till-lists")
        name_the_till("Till 2")
        browser.says("The drawers of all tills together have £100.00 less than at the day’s beginning", "#till-lists")
        expect("their floats are not known", "With their floats" in browser.text("#till-lists"), False)
        expect("nor typed", browser.run("return document.querySelector('#till-lists .float [name=amount]').value"), "")
        browser.fill("#till-lists .float", amount="400")
        browser.press("#till-lists .float button", "Keep the floats")
        browser.says("With their floats of £400.00 they should have £300.00.", "#till-lists")
        name_the_till("")
        browser.says("With its float of £250.00 it should have £150.00.", "#till-lists")
        no_faults()


def name_the_till(name):
    """Gives this till a name, and goes back to its sums."""
    part("shop")
    browser.fill("#shop-form", till=name)
    browser.press("#shop-form button")
    browser.says("Kept in this browser.", "#shop-form")
    part("till")


def the_sum_of_a_line_is_named():
    """In the list of all pledges it is the credit: a repayment does not change it, and a limit is not lent."""
    with Pages() as pages:
        make_book(pages)
        pages.session.open_pledge(1)
        pages.session.open_pledge(2, kind="running", pence=50000, article="Teapot")
        pages.session.broker("POST", "/books/7/pledges/1/repay", {"pence": 4000, "seq": 1})
        open_book(pages)
        part("all")
        browser.says("2 of 2 pledges. Out on loan on 2 open ones: £60.00", "#all")
        browser.says("The sum of a line is the credit: what was lent at first, or the limit of an account.", "#all")
        browser.resize(1280)
        browser.says("£500.00\nlimit", "#all-rows")
        browser.shoot("broker-credit")
        browser.resize(390)
        no_faults()


def an_import_tells_of_the_other_book():
    with Pages() as pages:
        make_book(pages, terms=False)
        path = os.path.join(pages.room, "book.csv")
        with open(path, "w") as it:
            it.write(book_text([("Ring", "J9", 9000, ago(3), "", "no")]))
        open_book(pages)
        part("files")
        browser.fill("#importing", file=path)
        browser.press("#importing button")
        browser.press("dialog button", "Fill book 7")
        browser.says("Each receipt now opens its pledge in this book, and in the book that the file", "#files")
        browser.says("Record nothing in that one any more, and ask the operator of the service to remove it.", "#files")
        browser.says("name the old book, so print the receipts again", "#files")


def a_file_that_is_no_book_is_not_asked_about():
    """It would be refused. A book whose fields are in quotes is one, and its pledges are counted."""
    with Pages() as pages:
        make_book(pages, terms=False)
        whole = book_text([("Ring", "J9", 9000, ago(3), "", "no"), ("Spoon", "J10", 9000, ago(3), "", "no")])
        quoted = "\ufeff" + whole.replace("\n", "\r\n").replace("B,2,1,2,", 'B,"2","1","2",').replace("row,c1,", '"row","c1",')
        open_book(pages)
        for name, text in (("notes.txt", "hello"), ("empty.csv", ""), ("sheet.csv", whole.replace(",", ";"))):
            put_file(pages, name, text)
            browser.says("The file does not begin with the heading of an exported book. (Row 1 of the file.)", "#importing")
            expect("no question", browser.run("return document.querySelector('dialog')"), None)
        put_file(pages, "book.csv", quoted)
        browser.says("book.csv, with 2 pledges.", "dialog")
        browser.press("dialog button", "Fill book 7")
        browser.says("The book is filled: 2 pledges came.", "#files")
        no_faults()


def put_file(pages, name, text):
    """Chooses a file of this text to fill the open book with."""
    path = os.path.join(pages.room, name)
    with open(path, "w", newline="") as it:
        it.write(text)
    part("files")
    browser.rests()
    browser.fill("#importing", file=path)
    browser.press("#importing button")


# No reply ever comes to a repayment, nor to a look after it.
HANG = """
const real = window.fetch;
let hangs = false;
window.fetch = (path, how) => {
  hangs ||= path.endsWith("/repay");
  if (!hangs) return real(path, how);
  return new Promise((_, fail) => how.signal?.addEventListener("abort", () => fail(new TypeError("ended"))));
};"""


def a_reply_that_hangs_is_not_waited_for():
    with a_pledge_at_the_counter() as (pages, _):
        browser.says("£100.00 owed today", "#statement")
        browser.run(HANG)
        command("Repayment", "Record the repayment", amount="10")
        browser.says("The service has not answered yet.", "#commands", patience=8)
        browser.says("so this may have been done", "#commands", patience=40)


def what_is_typed_stays_while_a_pledge_is_drawn_anew():
    """Another fold that is open, with what was typed in it; and the fold that was done is closed."""
    with a_pledge_at_the_counter() as (pages, _):
        browser.says("£100.00 owed today", "#statement")
        command("Put on hold", "Hold")
        browser.says("it can’t be redeemed", "#commands")
        unfold("Release the hold")
        browser.press(".action > summary", "Repayment")
        browser.run("const form = [...document.querySelectorAll('.action')]"
                    ".find((one) => one.firstChild.textContent === 'Repayment').querySelector('form'); "
                    "form.elements.amount.value = '12.34'")
        browser.press(".action[open] button", "Release")
        browser.says("The hold is released.", "#commands")
        browser.until("return ![...document.querySelectorAll('summary')].some(({ textContent }) => "
                      "textContent === 'Release the hold')", "the pledge drawn anew")
        found = browser.run(
            "return [...document.querySelectorAll('.action[open]')].map((one) => "
            "[one.firstChild.textContent, one.querySelector('form')?.elements.amount?.value])"
        )
        expect("what is open", found, [["Repayment", "12.34"]])
        no_faults()


def what_is_typed_stays_while_the_book_is_read():
    """A day that was typed and not shown yet, and a float that was not kept yet."""
    with an_open_book():
        the_book_is_read()
        for name, form, field, typed in (
            ("today", "#sheet-day", "day", str(ago(-9))), ("till", "#till-day", "day", str(ago(-9))),
            ("till", "#till-lists .float", "amount", "12.50"),
        ):
            part(name)
            browser.fill(form, **{field: typed})
            browser.rests()
            browser.press("#read-book")
            browser.rests()
            the_book_is_read()
            found = browser.run("return document.querySelector(arguments[0]).value", f"{form} [name={field}]")
            expect(f"{name}: what is typed", found, typed)
        no_faults()


def the_parts_take_one_row():
    with an_open_book():
        the_book_is_read()
        browser.resize(390)
        expect("one row of parts", browser.run(
            "return new Set([...document.querySelectorAll('#places a')].map((one) => one.offsetTop)).size"), 1)
        part("shop")
        browser.until(
            "const box = document.querySelector('#places a[aria-current]').getBoundingClientRect(); "
            "return box.left >= 0 && box.right <= innerWidth && document.title.startsWith('Shop')",
            "the part that is shown in view",
        )


def the_pledge_that_was_found_has_the_focus():
    with a_pledge_at_the_counter():
        browser.until("return document.activeElement.matches('#statement h2')", "the focus on the pledge")


def a_dead_receipt_is_told_alike_where_it_is_found_and_redeemed():
    with an_open_book() as pages:
        first, _ = take_a_ring()
        pages.session.broker("POST", "/books/7/pledges/1/declare", {"paper": "sworn"})
        find(first)
        said = f"This receipt is not live: a newer one took its place on {in_short(today())}."
        browser.says(said, "#commands")
        command("Redeem by the paper", "Redeem", receipt=first.replace("-", " "), amount="100")
        browser.says(said, "#commands .action[open]")
        no_faults()


# The lines of the list of all pledges: the words of each, and which of its parts are cut off.
LINES = """return [...document.querySelectorAll('#all-rows .row-link')].map((one) => [
  one.innerText.split(/\\s*\\n\\s*/).join(' / '),
  [...one.querySelectorAll('.row-state, .row-state *, .row-sum')]
    .filter((part) => part.scrollWidth > part.clientWidth + 1).map(({ textContent }) => textContent),
])"""


def a_line_is_seen_whole_on_a_telephone():
    """Its end with the year, and its sum; and an end that is over is not said to come."""
    with Pages() as pages:
        make_book(pages, terms=False)
        fill_book(pages, book_text([
            ("Silver cup", "J3", 9000, "2020-01-01", "2020-09-30", "no"), ("Ring", "J1", 9000, ago(300), "", "no"),
            ("Gold watch with a long name", "J2", 10_000_000, ago(20), "2199-09-30", "no"),
        ]))
        open_book(pages)
        the_book_is_read()
        part("all")
        browser.says("3 of 3 pledges", "#all")
        for width in (320, 390, 1280):
            browser.resize(width)
            (later, cut), (over, also), (long, too) = browser.run(LINES)
            expect(f"what is cut off at {width}", cut + also + too, [])
            expect("the longest end", "ended 30 September 2020" in long, True)
            expect("the sum", ("£100,000.00" in later, "£90.00" in over), (True, True))
            expect("the end to come", "ends 30 September 2199" in later, True)
            expect("the end that is over", f"ended {in_short(six_months_after(ago(300)))}" in over, True)
        browser.resize(390)
        no_faults()


def a_hold_is_seen_where_bags_are_pulled():
    """Or the article would be sold before the question about the sale says that the pledge is on hold."""
    with Pages() as pages:
        make_book(pages, terms=False)
        fill_book(pages, book_text([
            ("Clock", "J1", 9000, ago(220), "", "no"), ("Watch", "J2", 9000, ago(220), "", "no"),
        ]))
        held = pages.session.broker("POST", "/books/7/pledges/2/hold")
        expect("the hold", held, (200, {"held": True}))
        open_book(pages)
        the_book_is_read()
        part("due")
        browser.says("Can be sold now", "#due")
        rows = browser.run("return [...document.querySelectorAll('#due-lists tbody tr')].map((one) => one.innerText)")
        expect("on hold", [("On hold" in row, "Watch" in row) for row in rows], [(False, False), (True, True)])
        browser.shoot("broker-due-held")
        no_faults()


def a_shortfall_is_no_debt_of_the_pawnor():
    with Pages() as pages:
        make_book(pages, terms=False)
        fill_book(pages, book_text([("Clock", "J1", 9000, ago(300), "", "no")]))
        expect("a sale", pages.session.broker("POST", "/books/7/pledges/1/sell", {"net": 1000})[0], 200)
        show_receipt(pages, f"1-{secret_of(1)}")
        browser.says("less than was owed. The shop’s book notes that, and keeps no debt of it", "#cards")
        no_faults()


main(
    (),
    (
        what_a_pledge_has_beside_its_statement, the_sheet_is_read_anew, dues_are_what_is_owed_and_can_be_ticked_off,
        what_has_passed_is_listed_with_what_was_owed_then, the_till_parts_what_was_repaid_and_has_a_float,
        a_float_of_one_drawer_is_not_that_of_all, the_sum_of_a_line_is_named, an_import_tells_of_the_other_book,
        a_file_that_is_no_book_is_not_asked_about,
        a_reply_that_hangs_is_not_waited_for, what_is_typed_stays_while_a_pledge_is_drawn_anew,
        what_is_typed_stays_while_the_book_is_read, the_parts_take_one_row,
        the_pledge_that_was_found_has_the_focus, a_dead_receipt_is_told_alike_where_it_is_found_and_redeemed,
        a_line_is_seen_whole_on_a_telephone, a_hold_is_seen_where_bags_are_pulled, a_shortfall_is_no_debt_of_the_pawnor,
    ),
)
