"""What the pages put on paper: a receipt on one A5, and all else on A4 with all that it has; in a real browser, in
front of the program."""
import datetime
import re
import subprocess
import tempfile

from tests.library.checks import expect, not_tried
from tests.library.dates import six_months_after, today
from tests.library.packages import PACKAGES, missing, provide
from tests.library.pages.browser import Pages
from tests.library.pages.square_code import READER, text_of_code
from tests.library.pages.steps import (
    ago, an_open_book, book_text, browser, command, fill_book, find, in_short, in_words, main, make_book, no_faults,
    open_book, part, show_receipt, take_a_ring, the_book_is_read,
)

TEXTS = {"pdftotext": "poppler-utils"}
A4, A5 = [210, 297], [148, 210]


def pages_of(pdf):
    """How many pages there are, and the sizes that they have, in millimetres."""
    boxes = re.findall(rb"/MediaBox\s*\[([^\]]*)\]", pdf)
    sizes = {tuple(round(float(side) / 72 * 25.4) for side in box.split()[2:]) for box in boxes}
    return len(re.findall(rb"/Type\s*/Page\b", pdf)), sorted(map(list, sizes))


def text_of(pdf):
    """The text on the paper; nothing where there is no reader of it."""
    if missing(TEXTS):
        return None
    with tempfile.NamedTemporaryFile(suffix=".pdf") as it:
        it.write(pdf)
        it.flush()
        ran = subprocess.run(["pdftotext", "-raw", it.name, "-"], capture_output=True, text=True, timeout=30)
    return " ".join(ran.stdout.split())


def is_printed(name, size, *says, never=()):
    pdf = browser.print(name)
    count, sizes = pages_of(pdf)
    expect(f"{name}: the size of its pages", sizes, [size])
    text = text_of(pdf)
    if text is not None:
        expect(f"{name}: what is missing on paper", [part_said for part_said in says if part_said not in text], [])
        expect(f"{name}: what paper does not want", [said for said in never if said in text], [])
    return count


def a_receipt_is_one_a5():
    with an_open_book() as pages:
        part("shop")
        browser.fill(
            "#shop-form", name="High Street Pawnbrokers and Jewellers of Leeds, since 1884",
            address="123 Upper High Street, Headingley, Leeds LS6 1AA, telephone 0113 496 0000", till="Till 2",
        )
        browser.press("#shop-form button", "Keep these")
        browser.says("Kept in this browser.", "#shop")
        receipt, link = take_a_ring(
            article="Eighteen-carat gold ring with a sapphire and two small diamonds, in a red case",
            reference="GR-2026/0001", five="yes", agreed=str(ago(-300)),
        )
        path, box = browser.run(
            "const code = document.querySelector('.paper svg'); "
            "return [code.firstChild.getAttribute('d'), code.getAttribute('viewBox')]"
        )
        if not missing(READER):
            expect("the code", text_of_code(path, box), link)
        says = (
            "High Street Pawnbrokers", "123 Upper High Street", "reference GR-2026/0001", "Lent £100.00",
            in_words(ago(-300)), "Days of grace after it Five", f"Agreed end {in_short(ago(-300))}",
            "£8.00 in 30 days on £100", "Safe keeping no charge", receipt, "Customer’s name",
            "For the shop, Till 2", "Received by", "Keep this paper safe",
        )
        expect("one page", is_printed("receipt", A5, *says, never=("Take the pledge", "The book was read")), 1)
        browser.shoot("broker-receipt-full")
        find("1")
        command("Print the receipt again", "Print the receipt again")
        browser.press("dialog button", "Print it again")
        browser.says("it is live", "#commands")
        expect(
            "one page again",
            is_printed("receipt-again", A5, receipt, "Agreed end", never=("owed today", "Redeem by the paper")), 1,
        )
        no_faults()


def a_paper_that_is_printed_again_says_what_is_still_lent():
    """Once something was repaid or drawn, the first sum is not what is owed."""
    with an_open_book() as pages:
        take_a_ring()
        take_a_ring(article="Teapot", reference="A2", kind="running", amount="500")
        pages.session.broker("POST", "/books/7/pledges/1/repay", {"pence": 4000, "seq": 1})
        pages.session.broker("POST", "/books/7/pledges/2/draw", {"pence": 12000, "seq": 1})
        for number, says in (
            (1, ("Lent at first £100.00", f"Lent and not repaid on {in_short(today())} £60.00")),
            (2, ("Credit up to £500.00", f"Lent and not repaid on {in_short(today())} £120.00")),
        ):
            find(str(number))
            command("Print the receipt again", "Print the receipt again")
            browser.press("dialog button", "Print it again")
            browser.says("it is live", "#commands")
            expect("one page", is_printed(f"receipt-of-rest-{number}", A5, *says), 1)
        no_faults()


# The computer's zone, and its clock at half past midnight there, which is the day before by UTC.
HALF_PAST_MIDNIGHT = """{
  const real = Date;
  const more = real.parse("2026-07-14T23:30:00Z") - real.now();
  window.Date = class Night extends real {
    constructor(...given) { if (given.length) super(...given); else super(real.now() + more); }
    static now() { return real.now() + more; }
  };
  const get = Headers.prototype.get;
  Headers.prototype.get = function told(name) {
    const said = get.call(this, name);
    return said && name === "Date" ? new real(real.parse(said) + more).toUTCString() : said;
  };
}"""

def the_day_and_the_hour_of_printing_are_of_one_clock():
    """In summer, in the first hour of a day, the service's day is still the day before."""
    browser.devtools("Emulation.setTimezoneOverride", timezoneId="Europe/London")
    night = browser.devtools("Page.addScriptToEvaluateOnNewDocument", source=HALF_PAST_MIDNIGHT)
    try:
        with an_open_book():
            the_book_is_read()
            part("till")
            browser.run("dispatchEvent(new Event('beforeprint'))")
            said = browser.run("return document.querySelector('#paper-head').textContent")
            expect("when it was printed", said.split(". ")[-1], "Printed on 15 July 2026 at 00:30.")
    finally:
        browser.devtools("Page.removeScriptToEvaluateOnNewDocument", **night)
        browser.devtools("Emulation.setTimezoneOverride", timezoneId="")


def a_tag_is_a_small_paper():
    """After a take, in the receipt's place, and without the receipt's secret."""
    with an_open_book():
        receipt, _ = take_a_ring(article="Gold ring", reference="HS/1", five="yes")
        browser.press("#taken-receipt button", "Show the tag for the bag")
        last = in_short(six_months_after(today()) + datetime.timedelta(days=5))
        says = ("HS/1", "Gold ring", f"Until {last}", "Book 7. £100.00")
        expect("one page", is_printed("tag", [100, 62], *says, never=(receipt.split("-", 1)[1], "Keep this paper")), 1)
        browser.press("#taken-receipt button", "Show the receipt")
        expect("and the receipt again", is_printed("receipt-back", A5, receipt), 1)
        no_faults()


def a_receipt_without_more():
    """No agreed end, no days of grace, no shop: it says so."""
    with an_open_book() as pages:
        part("shop")
        browser.fill("#shop-form", name="", address="", till="")
        browser.press("#shop-form button", "Keep these")
        browser.says("Kept in this browser.", "#shop")
        take_a_ring()
        expect(
            "one page",
            is_printed(
                "receipt-plain", A5, "Pawnbroker", "Days of grace after it None", "Agreed end None: six months",
                in_words(six_months_after(today())),
            ),
            1,
        )


LONG = "An article with a very long name, that goes on and on, to eighty letters at most"
# Lists come from the copy of the book in the page, which lacks what other tills did since.
AS_READ = "By the book as it was read "


def all_else_goes_on_a4():
    with Pages() as pages:
        make_book(pages, terms=False)
        pledges = [
            (f"Article {number}", f"J{number}", 9000 + number, ago(220), ago(-5) if number < 60 else "", "no")
            for number in range(1, 121)
        ]
        pledges.append((LONG, "J121", 100_000_000, ago(1), "", "no"))
        fill_book(pages, book_text(pledges, rates=(0, 0, 0)))
        for seq in range(1, 31):
            pages.session.broker("POST", "/books/7/pledges/1/repay", {"pence": 100 + seq, "seq": seq})
        open_book(pages)
        the_book_is_read()
        never = ("Read the book again", "What you can do now", "Record the repayment", "Close the book")
        browser.says("No visit is confirmed", "#sheet")
        is_printed(
            "paper-today", A4, f"Today, {in_words(today())}", "No visit is confirmed", "By the sheet as it was read ",
            never=never,
        )
        find("1")
        browser.says("The last 12 of 30", "#statement")
        is_printed(
            "paper-statement", A4, "Article 1", "reference J1", f"owed on {in_short(today())}",
            "High Street Pawnbrokers", "£1.01", "£1.30", "Payments and drawings",
            never=(*never, "The last 12", "owed today", "Find a pledge", AS_READ),
        )
        browser.says("The last 12 of 30", "#statement")
        part("due")
        browser.says("Can be sold now", "#due")
        is_printed(
            "paper-due", A4, "Can be sold now", "Article 59", "Article 120", "Ends within 7 days", AS_READ,
            never=(*never, "Show 31 more", "in 5 days"),
        )
        part("till")
        browser.says("Sums of today", "#till")
        is_printed("paper-till", A4, "Sums of today", "Repaid", "£34.65", AS_READ, never=never[1:])
        part("all")
        browser.says("121 of 121 pledges", "#all")
        count = is_printed(
            "paper-all", A4, "Article 1 ", "Article 60", "Article 120", f"{LONG} J121", "£1,000,000.00", AS_READ,
            never=never,
        )
        expect(f"121 pledges are on at most four pages, and not on {count}", count <= 4, True)
        expect(
            "the screen has its few rows again", browser.run("return document.querySelectorAll('.row').length") < 40,
            True,
        )
        show_receipt(pages, "1-00000001-0000-4000-8000-000000000000")
        browser.says("owed today", "#cards")
        is_printed(
            "paper-pawnor", A4, "Article 1", f"owed on {in_short(today())}", "£1.01", "£1.30",
            never=("What you can do now", "Print this page"),
        )
        no_faults()


def a_sheet_of_another_day_counts_no_days_from_today():
    """It is printed before, and used on its own day."""
    day, asked = ago(-2), ago(-5)
    with Pages() as pages:
        make_book(pages)
        receipt = pages.session.open_pledge(1)
        pages.session.bearer(receipt, "POST", "/books/7/held/ask", {"day": str(asked), "window": 3})
        open_book(pages)
        the_book_is_read()
        browser.says(f"{in_short(asked)}, in 5 days, 10:30 to 11:00", "#sheet")
        browser.fill("#sheet-day", day=str(day))
        browser.press("#sheet-day button", "Show")
        browser.says(f"{in_words(day)}, in 2 days", "#sheet-title")
        browser.rests()
        browser.says(f"{in_short(asked)}, 10:30 to 11:00", "#sheet")
        is_printed("paper-ahead", A4, in_words(day), f"{in_short(asked)}, 10:30", never=("in 2 days", "in 5 days"))
        part("till")
        browser.fill("#till-day", day=str(ago(4)))
        browser.press("#till-day button", "Show")
        browser.says(f"Till, {in_words(ago(4))}, 4 days ago", "#till-title")
        is_printed("paper-till-before", A4, f"Till, {in_words(ago(4))}", never=("4 days ago",))
        no_faults()


provide({**PACKAGES, **TEXTS, **READER})
for what, reader in (("the text on the paper", TEXTS), ("what its square code says", READER)):
    if missing(reader):
        not_tried(what, f"there is no {missing(reader)[0]}")
main(
    (),
    (
        a_receipt_is_one_a5, a_paper_that_is_printed_again_says_what_is_still_lent,
        the_day_and_the_hour_of_printing_are_of_one_clock, a_tag_is_a_small_paper, a_receipt_without_more,
        all_else_goes_on_a4, a_sheet_of_another_day_counts_no_days_from_today,
    ),
)
