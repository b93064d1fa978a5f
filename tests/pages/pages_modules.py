"""The pages' modules by themselves, in the browser's own engine: days, amounts, statements, sheets, books, receipts,
terms, periods, references, codes."""
import datetime
import re

from tests.library.book_texts import row
from tests.library.checks import expect, not_tried
from tests.library.dates import six_months_after, today
from tests.library.keys import BROKER, OPERATOR
from tests.library.packages import missing, provide
from tests.library.pages.browser import Pages
from tests.library.pages.square_code import READER, text_of_code
from tests.library.pages.steps import ago, book_text, browser, files, fill_book, in_words, main, no_faults, read

# Texts that broke others' pages: a line that only some call a line, quotes, commas, markup, from right to left, a mark
# that turns the direction round.
HOSTILE = (
    "Ring\u2028Kind fixed 1.00", "\u2029", '"Big" clock', '""', 'a,b,"c",', "<img src=x onerror=document.title='ran'>",
    "خاتم ذهب", "\u202egnir dloG\u202c", "\ufeffring", "Owing 0.00", "Booking none", "Ring \\n", "' OR 1=1 --",
    "=1+1", "\U0001f48d ring", "é" * 40,
)


def in_page(script, *given):
    return browser.run_later(script, *given)


def on_a_page(test):
    """A test of modules: a page is open, and its console says nothing."""
    def tried():
        with Pages() as pages:
            pages.with_modules()
            browser.go(pages.address + "/")
            test(pages)
            no_faults()
    tried.__name__ = test.__name__
    return tried


@on_a_page
def days_and_amounts_as_people_write_them(_):
    first = datetime.date(2024, 1, 31)
    days = [
        first + datetime.timedelta(days=step)
        for step in range(0, 800, 7)
    ] + [datetime.date(2023, 8, month) for month in (29, 30, 31)]
    told = in_page(
        "const days = await import('/shared/days.js'); "
        "return given[0].map((day) => [days.inWords(day), days.sixMonthsAfter(day), days.daysBetween(given[0][0], "
        "day)])",
        [str(day) for day in days],
    )
    expect("days", told, [[in_words(day), str(six_months_after(day)), (day - first).days] for day in days])
    amounts = {"100": 10000, "£99.50": 9950, "1,000": 100000, "£1,234,567.89": 123456789, " 0.01 ": 1, "0": 0, "£ 150.50": 15050}
    expect(
        "amounts",
        in_page(
            "const money = await import('/shared/money.js'); return given[0].map((text) => money.readPounds(text))",
            list(amounts),
        ),
        list(amounts.values()),
    )
    none = ["", "1.5", "1,00", "-1", "1e3", "10.000", "ten", "1,0000", "１００", "1 000", "£ 150.5", "20.-", "150,50"]
    told = in_page(
        "const money = await import('/shared/money.js'); "
        "return given[0].filter((text) => { try { money.readPounds(text); return true; } catch { return false; } })",
        none,
    )
    expect("what is no amount", told, [])
    told = in_page(
        "const money = await import('/shared/money.js'); return given[0].map((pence) => money.inPounds(pence))",
        [0, 5, 10000, 123456789],
    )
    expect("pounds", told, ["£0.00", "£0.05", "£100.00", "£1,234,567.89"])
    browser.shoot("doors")


STATEMENT = (
    "Pledge 3\nArticle {article}\nKind running 500.00\nTaken 2024-01-31\nEnds 2024-09-30\n"
    "Extended 2024-02-01 to 2024-08-31\nExtended 2024-03-01 to 2024-09-30\nStatus inside\n"
    "Principal 120.00\nCharges 1.05\nOwing 121.05\nHeld yes\nBooking 2024-03-04 3 asked\n"
    "Entry 1 2024-02-01 draw 130.00\nEntry 2 2024-02-01 repay 10.00\n"
)


@on_a_page
def statements_are_read(_):
    script = (
        "const { readStatement } = await import('/shared/statement.js'); "
        "return given[0].map((text) => { try { return readStatement(text); } catch { return null; } })"
    )
    read_all = in_page(script, [STATEMENT.format(article=article) for article in HOSTILE])
    expect("each article as it is", [one and one["article"] for one in read_all], list(HOSTILE))
    one = read_all[0]
    expect(
        "its parts", [one[name] for name in ("number", "kind", "credit", "taken", "ends", "status", "held", "nextSeq")],
        [3, "running", 50000, "2024-01-31", "2024-09-30", "inside", True, 3],
    )
    expect(
        "its lists", (one["extensions"][1], one["owed"], one["booking"], one["entries"][0]),
        (
            ["2024-03-01", "2024-09-30"], {"principal": 12000, "charges": 105, "owing": 12105},
            {"day": "2024-03-04", "window": 3, "state": "asked"},
            {"seq": 1, "day": "2024-02-01", "sort": "draw", "pence": 13000},
        ),
    )
    good = STATEMENT.format(article="Ring")
    passed = re.sub(
        r"Principal.*\n|Charges.*\n|Owing.*\n", "", good,
    ).replace("Status inside", "Status passed").replace("Booking 2024-03-04 3 asked", "Booking none")
    closed = [
        good.replace("Entry 1", f"{line}\nEntry 1")
        for line in ("Redeemed 2024-03-01 paid 121.05", "Sold 2024-10-01 net 90.00 surplus 0.00 shortfall 31.05")
    ]
    told = in_page(script, [passed, *closed])
    expect(
        "passed, redeemed, sold", [told[0]["owed"], told[0]["booking"], told[1]["closing"], told[2]["closing"]],
        [
            None, None, {"day": "2024-03-01", "paid": 12105},
            {"day": "2024-10-01", "net": 9000, "surplus": 0, "shortfall": 3105},
        ],
    )
    bad = [
        good[:-1], good + "More\n", good.replace("Status", "State"), good.replace("121.05", "121.5"), "",
        "Unknown receipt\n", good.replace("Kind running 500.00\n", ""),
    ]
    expect("what is no statement", in_page(script, bad), [None] * len(bad))


@on_a_page
def sheets_are_read(_):
    script = (
        "const { readSheet } = await import('/shared/sheet.js'); try { return readSheet(given[0]); "
        "} catch { return null; }"
    )
    sheet = in_page(
        script,
        "Day sheet 2024-03-04\nWindow 3 confirmed 2 of 2\nPledge 1\nPledge 12\nWindow 15 confirmed 1 of 2\nPledge 4\n"
        "Asked 1\nPledge 2 window 3\nEnds 2\nPledge 5\nPledge 6\n",
    )
    expect(
        "a full sheet", (sheet["day"], sheet["windows"], sheet["asked"], sheet["ends"]),
        (
            "2024-03-04",
            [{"window": 3, "capacity": 2, "pledges": [1, 12]}, {"window": 15, "capacity": 2, "pledges": [4]}],
            [{"number": 2, "window": 3}], [5, 6],
        ),
    )
    empty = in_page(script, "Day sheet 2024-03-04\nAsked 0\nEnds 0\n")
    expect("an empty one", (empty["windows"], empty["asked"], empty["ends"]), ([], [], []))
    expect("another text", in_page(script, "Day sheet 2024-03-04\nAsked 0\nClosed 3\nEnds 0\n"), None)


READ_BOOK = (
    "const { readBook } = await import('/shared/book.js'); "
    "return given[0].map((text) => { try { return readBook(text); } catch { return null; } })"
)


@on_a_page
def books_of_both_versions_are_read(pages):
    pledges = [
        (article, f"R{place}", 9000 + place, ago(200), ago(-3) if place % 2 else "", "yes" if place % 3 else "no")
        for place, article in enumerate(HOSTILE)
    ]
    both = in_page(READ_BOOK, [book_text(pledges, version=version) for version in (1, 2)])
    expect("the same of both versions", both[0], both[1])
    expect("each article", [pledge["article"] for pledge in both[0]["pledges"]], list(HOSTILE))
    with_more = book_text(pledges[:1]) + "\n".join(
        [row("E", 1, 1, ago(3), "repay", 500), row("X", 1, 1, ago(2), ago(-300)), row("K", 1, ago(-2), 15, "asked")]
    ) + "\n"
    one = in_page(READ_BOOK, [with_more])[0]["pledges"][0]
    expect(
        "its lists", (one["entries"], one["extensions"], one["booking"], one["ends"]),
        (
            [{"seq": 1, "day": str(ago(3)), "sort": "repay", "pence": 500}], [[str(ago(2)), str(ago(-300))]],
            {"day": str(ago(-2)), "window": 15, "state": "asked"}, str(ago(-300)),
        ),
    )
    whole = book_text(pledges)
    bad = [
        whole[:-1], whole[:whole.rindex("P,")], whole.replace("B,2", "B,3"), "", "row\n", whole + "Q" + "," * 14 + "\n",
    ]
    expect("what is no whole book", in_page(READ_BOOK, bad), [None] * len(bad))
    as_the_service_writes_it(pages)


def as_the_service_writes_it(pages):
    """Hostile articles and references through the service, and its own export read."""
    pages.session.open_book()
    allowed = [article for article in HOSTILE if len(article.encode()) <= 80]
    for number, article in enumerate(allowed, 1):
        pages.session.open_pledge(number, article=article, ref=f"{number}{article}"[:12])
    _, text = pages.session.broker("GET", "/books/7/export")
    found = in_page(READ_BOOK, [text])[0]["pledges"]
    expect(
        "the service's own text", [(one["article"], one["reference"]) for one in found],
        [(article, f"{number}{article}"[:12]) for number, article in enumerate(allowed, 1)],
    )
    live = in_page("const { liveReceipt } = await import('/shared/book.js'); return given[0].map(liveReceipt)", found)
    expect(
        "their receipts", [pages.session.bearer(receipt, "GET", "/books/7/held")[0] for receipt in live],
        [200] * len(live),
    )


@on_a_page
def the_status_of_a_pledge(pages):
    """By the page and by the service, with grace, extensions and small sums."""
    long_ago, now = ago(220), today()
    pledges = [
        ("A", "S1", 10000, long_ago, "", "no"), ("B", "S2", 7500, long_ago, "", "no"),
        ("C", "S3", 9000, long_ago, ago(2), "yes"), ("D", "S4", 8000, long_ago, now, "no"),
        ("E", "S5", 20000, now, "", "no"), ("F", "S6", 5000, long_ago, ago(9), "yes"),
        ("G", "S7", 7501, long_ago, "", "yes"), ("H", "S8", 5000, ago(186), "", "yes"),
        ("I", "S9", 9000, long_ago, ago(5), "yes"), ("J", "S10", 9000, long_ago, ago(6), "yes"),
    ]
    made = pages.session.ask("POST", "/books/7", {"capacity": 2, "key": BROKER, "name": "x"}, Pledge_Key=OPERATOR)
    expect("a book", made[0], 200)
    fill_book(pages, book_text(pledges))
    told = in_page(
        "const { readBook } = await import('/shared/book.js'); "
        "const { statusOn } = await import('/shared/period.js'); "
        "return readBook(given[0]).pledges.map((pledge) => statusOn(pledge, given[1]))",
        book_text(pledges), str(now),
    )
    by_service = [
        re.search(r"^Status (.*)$", pages.session.broker("GET", f"/books/7/pledges/{number}")[1], re.M)[1]
        for number in range(1, len(pledges) + 1)
    ]
    expect("the page and the service", told, by_service)
    expect(
        "each as it was meant", by_service[:7],
        ["realisable", "passed", "grace", "inside", "inside", "realisable", "realisable"],
    )


@on_a_page
def receipts_references_and_terms(_):
    receipt = "3-da41597c-5157-488d-7724-e03fb8d84a37"
    spelled = [
        receipt, receipt.upper(), receipt.replace("-", "\u2013"), "3 - da41597c 5157 488d 7724 e03fb8d84a37",
        "3-{da41597c-5157-488d-7724-e03fb8d84a37}", "3-urn:uuid:da41597c-5157-488d-7724-e03fb8d84a37",
        f"my receipt: {receipt}.", "\u200b" + receipt, receipt.replace("-", " "), receipt.replace("-", "  \t"),
    ]
    script = "const { receiptsIn } = await import('/shared/receipts.js'); return given[0].map(receiptsIn)"
    expect("one receipt in each", in_page(script, spelled), [[receipt]] * len(spelled))
    expect("two in one line", in_page(script, [f"{receipt} 4-{receipt[2:]}"]), [[receipt, f"4-{receipt[2:]}"]])
    none = ["A1", "3-da41", "2024-01-31", receipt[:-1], receipt + "0", "03-" + receipt[2:], "3-" + "g" * 32]
    expect("none in these", in_page(script, none), [[]] * len(none))
    upper = f"#BOOK=7&RECEIPT={receipt.upper()}"
    found = in_page("const { ofFragment } = await import('/shared/receipts.js'); return ofFragment(given[0])", upper)
    expect("a link in capitals", [(one["book"], one["receipt"]) for one in found], [("7", receipt)])
    fragment = f"#book=7&receipt={receipt}&shop={'x' * 90}&rate=a&receipt=4-{receipt[2:]}"
    found = in_page("const { ofFragment } = await import('/shared/receipts.js'); return ofFragment(given[0])", fragment)
    expect(
        "a link", [(one["book"], one["receipt"], len(one["shop"]), one["rate"]) for one in found],
        [("7", receipt, 60, ""), ("7", f"4-{receipt[2:]}", 60, "")],
    )
    lists = {
        ("A1", "A2"): "A3", ("T099", "T100"): "T101", ("A1", "B2"): None, ("A1",): None, ("A3", "A1", "A2"): "A4",
        ("x 9b", "x 10b"): "x 11b", ("A2", "a3", "A1", "A2"): "A4", ("1", "2"): "3", (): None, ("A8", "A9"): "A10",
    }
    script = (
        "const { nextReference } = await import('/broker/references.js'); "
        "return given[0].map((list) => nextReference(list.map((reference) => ({ reference }))))"
    )
    expect("the next of a series", in_page(script, [list(one) for one in lists]), list(lists.values()))
    rates = [(0, 0, 0), (2667, 0, 0), (2667, 1000000, 500000), (0, 33333, 33333), (20000, 10000000, 0)]
    script = (
        "const { termsInWords } = await import('/shared/terms.js'); "
        "return given[0].map(([rate, keepBefore, keepAfter]) => termsInWords({ rate, keepBefore, keepAfter }))"
    )
    expect(
        "terms in words", in_page(script, rates),
        [
            "no interest", "£8.00 in 30 days on £100",
            "£8.00 in 30 days on £100; safe keeping 30p in 30 days, after the end 15p in 30 days",
            "no interest; safe keeping 0p in 30 days",
            "£60.00 in 30 days on £100; safe keeping £3.00 in 30 days, after the end nothing",
        ],
    )


@on_a_page
def codes_of_links(_):
    """Codes of each size that a link has, by another's reader."""
    if missing(READER):
        return not_tried("what the square codes say", "there is no zbarimg")
    script = (
        "const { pictureOf } = await import('/shared/qr.js'); const picture = pictureOf(given[0], 'A code'); "
        "return [picture.firstChild.getAttribute('d'), picture.getAttribute('viewBox'), "
        "picture.getAttribute('aria-label')]"
    )
    for length in (30, 106, 107, 122, 134, 152, 180, 200, 230, 250, 280):
        text = ("https://shop.example/pawn/#book=7&receipt=3-" + "da41597c" * 80)[:length]
        path, box, name = in_page(script, text)
        expect(f"a code of {length} bytes", (text_of_code(path, box), name), (text, "A code"))


@on_a_page
def links_hold_what_there_is_room_for(_):
    script = "const { linkTo, ofFragment } = await import('/shared/receipts.js'); const link = linkTo(given[0]); " \
        "return [link, ofFragment(link.slice(link.indexOf('#')))[0]]"
    terms = {"rate": 2667, "keepBefore": 1000000, "keepAfter": 0}
    receipt = "3-da41597c-5157-488d-7724-e03fb8d84a37"
    given = {
        "origin": "https://shop.example", "book": "7", "receipt": receipt, "shop": "High Street", "reference": "A/1",
        "terms": terms, "fiveDays": True,
    }
    link, told = in_page(script, given)
    expect("all of it", [told[name] for name in ("book", "receipt", "shop", "ref", "terms", "fiveDays")],
           ["7", receipt, "High Street", "A/1", terms, True])
    link, told = in_page(script, {**given, "shop": "\u00e9" * 60})
    expect("a name without room is left out", (len(link) <= 280, told["shop"], told["ref"], told["terms"]),
           (True, "", "A/1", terms))


def no_text_becomes_code_or_markup():
    barred = re.compile(
        r"innerHTML|outerHTML|insertAdjacentHTML|document\.write|DOMParser|eval\(|new "
        r"Function|setTimeout\(['\"]|\.style\b(?!\.setProperty\(\"(?:top|height)\")|javascript:"
    )
    for path in files(".js"):
        expect(f"{path}: what it may not use", barred.findall(read(path)), [])
        expect(
            f"{path}: whence it imports",
            [
                source
                for source in re.findall(r'from "([^"]+)"', read(path))
                if not source.startswith(("../shared/", "./")) and source != "qrcode-generator"
            ],
            [],
        )
    for path in files(".html"):
        text = read(path)
        expect(
            f"{path}: inline code, styles and others' files",
            re.findall(r"<script(?![^>]*src=)|<style|\sstyle=|\son\w+=|https?://", text), [],
        )
        ids = re.findall(r'\sid="([^"]+)"', text)
        expect(f"{path}: each id is there once", len(ids), len(set(ids)))
        expect(
            f"{path}: what is named by id is there",
            [
                name
                for named in re.findall(
                    r'\s(?:for|aria-describedby)="([^"]+)"', text,
                ) for name in named.split() if name not in ids
            ],
            [],
        )


def each_refusal_has_a_sentence():
    rules = read("docs", "RULES.md").split("## The program\n")[0]
    rules = "\n".join(line for line in rules.splitlines() if not line.startswith("A reply is "))
    wanted = set(re.findall(r"\b(\d{3}) ([A-Z][A-Za-z]+)\b", rules))
    for codes, names in re.findall(r"^\| ([\d, ]+) \| ([A-Za-z, ]+) \|", rules, re.M):
        wanted |= set(zip(codes.split(", "), names.split(", ")))
    found = re.findall(
        r'^  (\d{3}): \{\s+name: "(\w+)",\s+why: "[^"]+\.",\s+next: "[^"]+\."',
        read("web", "shared", "refusals.js"), re.M,
    )
    expect(
        "refusals without a sentence, and sentences of none", (wanted - set(found), set(found) - wanted),
        (set(), set()),
    )
    whys = re.findall(r'why: "([^"]+)"', read("web", "shared", "refusals.js"))
    expect("each has a sentence of its own", (len(set(whys)), len(wanted)), (len(found), len(found)))


# The time of the tests does not count what is installed for them.
provide(READER)
main(
    (each_refusal_has_a_sentence, no_text_becomes_code_or_markup),
    (
        days_and_amounts_as_people_write_them, statements_are_read, sheets_are_read, books_of_both_versions_are_read,
        the_status_of_a_pledge, receipts_references_and_terms, codes_of_links, links_hold_what_there_is_room_for,
    ),
)
