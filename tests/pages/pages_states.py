"""Each state of a pledge at each place where it is shown: the same fact in the same words; in a real browser, in front of
the program."""
import contextlib
import datetime
import re

from tests.library.book_texts import COLUMNS, row
from tests.library.checks import expect
from tests.library.dates import six_months_after, today
from tests.library.pages.browser import Pages
from tests.library.pages.steps import (
    ago, browser, command, fill_book, find, in_short, in_words, main, make_book, no_faults, open_book, part, secret_of,
    the_book_is_read, unfold,
)

INSIDE, GRACE, OVER = ago(30), ago(186), ago(400)
SMALL, LARGE = 5000, 10000
DAY = datetime.timedelta(days=1)
SOON, PAST, LATE = today() + 3 * DAY, ago(2), six_months_after(INSIDE) + 20 * DAY
EXTENDED = today() + 300 * DAY
FIVE = 5 * DAY


class State:
    """A pledge of the book: how it is written there, and what is to be said of it."""

    def __init__(self, name, taken=INSIDE, pence=LARGE, kind="fixed", **more):
        self.name, self.taken, self.pence, self.kind = name, taken, pence, kind
        self.five = self.held = False
        self.agreed = self.booking = self.extended = self.closed = self.amount = None
        self.state, self.drawn = "open", 0
        self.__dict__.update(more)

    @property
    def ends(self):
        return self.extended or self.agreed or six_months_after(self.taken)

    @property
    def last(self):
        return self.ends + FIVE if self.five else self.ends

    @property
    def after(self):
        return self.last + DAY

    @property
    def passes(self):
        return self.pence <= 7500 and self.ends == six_months_after(self.taken)

    @property
    def status(self):
        if self.state != "open":
            return self.state
        if today() <= self.ends:
            return "inside"
        if today() <= self.last:
            return "grace"
        return "passed" if self.passes else "realisable"

    @property
    def is_open(self):
        return self.status in ("inside", "grace", "realisable")

    def rows(self, number):
        day = max([self.taken, *(one for one in (self.closed,) if one)])
        yield row(
            "P", number, f"R{number}", self.name, self.kind, self.pence, self.taken, self.agreed or "",
            "yes" if self.five else "no", 1, "yes" if self.held else "no", day, self.state, self.closed or "",
            self.amount if self.amount is not None else "",
        )
        yield row("S", number, 1, self.taken, "opening", secret_of(number))
        if self.drawn:
            yield row("E", number, 1, self.taken, "draw", self.drawn)
        if self.extended:
            yield row("X", number, 1, self.taken, self.extended)
        if self.booking:
            yield row("K", number, self.booking[0], 3, self.booking[1])


STATES = [
    State("Inside", pence=LARGE),
    State("Inside with grace", five=True),
    State("Inside and small", pence=SMALL),
    State("Inside and small with grace", pence=SMALL, five=True),
    State("In grace", taken=GRACE, five=True),
    State("In grace and small", taken=GRACE, pence=SMALL, five=True),
    State("Over", taken=OVER),
    State("Passed", taken=OVER, pence=SMALL),
    State("Held", held=True),
    State("Held and over", taken=OVER, held=True),
    State("Held and passed", taken=OVER, pence=SMALL, held=True),
    State("Held with a visit", held=True, booking=(SOON, "confirmed")),
    State("Visit asked", booking=(SOON, "asked")),
    State("Visit confirmed", booking=(SOON, "confirmed")),
    State("Visit asked and past", booking=(PAST, "asked")),
    State("Visit confirmed and past", booking=(PAST, "confirmed")),
    State("Visit late", booking=(LATE, "confirmed")),
    State("Visit refused", booking=(SOON, "refused")),
    State("Visit past of a passed one", taken=OVER, pence=SMALL, booking=(OVER + DAY, "confirmed")),
    State("Visit asked of a passed one", taken=OVER, pence=SMALL, booking=(OVER + DAY, "asked")),
    State("Extended and small", pence=SMALL, extended=EXTENDED),
    State("Agreed", agreed=EXTENDED),
    State("Running", kind="running", pence=50000, drawn=12000),
    State("Running and small", kind="running", pence=SMALL, drawn=1000),
    State("Redeemed", taken=ago(3), pence=SMALL, state="redeemed", closed=ago(3), amount=SMALL),
    State("Sold", taken=OVER, state="sold", closed=ago(3), amount=15000),
]


def book_of_all():
    rows = [COLUMNS, row("B", 2, 1, len(STATES)), row("T", 1, 0, 0, 0)]
    for number, state in enumerate(STATES, 1):
        rows += state.rows(number)
    return "\n".join(rows) + "\n"


@contextlib.contextmanager
def a_book_of_all_states():
    with Pages() as pages:
        make_book(pages, terms=False)
        fill_book(pages, book_of_all())
        open_book(pages)
        the_book_is_read()
        yield pages


def visit_in_a_list(state):
    """What a list says of a visit: nothing of one that was refused, or whose article has passed or is gone."""
    if not state.booking or not state.is_open or state.booking[1] not in ("asked", "confirmed"):
        return None
    day, what = state.booking
    if day < today():
        return f"{'unanswered' if what == 'asked' else 'past'} visit of {in_short(day)}"
    return f"visit {'asked for' if what == 'asked' else 'confirmed for'} {in_short(day)}"


def turn_in_a_list(state):
    said = {"passed": "passed to the shop on", "realisable": "can be sold since"}.get(state.status)
    return f"{said or ('passes to the shop on' if state.passes else 'can be sold from')} {in_short(state.after)}"


def end_in_a_list(state):
    return f"{'ended' if state.ends < today() else 'ends'} {in_short(state.ends)}"


def cell(place, state, said, wants, never=()):
    """One place of one state: what is missing, and what is there and should not be."""
    expect(f"{state.name}: what {place} lacks", [one for one in wants if one and one not in said], [])
    expect(f"{state.name}: what {place} does not want", [one for one in never if one in said], [])


def lines(selector):
    """The texts of the elements, by the number of their pledge."""
    return dict(browser.run(
        """return [...document.querySelectorAll(arguments[0])].map((one) => [
            one.querySelector("a[href^='#pledge=']")?.hash.slice(8) ?? one.hash?.slice(8), one.textContent,
        ])""", selector,
    ))


NAMES = {
    "inside": "in its period", "grace": "in grace", "realisable": "can be sold", "passed": "passed",
    "redeemed": "redeemed", "sold": "sold",
}


def hold_words(state):
    """What is said of a hold where it bars something, and what is never said elsewhere."""
    barred = state.held and state.is_open
    return ("on hold" if barred else None), (() if barred else ("on hold", "On hold"))


# The parts of a row that reach beyond it, and a state, a day or a visit of which an end is not shown.
CUT_OFF = """
return [...document.querySelectorAll(".row-link")].flatMap((row) => [...row.children].filter(
  (one) => one.getBoundingClientRect().bottom > row.getBoundingClientRect().bottom
    || one.scrollWidth > one.clientWidth + 1 && one.matches(".row-state, .row-state *, .row-visit"),
)).map((one) => one.textContent);
"""


def the_list_of_all_says_each_state():
    with a_book_of_all_states():
        part("all")
        browser.rests()
        browser.run("document.querySelector('.rows').style.height = '4000px'")
        browser.until("return document.querySelectorAll('.row-link').length === arguments[0]", "all rows", len(STATES))
        said = lines(".row-link")
        for width in (1280, 390, 360, 320, 280):
            browser.resize(width)
            expect(f"what is cut off at {width}", browser.run(CUT_OFF), [])
        browser.resize(390)
        for number, state in enumerate(STATES, 1):
            held, never = hold_words(state)
            when = in_short(state.closed) if state.closed else end_in_a_list(state)
            limit = "limit" if state.kind == "running" else None
            visit = visit_in_a_list(state)
            cell(
                "the list", state, said[str(number)], [NAMES[state.status], held, when, limit, visit],
                (*never, *(() if visit else ("visit ",))),
            )
        for group, wanted in (
            ("past", [state for state in STATES if "visit of" in (visit_in_a_list(state) or "")]),
            ("comes", [state for state in STATES if "visit of" not in (visit_in_a_list(state) or "visit of")]),
            ("held", [state for state in STATES if state.held and state.is_open]),
        ):
            browser.fill("#searching", group=group)
            browser.run("document.querySelector('#search-group').dispatchEvent(new Event('change'))")
            browser.says(f"{len(wanted)} of {len(STATES)} pledges", "#search-count")
        no_faults()


def what_is_due_says_each_state():
    with a_book_of_all_states():
        part("due")
        browser.element("#due-lists tbody tr")
        said = lines("#due-lists tbody tr")
        due = [
            (number, state) for number, state in enumerate(STATES, 1)
            if state.state == "open" and state.ends <= today() + 30 * DAY
        ]
        expect("what is due", sorted(said, key=int), [str(number) for number, _ in due])
        for number, state in due:
            held, never = hold_words(state)
            visit = visit_in_a_list(state)
            since = in_short(state.after) if state.status in ("passed", "realisable") else turn_in_a_list(state)
            cell(
                "Due", state, said[str(number)], [held and "On hold", since, visit],
                (*never, *(() if visit else ("visit ",))),
            )
            expect(f"{state.name}: a hold is said once", said[str(number)].lower().count("on hold"), 1 if held else 0)
        no_faults()


def the_sheet_says_each_state():
    """Of each day on which periods end; of the day of the visits; and of visits whose day is over."""
    with a_book_of_all_states():
        for day in sorted({state.ends for state in STATES}):
            browser.fill("#sheet-day", day=str(day))
            browser.press("#sheet-day button", "Show")
            browser.says(in_words(day), "#sheet-title")
            browser.rests()
            said = lines("#sheet section:last-child li")
            for number, state in enumerate(STATES, 1):
                if state.ends != day or str(number) not in said:
                    expect(f"{state.name} is on its sheet", state.ends == day and state.is_open, False)
                    continue
                held, never = hold_words(state)
                how = ", as extended" if state.extended else ", as agreed" if state.agreed else ""
                grace = f"{end_in_a_list(state)}{how}, with {'five' if state.five else 'no'} days of grace"
                cell("the sheet", state, said[str(number)], [
                    held, grace, turn_in_a_list(state), visit_in_a_list(state), f"reference R{number}",
                    f"owed {'today' if day == today() else f'on {in_short(today())}'}" if state.is_open else None,
                ], never)
        part("today")
        browser.rests()
        browser.says("Past visits that were confirmed", "#sheet")
        past = lines("#sheet section:nth-child(3) li")
        wanted = [number for number, state in enumerate(STATES, 1) if state.name == "Visit confirmed and past"]
        expect("the visits whose day is over", list(past), [str(number) for number in wanted])
        expect("its day", f"{in_short(PAST)}, 10:30 to 11:00" in past[str(wanted[0])], True)
        browser.says(f"{in_short(PAST)}, which is over, 10:30 to 11:00", "#sheet section:nth-child(2)")
        asked = lines("#sheet section:nth-child(2) li")
        wanted = [number for number, state in enumerate(STATES, 1) if state.is_open and "asked" in (state.booking or ())]
        expect("who waits for an answer", sorted(asked, key=int), [str(number) for number in wanted])
        browser.shoot("broker-states-today")
        first = "return document.querySelector('#sheet h2').textContent"
        expect("the first card of today", browser.run(first), "Coming")
        browser.fill("#sheet-day", day=str(PAST))
        browser.press("#sheet-day button", "Show")
        browser.says(in_words(PAST), "#sheet-title")
        browser.rests()
        expect("nobody comes any more on a day that is over", browser.run(first), "Confirmed for this day")
        no_faults()


def state_lines(state, reader):
    """What the card of a pledge says of its state: for the clerk, and for the pawnor by a link with all that it says."""
    becomes = {True: {"broker": "is the shop’s", "pawnor": "belongs to the pawnbroker"}, False: {
        "broker": "may be sold", "pawnor": "may be sold",
    }}[state.passes][reader]
    more = "can’t be redeemed any more" if state.passes else "can be redeemed until it is sold"
    if state.status == "redeemed":
        return [f"Redeemed on {in_words(state.closed)}", "Lent and not repaid then"]
    if state.status == "sold":
        whose = {"broker": "which is the pawnor’s", "pawnor": "which is yours: ask the shop for it"}[reader]
        return [f"£50.00 more than was owed, {whose}", "Lent and not repaid then"]
    if state.status == "passed":
        whose = {"broker": "is the shop’s", "pawnor": "belongs to the pawnbroker"}[reader]
        return [f"The period ended on {in_words(state.ends)}", f"The article {whose} now"]
    if state.held:
        return ["On hold: it can’t be redeemed until", f"the article {becomes}", "on hold or not"]
    if state.status == "realisable":
        return [f"The period ended on {in_words(state.ends)}", "may be sold any day"]
    broker = "Can be redeemed until" if state.passes else "To be kept until"
    until = {"broker": broker, "pawnor": "Still yours until" if state.passes else "Kept for you until"}[reader]
    front = f"from {in_short(state.after)} on the article" if reader == "broker" else "after that it"
    over = f"he period ended on {in_words(state.ends)}, and days of grace run" if state.status == "grace" else ""
    return [f"{until} {in_words(state.last)}", over, f"{front} {becomes}, and {more}"]


def card_of(state, reader):
    """What the whole card says in addition to the state."""
    visit = None
    if state.booking:
        day, what = state.booking
        visit = f"{in_words(day)}, 10:30 to 11:00: " + {
            "asked": "asked for, not confirmed yet", "confirmed": "confirmed", "refused": "refused by the shop",
        }[what]
        if day < today() and what != "refused":
            visit += ", on a day that is over"
        if state.held:
            visit += ", but nothing can be fetched while it is on hold"
        elif day > state.last and day >= today():
            visit += ", but the article may be sold before then"
    how = ", as extended" if state.extended else ", as agreed" if state.agreed and reader == "broker" else ""
    bar = None
    if state.status in ("inside", "grace"):
        end = end_in_a_list(state)
        bar = end[0].upper() + end[1:]
    return [
        visit, f"{in_words(state.ends)}{how}", bar,
        f"a running account up to £{state.pence / 100:.2f}" if state.kind == "running" else None,
    ]


DECISIONS = "return [...document.querySelectorAll('#commands button[value]:not([value=\"\"])')].map((one) => one.value)"


def the_page_of_a_pledge_says_each_state():
    """With what can be done, and the questions before it, which name a hold each."""
    with a_book_of_all_states():
        for number, state in enumerate(STATES, 1):
            find(str(number))
            browser.says(f"Pledge {number} of book 7", "#statement")
            said = browser.text("#statement")
            cell("the page of the pledge", state, said, [*state_lines(state, "broker"), *card_of(state, "broker")])
            expect(f"{state.name}: a hold", "On hold" in said, state.held and state.is_open)
            if state.status == "redeemed":
                continue
            if state.booking and visit_in_a_list(state):
                asked = state.booking[1] == "asked" and state.booking[0] >= today()
                expect(f"{state.name}: what can be decided", browser.run(DECISIONS), ["yes", "no"] if asked else ["no"])
            command("Print the receipt again", "Print the receipt again")
            browser.says(f"Pledge {number}: {state.name}", "dialog")
            barred = state.held and state.is_open
            expect(f"{state.name}: the question", "It is on hold." in browser.text("dialog"), barred)
            browser.press("dialog button", "Print it again")
            browser.says("it is live" if state.is_open else "only shows what became", "#commands")
            paper = re.sub(r"\s+", " ", browser.text("#new-receipt .paper"))
            then = (
                f"After that The article {'belongs to the pawnbroker' if state.passes else 'may be sold'}"
                if state.is_open else None
            )
            cell("the paper", state, paper, [
                f"{'Period ended on' if state.ends < today() else 'Period ends on'} {in_words(state.ends)}", then,
                f"Days of grace after it {'Five' if state.five else 'None'}",
                f"Credit up to £{state.pence / 100:.2f}" if state.kind == "running" else None,
                "can’t be redeemed any more" if not state.is_open else "Keep this paper safe",
            ])
            if state.is_open:
                command("Print a tag for the bag", "Show the tag")
                browser.says("The tag is below", "#commands")
                cell("the tag", state, browser.text("#new-receipt .paper"), [
                    f"Until {in_short(state.last)}",
                    f"After that it {'is the shop’s' if state.passes else 'may be sold'}.",
                    "Up to £" if state.kind == "running" else None,
                ])
        no_faults()


def the_pawnors_page_says_each_state():
    """By a link that says the terms and the grace, and by one that does not."""
    with a_book_of_all_states() as pages:
        for number, state in enumerate(STATES, 1):
            link = f"{pages.address}/pawn/#book=7&receipt={number}-{secret_of(number)}"
            browser.forget()
            browser.go(f"{link}&terms=0.0.0&grace={5 if state.five else 0}")
            if state.status == "redeemed":
                browser.says("This receipt opens no pledge", "#cards")
                continue
            browser.says(state.name, "#cards")
            browser.rests()
            said = browser.text("#cards")
            cell("the pawnor’s page", state, said, [*state_lines(state, "pawnor"), *card_of(state, "pawnor")])
            expect(f"{state.name}: a hold", "On hold" in said, state.held and state.is_open)
            expect(f"{state.name}: acts", "What you can do now" in said, state.is_open)
            if state.is_open:
                asks = browser.run("return document.querySelector('#cards form:has(select[name=window])').textContent")
                expect(f"{state.name}: a warning before a visit", "nothing can be fetched" in asks, state.held)
                unfold("See what will be owed on another day")
                browser.fill(".action[open] form", day=str(max(state.after, today())))
                browser.press(".action[open] button", "Calculate")
                browser.says("will be owed", ".action[open]")
                passes = f"nothing will be owed: from {in_short(state.after)} on the article belongs to the pawnbroker"
                cell("the sum of another day", state, browser.text(".action[open] .notice"), [
                    passes if state.passes else f"From {in_short(state.after)} on it may have been sold.",
                ])
            browser.forget()
            browser.go(link)
            browser.says(state.name, "#cards")
            browser.rests()
            said = browser.text("#cards")
            if state.status == "inside" and not state.held:
                cell("the page without the link’s more", state, said, [
                    f"{'Still yours' if state.passes else 'Kept for you'} until {in_words(state.ends)}",
                    "five days more, if your paper says",
                ])
        no_faults()


main(
    (),
    (
        the_list_of_all_says_each_state, what_is_due_says_each_state, the_sheet_says_each_state,
        the_page_of_a_pledge_says_each_state, the_pawnors_page_says_each_state,
    ),
)
