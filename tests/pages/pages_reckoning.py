"""The sum that the broker's page computes for another day, and the status of a pledge then, compared with what the
program itself says: 1,000 drawn pledges and days, by `pawnd answer`."""
import datetime
import os
import random
import tempfile

from tests.library.checks import Failed, expect
from tests.library.dates import six_months_after
from tests.library.keys import BROKER, OPERATOR
from tests.library.pages.browser import Pages
from tests.library.pages.steps import browser, main
from tests.library.program import answer
from tests.library.requests import keyed_request, statement_request

DRAWN, WANTED = 1000, 1000
BEGIN = datetime.date(2023, 8, 26)
TERMS = (
    (0, 0, 0), (2667, 0, 0), (20000, 10000000, 10000000), (1, 1, 0), (333, 999999, 1), (2667, 1000000, 500000),
    (19999, 9999999, 0), (7, 123456, 123456),
)
EDGES = (1, 2, 99, 100, 7499, 7500, 7501, 99999999, 100000000)


def working_days(draw):
    """The days on which the book is worked on: ends of months and the leap day among them."""
    days = {
        BEGIN, datetime.date(2023, 8, 31), datetime.date(2024, 2, 29), datetime.date(2024, 3, 31),
        datetime.date(2024, 8, 30), datetime.date(2024, 8, 31),
    }
    while len(days) < 28:
        days.add(BEGIN + datetime.timedelta(days=draw.randrange(420)))
    return sorted(days)


def drawn_opening(draw, number, day):
    agreed = str(
        day + datetime.timedelta(days=draw.choice((1, 170, 184, 185, 250, 400)))
    ) if draw.random() < 0.4 else None
    pence = draw.choice(EDGES) if draw.random() < 0.3 else draw.randrange(1, draw.choice((5000, 20000, 5000000)))
    return {
        "article": f"Article {number}", "five_days": draw.random() < 0.5, "kind": draw.choice(("fixed", "running")),
        "pence": pence, "ref": f"R{number}", "agreed": agreed,
    }


def drawn_command(draw, book, day):
    """A command on a pledge that was taken before; some of them are refused."""
    pledge = draw.choice(book)
    sort = draw.choice(
        ("draw", "repay", "repay", "repay", "extend")
    ) if pledge["kind"] == "fixed" else draw.choice(("draw", "draw", "repay", "repay", "extend"))
    target = f"/books/7/pledges/{pledge['number']}/{sort}"
    if sort == "extend":
        return pledge, keyed_request("POST", target, {"until": str(day + datetime.timedelta(days=draw.randrange(400)))})
    most = pledge["pence"] if draw.random() < 0.5 else min(pledge["pence"], draw.choice((1, 10, 1000)))
    return pledge, keyed_request("POST", target, {"pence": draw.randrange(1, most + 1), "seq": pledge["seq"]})


def work(path, draw, day, book, each):
    """One day of the book: new terms now and then, new pledges, and commands."""
    version = len(book[0]["terms"]) if book else 0
    asked = []
    if version < len(TERMS) and (not book or draw.random() < 0.4):
        rate, before, after = TERMS[version]
        asked.append(
            keyed_request(
                "POST", "/books/7/terms",
                {"keep_after": after, "keep_before": before, "rate": rate, "version": version + 1},
            )
        )
    expect(
        "the terms", [status for status, _ in answer(path, *asked, day=str(day))] if asked else [], [200] * len(asked),
    )
    openings = [drawn_opening(draw, len(book) + place, day) for place in range(1, each + 1)]
    replies = answer(
        path, *(keyed_request("POST", "/books/7/pledges", opening) for opening in openings), day=str(day),
        seed=f"{day.toordinal():064x}",
    )
    expect("the openings", [status for status, _ in replies], [200] * len(openings))
    terms = book[0]["terms"] if book else []
    terms += [1] * len(asked)
    book += [
        {**opening, "number": len(book) + 1 + place, "seq": 1, "day": day, "terms": terms}
        for place, opening in enumerate(openings)
    ]
    for _ in range(2):
        named = {}
        for _ in range(70):
            pledge, request = drawn_command(draw, book, day)
            named.setdefault(pledge["number"], (pledge, request))
        replies = answer(path, *(request for _, request in named.values()), day=str(day))
        for (pledge, _), (status, said) in zip(named.values(), replies):
            pledge["seq"] += status == 200 and "seq" in said


def days_to_look(draw, last, book):
    """Days after the last: ends of periods and the days after them among them."""
    ends = {six_months_after(pledge["day"]) for pledge in book}
    edges = [
        end + datetime.timedelta(days=more)
        for end in sorted(ends) for more in (0, 1, 5, 6) if end + datetime.timedelta(days=more) >= last
    ]
    far = [last + datetime.timedelta(days=days) for days in (0, 1, 2, 30, 365, 3650, 36500)]
    return sorted(set(draw.sample(edges, min(len(edges), 40)) + far))


def look(path, draw, days, book):
    """What the program says: number, day, what is owed in pence, status and end."""
    told = []
    each = -(-WANTED * 3 // (2 * len(days)))
    for day in days:
        ending = [pledge for pledge in book if abs((six_months_after(pledge["day"]) - day).days) < 7]
        asked = (draw.sample(ending, min(len(ending), each // 2)) + draw.sample(book, each))[:each]
        for pledge, (status, text) in zip(
            asked, answer(path, *(statement_request(pledge["number"]) for pledge in asked), day=str(day)),
        ):
            expect("a statement", status, 200)
            lines = dict(line.split(" ", 1) for line in text.splitlines() if not line.startswith(("Entry", "Extended")))
            pence = [
                int(lines[name].replace(".", ""))
                for name in ("Principal", "Charges", "Owing")
            ] if "Owing" in lines else None
            told.append([pledge["number"], str(day), pence, lines["Status"], lines["Ends"]])
    return told


RECKON = """
const { readBook } = await import("/shared/book.js");
const { owedOn } = await import("/shared/owing.js");
const { statusOn } = await import("/shared/period.js");
const [text, told] = given;
const book = readBook(text);
const wrong = [];
let owed = 0;
for (const [number, day, pence, status, ends] of told) {
  const pledge = book.pledges[number - 1];
  const terms = book.terms.find(({ version }) => version === pledge.version);
  const stands = statusOn(pledge, day);
  if (stands !== status || pledge.ends !== ends) wrong.push([number, day, stands, status]);
  if (pence === null) continue;
  owed += 1;
  const found = owedOn(pledge, terms, day);
  if ([found.principal, found.charges, found.owing].join() !== pence.join()) wrong.push([number, day, found, pence]);
}
return [owed, wrong.slice(0, 5)];
"""


def what_will_be_owed_is_what_the_program_says():
    draw = random.Random(47)
    days, book = working_days(draw), []
    with tempfile.TemporaryDirectory() as room:
        path = os.path.join(room, "books.db")
        made = answer(
            path, keyed_request("POST", "/books/7", {"capacity": 2, "key": BROKER, "name": "High Street"}, OPERATOR),
            day=str(BEGIN),
        )
        expect("the book", made[0][0], 200)
        for place, day in enumerate(days):
            work(path, draw, day, book, DRAWN * (place + 1) // len(days) - DRAWN * place // len(days))
        told = look(path, draw, days_to_look(draw, days[-1], book), book)
        (_, text), = answer(path, keyed_request("GET", "/books/7/export"), day=str(days[-1]))
    rows = {kind: text.count(f"\n{kind},") for kind in "TPEX"}
    if rows["T"] != len(TERMS) or rows["P"] != DRAWN or rows["E"] < 500 or rows["X"] < 100:
        raise Failed(f"the drawn book is too poor: {rows}")
    with Pages() as pages:
        pages.with_modules()
        browser.go(pages.address + "/")
        owed, wrong = browser.run_later(RECKON, text, told)
    expect("where the page reckons otherwise", wrong, [])
    print(
        f"        {owed} amounts and {len(told)} states of {DRAWN} pledges, {rows['E']} entries and {rows['X']} "
        f"extensions",
        flush=True,
    )
    if owed < WANTED:
        raise Failed(f"only {owed} amounts were compared")


main((), (what_will_be_owed_is_what_the_program_says,))
