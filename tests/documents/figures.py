"""Each limit of the rules is one number, in the crate where it is defined. The rules, the description with the inputs that it is
made of, and the labels and messages of the pages have the same number: a figure that is changed in one place only is found
here. Each mention of a limit is compared, or is known to be the number of something else, so that no new mention can be forgotten."""
import glob
import os
import re

from tests.library.checks import Failed, expect, main
from tests.library.described import DESCRIPTION
from tests.library.paths import TOP
from tests.library.sums import LARGE, SMALL

RULES, PROVED = "docs/RULES.md", "docs/PROVED.md"
SCHEMAS = DESCRIPTION["components"]["schemas"]
PARAMETERS = DESCRIPTION["components"]["parameters"]


def read(path):
    with open(os.path.join(TOP, path), encoding="utf-8") as it:
        return it.read()


def constant(crate, name):
    """A number of a crate's file of limits."""
    (value,) = re.findall(rf"const {name}: \w+ = ([\d_]+);", read(f"crates/{crate}/src/limits.rt"))
    return int(value.replace("_", ""))


def number(text):
    """A number as people write it: with commas or blanks between groups, with underscores, or as pounds."""
    if re.fullmatch(r"\d+\.\d\d", text):
        return round(float(text) * 100)
    return int(re.sub(r"[,_]", "", text))


NUMBER = r"(\d[\d,_]*(?:\.\d\d)?)"

# Where each limit is said: a path, and what is around the number. Each pattern is found at least once, and each number
# that it finds is the limit. Behind them are values of the description.
SAID = {
    ("pawn_terms", "MOST_RATE"): (
        [(RULES, f"The rate is in millionths of the principal per day, at most {NUMBER}"),
         ("web/broker/terms.js", f"MOST_RATE = {NUMBER};")],
        [SCHEMAS["Terms"]["properties"]["rate"]["x-limit"]["most"]],
    ),
    ("pawn_terms", "MOST_KEEP"): (
        [(RULES, f"Each charge is in millionths of a penny per day, at most {NUMBER}"),
         ("web/broker/terms.js", f"MOST_KEEPING = {NUMBER};")],
        [SCHEMAS["Terms"]["properties"][name]["x-limit"]["most"] for name in ("keep_before", "keep_after")],
    ),
    ("pawn_debt", "MOST_PENCE"): (
        [(RULES, f"net proceeds are at most {NUMBER} pence"), (RULES, rf"201 \(above {NUMBER} pence"),
         ("web/shared/money.js", f"MOST_PENCE = {NUMBER};")],
        [SCHEMAS["Opening"]["properties"]["pence"]["x-limit"]["most"],
         SCHEMAS["Payment"]["properties"]["pence"]["x-limit"]["most"],
         SCHEMAS["Sale"]["properties"]["net"]["x-limit"]["most"]],
    ),
    ("pawn_debt", "MOST_ENTRIES"): (
        [(RULES, rf"206 EntriesFull \(there are {NUMBER}\)"), (RULES, f"secrets, {NUMBER} entries or"),
         ("web/shared/refusals.js", f"pledge has {NUMBER} entries"), ("docs/CLIENTS.md", f"pledge has {NUMBER} entries"),
         ("docs/DEPLOYING.md", f"a pledge with {NUMBER} entries \\d+ times"),
         (PROVED, f"show a pledge with {NUMBER} entries")],
        [],
    ),
    ("pawn_pledge", "MOST_NUMBER"): (
        [(RULES, rf"a pledge's number \(1 to {NUMBER},"), (RULES, f"names one book by a number, 1 to {NUMBER}\\."),
         ("web/broker/session.js", f"The book is a number from 1 to {NUMBER}\\.")],
        [PARAMETERS["book"]["schema"]["maximum"], PARAMETERS["number"]["schema"]["maximum"],
         SCHEMAS["BookMade"]["properties"]["book"]["maximum"]],
    ),
    ("pawn_pledge", "MOST_REFERENCE_BYTES"): (
        [(RULES, rf"`ref` \(1 to {NUMBER} bytes\)"), ("web/broker/take.js", rf'name: "The reference", most: {NUMBER}'),
         ("web/shared/refusals.js", f"a reference has at most {NUMBER} bytes"), ("web/shared/receipts.js", rf"\bref: {NUMBER} }}"),
         ("web/broker/index.html", f"once for each pledge, at most {NUMBER} plain letters")],
        [SCHEMAS["Opening"]["properties"]["ref"]["x-max-bytes"], SCHEMAS["Opening"]["properties"]["ref"]["maxLength"]],
    ),
    ("pawn_pledge", "MOST_ARTICLE_BYTES"): (
        [(RULES, rf"`article` \(1 to {NUMBER} bytes\)"), ("web/broker/take.js", rf'name: "The article", most: {NUMBER}'),
         ("web/shared/refusals.js", f" bytes, an article {NUMBER}\\."),
         ("web/broker/index.html", f"printed on the receipt, at most {NUMBER} plain letters")],
        [SCHEMAS["Opening"]["properties"]["article"]["x-max-bytes"],
         SCHEMAS["Opening"]["properties"]["article"]["maxLength"]],
    ),
    ("pawn_pledge", "SMALL_CREDIT"): (
        [(RULES, f"credit is at most {NUMBER} pence"), (RULES, f"credit is above {NUMBER} pence"),
         ("web/shared/refusals.js", f"only for credit up to £{NUMBER}\\."), ("docs/CLIENTS.md", f"credit up to £{NUMBER}\\."),
         ("docs/CLIENTS.md", f"credit be above £{NUMBER}, or agree on a later end"),
         ("web/broker/replacing.js", f"for credit up to £{NUMBER}\""), ("web/shared/period.js", f"SMALL_PENCE = {NUMBER};")],
        [],
    ),
    ("pawn_pledge", "MOST_SECRETS"): ([(RULES, f"a pledge with more than {NUMBER} secrets,")], []),
    ("pawn_pledge", "MOST_EXTENSIONS"): (
        [(RULES, rf"316 ExtensionsFull \(there are {NUMBER}\)"), (RULES, f"entries or {NUMBER} extensions"),
         ("web/shared/refusals.js", f"was extended {NUMBER} times"), ("docs/CLIENTS.md", f"was extended {NUMBER} times")],
        [],
    ),
    ("pawn_pledge", "LAST_WINDOW"): (
        [(RULES, rf"`window` \(0 to {NUMBER}\)"), (RULES, rf"313 BadWindow \(above {NUMBER}\)"),
         (RULES, f"for a window from 0 to {NUMBER}\\."), ("docs/GLOSSARY.md", rf"a day has the windows 0 to {NUMBER} \|"),
         ("docs/CLIENTS.md", f"A window is a number, 0 to {NUMBER}\\*"), ("web/shared/windows.js", f"windows of a day, 0 to {NUMBER}\\.")],
        [SCHEMAS["Window"]["maximum"], SCHEMAS["Asking"]["properties"]["window"]["x-limit"]["most"]],
    ),
    ("pawn_book", "MOST_BOOKINGS"): (
        [(RULES, rf"`capacity` \(1 to {NUMBER} bookings")], [SCHEMAS["Book"]["properties"]["capacity"]["maximum"]],
    ),
    ("pawn_book", "MOST_NAME_BYTES"): (
        [(RULES, rf"`name` \(1 to {NUMBER} bytes\)")],
        [SCHEMAS["Book"]["properties"]["name"]["x-max-bytes"], SCHEMAS["Book"]["properties"]["name"]["maxLength"]],
    ),
    ("pawn_book", "MOST_RECEIPTS"): (
        [(RULES, f"a bearer with 1 to {NUMBER} receipts"), (RULES, f"711 TooManyReceipts: above {NUMBER},"),
         ("docs/CLIENTS.md", f"Send {NUMBER} receipts at most"), ("docs/DEPLOYING.md", f"a pledge with [\\d,]+ entries {NUMBER} times")],
        [DESCRIPTION["paths"]["/books/{book}/held"]["get"]["x-receipts"]["most"]],
    ),
    ("pawn_book", "MOST_TERMS"): (
        [(RULES, rf"411 TermsFull \(there are {NUMBER}\)"), (RULES, f"There are at most {NUMBER} versions of terms"),
         (RULES, f"a count in B above {NUMBER} versions"), ("web/shared/refusals.js", f"The book has {NUMBER} versions"),
         ("docs/CLIENTS.md", f"The book has {NUMBER} versions")],
        [SCHEMAS["TermsMade"]["properties"]["version"]["maximum"]],
    ),
    ("pawn_book", "MOST_PLEDGES"): (
        [(RULES, rf"412 PledgesFull \(there are {NUMBER}\)"), (RULES, f"each within its limits, and at most {NUMBER} pledges"),
         (RULES, f"99 versions or {NUMBER} pledges")],
        [SCHEMAS["PledgeTaken"]["properties"]["number"]["maximum"],
         SCHEMAS["Imported"]["properties"]["imported"]["maximum"]],
    ),
    ("pawn_host", "MOST_REQUESTS"): (
        [(RULES, rf"\*\*Limit\*\* after {NUMBER} requests"), ("docs/CLIENTS.md", rf"after its {NUMBER}th reply"),
         ("docs/PROMISES.md", f"stream, answers at most {NUMBER} requests"), (PROVED, f"send {NUMBER} requests in one stream"),
         (PROVED, f"up to {NUMBER} stamps")],
        [DESCRIPTION["x-limits"]["requests-of-a-connection"]],
    ),
    ("pawn_host", "MOST_READS"): ([("docs/PROMISES.md", f"makes at most {NUMBER} reads")], []),
    ("pawn_wire", "MOST_HEAD"): (
        [(RULES, f"no end within {NUMBER} bytes"), ("docs/CLIENTS.md", f"fields and {NUMBER} bytes"),
         ("docs/DEPLOYING.md", rf"a request's head \| {NUMBER} bytes")],
        [DESCRIPTION["x-limits"]["head-bytes"]],
    ),
    ("pawn_wire", "MOST_FIELDS"): (
        [(RULES, f"more than {NUMBER} fields"), ("docs/CLIENTS.md", f"at most {NUMBER} fields")],
        [DESCRIPTION["x-limits"]["head-fields"]],
    ),
    ("pawn_wire", "MOST_BODY"): (
        [(RULES, f"705 BodyTooLong: above {NUMBER} bytes"), ("web/broker/files.js", f"LONGEST = {NUMBER};"),
         ("docs/DEPLOYING.md", rf"a request's body \| {NUMBER} bytes")],
        [DESCRIPTION["x-limits"]["body-bytes"], SCHEMAS["RowsHandedIn"]["x-max-bytes"]],
    ),
    ("pawn_wire", "MOST_DIGITS"): (
        [(path, f"value (?:that )?is not 1 to {NUMBER} digits") for path in (RULES, "docs/CLIENTS.md")], [],
    ),
    ("pawn_wire", "MOST_NUMERAL"): ([(RULES, f"a whole number from 0 to {NUMBER} without")], [SCHEMAS["Pence"]["maximum"]]),
}
# The same in the words of the description, which tools/describe makes of its inputs in tools/description.
API = "docs/openapi.json"
IN_WORDS = {
    ("pawn_terms", "MOST_RATE"): [f"rate is above {NUMBER} millionths a day"],
    ("pawn_terms", "MOST_KEEP"): [f"safe keeping is above {NUMBER} millionths"],
    ("pawn_debt", "MOST_PENCE"): [f"or for a sale from nothing, to {NUMBER} pence", f"{NUMBER} pence are a million pounds"],
    ("pawn_debt", "MOST_ENTRIES"): [f"pledge has {NUMBER} entries", rf"A pledge has at most {NUMBER} \(206\)"],
    ("pawn_pledge", "MOST_REFERENCE_BYTES"): [f"is known by it\\. At least one byte and at most {NUMBER} bytes"],
    ("pawn_pledge", "MOST_ARTICLE_BYTES"): [f"pledged, in words\\. At least one byte and at most {NUMBER} bytes"],
    ("pawn_pledge", "SMALL_CREDIT"): [f"for a credit of at most {NUMBER} pence"],
    ("pawn_pledge", "MOST_EXTENSIONS"): [f"pledge has {NUMBER} extensions"],
    ("pawn_pledge", "LAST_WINDOW"): [f"The window is above {NUMBER}\\.", f"in which to come, from 0 to {NUMBER}\\."],
    ("pawn_book", "MOST_NAME_BYTES"): [f"name of the shop\\. At least one byte and at most {NUMBER} bytes"],
    ("pawn_book", "MOST_RECEIPTS"): [f"for `showHeld`, which takes up to {NUMBER}\\.", f"Send {NUMBER} receipts at most"],
    ("pawn_book", "MOST_TERMS"): [f"book has {NUMBER} versions of terms", rf"at most {NUMBER} \(411\)"],
    ("pawn_book", "MOST_PLEDGES"): [f"book has {NUMBER} pledges"],
    ("pawn_host", "MOST_REQUESTS"): [f"after its {NUMBER}th request"],
    ("pawn_wire", "MOST_HEAD"): [f"or more than {NUMBER} bytes", f"fields and {NUMBER} bytes"],
    ("pawn_wire", "MOST_FIELDS"): [f"more than {NUMBER} fields", f"at most {NUMBER} fields"],
    ("pawn_wire", "MOST_DIGITS"): [f"its value is not 1 to {NUMBER} digits"],
    ("pawn_wire", "MOST_BODY"): [f"body is above {NUMBER} bytes", f"A body above {NUMBER} bytes"],
}
# The same in the comments of the crates' code and definitions, each of which is found at least once.
IN_COMMENTS = {
    ("pawn_terms", "MOST_RATE"): [f"rate of interest above {NUMBER} millionths", f"The rate is at most {NUMBER} millionths",
                                  f"interest of {NUMBER} millionths on the largest principal"],
    ("pawn_terms", "MOST_KEEP"): [f"safe keeping above {NUMBER} millionths", f"keeping is at most {NUMBER} millionths"],
    ("pawn_debt", "MOST_PENCE"): [f"sum of 0, or above {NUMBER} pence"],
    ("pawn_debt", "MOST_ENTRIES"): [f"debt has {NUMBER} entries"],
    ("pawn_pledge", "MOST_NUMBER"): [
        f"a book or of a pledge, from 1 to {NUMBER}", f"The number, if it is from 1 to {NUMBER}", f"zero, if it is from 1 to {NUMBER}",
        f"that a text writes, from 1 to {NUMBER}", f"a number is from 1 to {NUMBER}",
    ],
    ("pawn_pledge", "MOST_REFERENCE_BYTES"): [f"reference for a pledge, in 1 to {NUMBER} bytes"],
    ("pawn_pledge", "MOST_ARTICLE_BYTES"): [f"description of the article, in 1 to {NUMBER} bytes"],
    ("pawn_pledge", "MOST_SECRETS"): [f"pledge has {NUMBER} secrets"],
    ("pawn_pledge", "MOST_EXTENSIONS"): [f"pledge has {NUMBER} extensions"],
    ("pawn_pledge", "LAST_WINDOW"): [f"window of that day, 0 to {NUMBER}", f"A window above {NUMBER}", f"a window, 0 to {NUMBER}",
                                     f"window of 0 to {NUMBER} that", f"the window of its booking, 0 to {NUMBER}"],
    ("pawn_book", "MOST_BOOKINGS"): [
        f"window of a day: 1 to {NUMBER}", f"of bookings, or `None` if the number is not 1 to {NUMBER}",
    ],
    ("pawn_book", "MOST_NAME_BYTES"): [f"A book's name: 1 to {NUMBER} bytes"],
    ("pawn_book", "MOST_RECEIPTS"): [
        f"presents, in order: 1 to {NUMBER} of them", f"if their number is not 1 to {NUMBER}", f"the 1 to {NUMBER} receipts",
        f"presented at once: 1 to {NUMBER}", f"(?m)^1 to {NUMBER} receipts", f"one receipt, or 1 to {NUMBER};",
    ],
    ("pawn_book", "MOST_ROWS"): [f"(?:rows|it may have|store may hold), 1 to {NUMBER}", f"The limit is at most {NUMBER}"],
    ("pawn_book", "MOST_TERMS"): [f"book has {NUMBER} versions of terms"],
    ("pawn_book", "MOST_PLEDGES"): [f"book has {NUMBER} pledges"],
    ("pawn_host", "MOST_REQUESTS"): [
        f"or after {NUMBER} requests", f"acted on, at most {NUMBER}", f"[Aa]t most {NUMBER} requests", f"{NUMBER} requests were answered",
        f"of the stream\\. There are at most {NUMBER}", f"one session: at most {NUMBER}", f"up to {NUMBER} stamps",
        f"the settings: up to {NUMBER} of", f"a command line: up to {NUMBER}",
    ],
    ("pawn_host", "MOST_READS"): [
        f"were made, at most {NUMBER}", f"fewer than {NUMBER} reads", f"All of the {NUMBER} reads", f"At most {NUMBER} reads",
    ],
    ("pawn_wire", "MOST_HEAD"): [f"within the first {NUMBER} bytes", f"or {NUMBER} bytes have arrived"],
    ("pawn_wire", "MOST_FIELDS"): [f"at most {NUMBER} fields"],
    ("pawn_wire", "MOST_BODY"): [f"up to {NUMBER} bytes"],
    ("pawn_wire", "MOST_DIGITS"): [r"1 to (\d\d) digits"],
}
# By path, or for the comments of the crates, what else is a number that is that of a limit.
COMMENTS = "the comments of the crates"
OTHERS = {
    COMMENTS: r"\b32[ -]bits?\b|2\^32|32 pledges|of 32 of them|64 hexadecimal digits|64 bytes|15 columns"
              r"|the first page has 64|after place 64|limit of 1,000 rows",
    RULES: r"32 hexadecimal digits|101 BadDay|\(64 hexadecimal digits|At most 64 bytes of that file|answers up to 1,000,000 connections"
           r"|\"(?:pence|shortfall)\":1000",
    "docs/CLIENTS.md": r"32 hexadecimal digits|64 random hexadecimal digits",
    PROVED: r"the same of 1,000,000 connections",
    "web/shared/refusals.js": r"A key is 32 digits",
    "docs/openapi.json": r"\{32\}|32 hexadecimal digits|64 hexadecimal digits|rows of 15 columns|of columns than 15|-02-15|int(?:32|64)",
}
# Numbers that the rules name because they are one above a limit.
ONE_ABOVE = {
    ("pawn_pledge", "LAST_WINDOW"): [(RULES, f"for a window of {NUMBER} this is 313")],
    ("pawn_book", "MOST_BOOKINGS"): [(RULES, f"as for a capacity of {NUMBER}, the refusal is 708")],
}
# Limits that the rules say otherwise than the constant: one of the secrets is the opening's, and days are dates.
DECLARATIONS = [
    (RULES, rf"309 DeclarationsFull \(there are {NUMBER}\)"), ("docs/CLIENTS.md", f"has had {NUMBER} new receipts"),
    ("web/shared/refusals.js", f"has had {NUMBER} new receipts"),
]
# Limits that people read in words: by limit the paths, what is around the words, and how much of the limit one of them is.
IN_LETTERS = {
    ("pawn_terms", "MOST_RATE"): [
        (RULES, r"at most [\d,]+ \((\w+) per cent\)", 10_000), ("web/shared/refusals.js", r"rate is above (\w+) per cent a day", 10_000),
        ("docs/CLIENTS.md", r"rate is above (\w+) per cent a day", 10_000),
    ],
    ("pawn_terms", "MOST_KEEP"): [
        (RULES, r"at most [\d,]+ \((\w+) pence\)", 1_000_000), ("web/shared/refusals.js", r"above (\w+) pence a day", 1_000_000),
        ("docs/CLIENTS.md", r"above (\w+) pence a day", 1_000_000),
    ],
    ("pawn_debt", "MOST_PENCE"): [
        ("web/shared/refusals.js", r"at most (a \w+) pounds", 100), ("docs/CLIENTS.md", r"at most (a \w+) pounds", 100),
        (API, r"pence are (a \w+) pounds", 100),
    ],
    ("pawn_pledge", "GRACE_DAYS"): [
        (RULES, r"in \*grace\* on the (\w+) days", 1), ("web/shared/period.js", r"GRACE_DAYS = (\w+);", 1),
        ("web/shared/states.js", r"and (\w+) days of grace follow", 1), ("web/shared/states.js", r"; (\w+) days more", 1),
    ],
    ("pawn_book", "MOST_PLEDGES"): [
        ("web/shared/refusals.js", r"The book has (a \w+) pledges", 1), ("docs/CLIENTS.md", r"The book has (a \w+) pledges", 1),
    ],
    ("pawn_wire", "MOST_BODY"): [
        ("web/shared/refusals.js", r"That is more than (a \w+)\.", 1), ("docs/CLIENTS.md", r"That is more than (a \w+)\.\|", 1),
        ("web/broker/files.js", r"file is above (a \w+)\.", 1),
    ],
}
LETTERS = {"two": 2, "five": 5, "5": 5, "ten": 10, "a million": 1_000_000, "a mebibyte": 2 ** 20}
LAST_DAY = [(RULES, r"from 2000-01-01 to (\d{4}-\d\d-\d\d)\."), ("web/shared/reckoning.js", r'LAST = "(\d{4}-\d\d-\d\d)"'),
            ("web/broker/index.html", r'max="(\d{4}-\d\d-\d\d)"')]

# The limits of release 0.9.0. CHANGELOG.md names each one that differs now: a client or an older program may meet it.
OF_RELEASE = {
    "MOST_RATE": 20_000, "MOST_KEEP": 10_000_000, "MOST_PENCE": 100_000_000, "MOST_ENTRIES": 9_999, "MOST_NUMBER": 999_999_999,
    "MOST_REFERENCE_BYTES": 40, "MOST_ARTICLE_BYTES": 80, "SMALL_CREDIT": 7_500, "GRACE_DAYS": 5, "MOST_SECRETS": 101,
    "MOST_EXTENSIONS": 99, "LAST_WINDOW": 15, "MOST_BOOKINGS": 1_000, "MOST_NAME_BYTES": 60, "MOST_RECEIPTS": 32,
    "MOST_TERMS": 99, "MOST_PLEDGES": 1_000_000, "MOST_REQUESTS": 1_000, "MOST_READS": 100_000, "MOST_HEAD": 8_192,
    "MOST_FIELDS": 64, "MOST_BODY": 1_048_576, "MOST_DIGITS": 19, "MOST_NUMERAL": 999_999_999_999,
}


def found(path, pattern):
    """What the pattern finds in a file, at least once."""
    it = re.findall(pattern, read(path))
    if not it:
        raise Failed(f"{path} does not say {pattern!r} any more: mend the document, or this table")
    return it


def each_limit_is_one_number():
    """All places that have another number are named at once."""
    wrong = []
    for (crate, name), (places, values) in SAID.items():
        limit = constant(crate, name)
        told = [(f"{path}, at {pattern!r}", number(it)) for path, pattern in places for it in found(path, pattern)]
        words = IN_WORDS.get((crate, name), ())
        told += [(f"{API}, at {pattern!r}", number(it)) for pattern in words for it in found(API, pattern)]
        told += [(f"a schema of {API}", value) for value in values]
        wrong += [f"{name} of {crate} is {limit}, and {value} in {place}" for place, value in told if value != limit]
    expect("places that have another number", wrong, [])
    for it in found(API, f"pledge has had {NUMBER} declarations"):
        expect(f"declarations in {API}", number(it) + 1, constant("pawn_pledge", "MOST_SECRETS"))


def comments_of_the_crates():
    """The comments of the crates' code and definitions, each as one line."""
    found = []
    for pattern, begin in (("crates/*/src/**/*.rt", "//[/!]?"), ("crates/*/specs/**/*.antt", "--")):
        for path in sorted(glob.glob(pattern, root_dir=TOP, recursive=True)):
            if "_tests/" not in path:
                found += re.findall(rf"(?m)^ *{begin} (.*)$|^(.*)$", read(path))
    return re.sub(r"\n\n+", "\n", re.sub(r"(?<=.)\n(?=.)", " ", "\n".join(comment for comment, _ in found)))


def each_comment_of_the_crates_has_the_same():
    text = comments_of_the_crates()
    for (crate, name), patterns in IN_COMMENTS.items():
        for pattern in patterns:
            told = re.findall(pattern, text)
            expect(f"that a comment of the crates says {pattern!r}", bool(told), True)
            for it in told:
                expect(f"{name} of {crate} in a comment, at {pattern!r}", number(it.rstrip(",")), constant(crate, name))


def each_number_above_a_limit_is_one_above_it():
    for (crate, name), places in ONE_ABOVE.items():
        for path, pattern in places:
            for it in found(path, pattern):
                expect(f"what {path} names as above {name} of {crate}", number(it.rstrip(",")), constant(crate, name) + 1)


def each_limit_in_letters_is_the_same():
    for (crate, name), places in IN_LETTERS.items():
        for path, pattern, unit in places:
            for it in found(path, pattern):
                expect(f"that {path} says {name} of {crate} in letters that this script knows: {it!r}", it in LETTERS, True)
                expect(f"{name} of {crate} in {path}, at {pattern!r}", LETTERS[it] * unit, constant(crate, name))
    (windows,) = found("web/shared/windows.js", f"length: {NUMBER} }}")
    expect("how many windows a page offers", number(windows), constant("pawn_pledge", "LAST_WINDOW") + 1)


# Where people read the figure of small credits: in pence, in pounds, or as the code of a page writes it.
READ_BY_PEOPLE = (
    RULES, "docs/CLIENTS.md", API, "tools/describe", "tools/description/*.py", "web/*/*.js", "web/*/*.html", "web/*.html",
)
# By path, the words around a figure in a file that makes the description; the others are in the table above.
OF_THE_INPUTS = {
    "tools/description/refusals.py": f"for a credit of at most {NUMBER} pence",
    "tools/description/parts.py": f"for a credit of at most {NUMBER} pence",
}


def forms_of(pence):
    """A sum as people write it."""
    pounds = f"{pence // 100}.{pence % 100:02}"
    plain = "|".join(f"{pence:{form}}" for form in (",", "_", ""))
    return rf"(?<![\d,._])(?:{plain})(?![\d,]*\d)|£{pounds}|£{pence // 100}(?![\d.])"


def each_mention_of_small_credits_is_compared():
    """A mention that is in no table would keep the old figure when the constant changes."""
    limit = constant("pawn_pledge", "SMALL_CREDIT")
    places = {**{API: IN_WORDS["pawn_pledge", "SMALL_CREDIT"]}, **{path: [it] for path, it in OF_THE_INPUTS.items()}}
    for path, pattern in SAID["pawn_pledge", "SMALL_CREDIT"][0]:
        places.setdefault(path, []).append(pattern)
    for path in OF_THE_INPUTS:
        for it in found(path, OF_THE_INPUTS[path]):
            expect(f"small credits in {path}", number(it), limit)
    for path in sorted({it for form in READ_BY_PEOPLE for it in glob.glob(form, root_dir=TOP)}):
        text = read(path)
        compared = [it.span() for pattern in places.get(path, []) for it in re.finditer(pattern, text)]
        for it in re.finditer(forms_of(limit), text):
            inside = any(begin <= it.start() and it.end() <= end for begin, end in compared)
            around = text[max(0, it.start() - 40):it.end() + 20]
            expect(f"that {path} says the figure of small credits where this script compares it: {around!r}", inside, True)


# The files in which each mention of a limit is compared, or is known to be another number.
READ_WHOLE = (RULES, "docs/CLIENTS.md", "docs/GLOSSARY.md", "docs/PROMISES.md", PROVED, API, "web/shared/refusals.js")


def compared_in(path, text):
    """Where this script compares a number of a text, or knows that it is no limit. A span for each."""
    patterns = [it for places, _ in SAID.values() for where, it in places if where == path]
    patterns += [it for places in ONE_ABOVE.values() for where, it in places if where == path]
    patterns += [it for where, it in DECLARATIONS if where == path]
    patterns += [it for of in {API: IN_WORDS, COMMENTS: IN_COMMENTS}.get(path, {}).values() for it in of]
    patterns += [OTHERS[path]] if path in OTHERS else []
    return [it.span() for pattern in patterns for it in re.finditer(pattern, text)]


def each_mention_of_a_limit_is_compared():
    """A mention that is in no table would keep the old number when the constant changes. A number below ten is read in too many
    senses. In the description a member that is a number is compared by tests/documents/description.py, which sends the number
    after it."""
    limits = {}
    for crate, name in {**SAID, **IN_COMMENTS}:
        limits.setdefault(constant(crate, name), []).append(name)
    for path in (*READ_WHOLE, COMMENTS):
        text = comments_of_the_crates() if path == COMMENTS else read(path)
        compared, missing = compared_in(path, text), []
        for limit, names in limits.items():
            for it in re.finditer(forms_of(limit), text) if limit >= 10 else ():
                begin, end = it.span()
                inside = any(first <= begin and end <= last for first, last in compared)
                member = path == API and re.search(r'": $', text[:begin])
                part_of_a_word = re.match(r"\w", text[begin - 1:begin]) or re.match(r"\w", text[end:end + 1])
                if not (inside or member or part_of_a_word):
                    missing.append((names, text[max(0, begin - 40):end + 20]))
        expect(f"mentions of limits in {path} that are in no table of this script", missing, [])


# Where examples take pledges: stories, and what is shown to people and made for them.
EXAMPLES = ("tests/turns/*.txt", "tests/library/*.py", "tools/sandbox", "tools/description/story.py", "README.md", "docs/*.md", "examples/*.*")


def no_example_is_at_the_border_of_small_credits():
    """An example that is for the figure itself, or for a penny more, changes its meaning with each change of the figure. Only the
    scripts of tests/answers/borders.py and tests/store/kept.py are about the border."""
    limit = constant("pawn_pledge", "SMALL_CREDIT")
    for path in sorted({it for form in EXAMPLES for it in glob.glob(form, root_dir=TOP)}):
        sums = re.findall(r"""["']?kind["']?\W[^\n]*["']?pence["']?(?::| =>?) *([\d_]+)""", read(path))
        expect(f"pledges of {path} for {limit} or {limit + 1} pence", [it for it in sums if number(it) in (limit, limit + 1)], [])
    expect("that the example sums are far from it", 1.3 * SMALL < limit < LARGE / 1.3, True)
    others = [constant(crate, name) for crate, name in SAID]
    expect("that they are no limit, and not next to one", [it for it in others if min(abs(it - SMALL), abs(it - LARGE)) < 100], [])


# Limits whose number means nothing else in the scripts of the pages, where each mention is compared, and all others.
UNMISTAKABLE = {"MOST_KEEP", "MOST_PENCE", "MOST_ENTRIES", "MOST_NUMBER", "SMALL_CREDIT", "MOST_HEAD", "MOST_BODY", "MOST_NUMERAL"}
MISTAKABLE = {
    "MOST_RATE", "MOST_REFERENCE_BYTES", "MOST_ARTICLE_BYTES", "MOST_EXTENSIONS", "LAST_WINDOW", "MOST_BOOKINGS", "MOST_NAME_BYTES",
    "MOST_RECEIPTS", "MOST_SECRETS", "MOST_TERMS", "MOST_PLEDGES", "MOST_REQUESTS", "MOST_READS",
    "MOST_FIELDS", "MOST_DIGITS",
}
PAGES = ("web/*/*.js", "web/*/*.html", "web/*.html")


def each_mention_of_an_unmistakable_limit_on_a_page_is_compared():
    names = {name for _, name in SAID}
    expect("limits that are in neither set, or in both", sorted(names ^ UNMISTAKABLE ^ MISTAKABLE), [])
    for path in sorted({it for form in PAGES for it in glob.glob(form, root_dir=TOP)}):
        text = read(path)
        compared = compared_in(path, text)
        for crate, name in (it for it in SAID if it[1] in UNMISTAKABLE):
            for it in re.finditer(forms_of(constant(crate, name)), text):
                inside = any(first <= it.start() and it.end() <= last for first, last in compared)
                around = text[max(0, it.start() - 40):it.end() + 20]
                expect(f"that {path} says {name} of {crate} where this script compares it: {around!r}", inside, True)


# Limits for which no page has a check or a label of its own: the pages show the service's refusal, or send no such
# request.
WITHOUT_A_CHECK_ON_A_PAGE = {
    "MOST_ENTRIES", "MOST_SECRETS", "MOST_EXTENSIONS", "MOST_BOOKINGS", "MOST_NAME_BYTES", "MOST_RECEIPTS", "MOST_TERMS",
    "MOST_PLEDGES", "MOST_REQUESTS", "MOST_READS", "MOST_HEAD", "MOST_FIELDS", "MOST_DIGITS", "MOST_NUMERAL",
}


def each_limit_is_checked_on_a_page_or_not_on_purpose():
    """A limit is said by a page, outside of the sentences of refusals, so that its number is compared; or it is listed."""
    told = {name: [path for path, *_ in it[0]] for (_, name), it in SAID.items()}
    for (_, name), it in IN_LETTERS.items():
        told[name] = [*told.get(name, ()), *(path for path, *_ in it)]
    own = re.compile(r"web/(?!shared/refusals)")
    without = {name for name, paths in told.items() if not any(map(own.match, paths))}
    unlisted, checked = without - WITHOUT_A_CHECK_ON_A_PAGE, WITHOUT_A_CHECK_ON_A_PAGE - without
    expect("limits that no page checks and that are not listed so", unlisted, set())
    expect("limits that a page checks and that are listed as if none did", checked, set())


def each_limit_has_its_row():
    """No limit of these crates is left out, but for those that no request meets."""
    unmet = {"FIRST_DAY", "LAST_REQUEST_DAY", "FINAL_DAY", "PENNY", "MOST_MILLIONTHS", "GRACE_DAYS", "MOST_ROWS"}
    for crate in sorted({crate for crate, _ in SAID}):
        names = set(re.findall(r"const ([A-Z_]+):", read(f"crates/{crate}/src/limits.rt")))
        expect(f"limits of {crate} without a row", names - unmet - {name for it, name in SAID if it == crate}, set())


def each_limit_has_a_definition_and_a_worked_fact():
    """The proof compares a constant and a definition only if some clause mentions both."""
    count = 0
    for path in sorted(glob.glob("crates/*/src/limits.rt", root_dir=TOP)):
        folder = os.path.join(os.path.dirname(os.path.dirname(path)), "specs")
        worked = "".join(read(it) for it in sorted(glob.glob(f"{folder}/Worked*.antt", root_dir=TOP)))
        defined = read(f"{folder}/Limits.antt")
        for name, value in re.findall(r"const ([A-Z_]+): \w+ = ([\d_]+);", read(path)):
            low = name.lower()
            is_constant = bool(re.search(rf"(?m)^{low} = {name}$", defined))
            facts = {it for it in (low, name) if re.search(rf"\({it} ≡ {int(value.replace('_', ''))}\)", worked)}
            numbers = [it.replace("_", "") for it in re.findall(rf"(?m)^{low} = (\w+)$", defined)]
            expect(f"{low} in {folder}/Limits.antt", numbers, [name.replace("_", "") if is_constant else value.replace("_", "")])
            expect(f"facts on {name} in {folder}/Worked*.antt", facts, {low} if is_constant else {low, name})
            count += 1
    expect("how many limits there are", count >= 30, True)


def each_limit_is_in_the_book_of_changes():
    """It says of each limit what another number means for stored rows."""
    (table,) = re.findall(r"(?s)\n\| Figure \|(.*?)\n\n", read("docs/CHANGING.md"))
    names = {it for path in glob.glob("crates/*/src/limits.rt", root_dir=TOP) for it in re.findall(r"const ([A-Z_]+): ", read(path))}
    told = set(re.findall(r"`([A-Z]+_[A-Z_]+|PENNY)`", table))
    expect("limits that the table of docs/CHANGING.md lacks, and names that are no limits", (sorted(names - told), sorted(told - names)), ([], []))


def each_limit_that_is_new_has_an_edit():
    """A wrong body that moves the border of a new limit shows that the contracts depend on it."""
    for path in sorted(glob.glob("crates/*/src/limits.rt", root_dir=TOP)):
        crate = path.split("/")[1]
        edits = "".join(read(it) for it in glob.glob(f"crates/{crate}/must-fail/*.edit", root_dir=TOP))
        for name in re.findall(r"const ([A-Z_]+): ", read(path)):
            is_older = name in OF_RELEASE or name in ("FIRST_DAY", "LAST_REQUEST_DAY", "FINAL_DAY", "PENNY", "MOST_MILLIONTHS", "MOST_ROWS")
            expect(f"that an edit of crates/{crate}/must-fail changes {name}", is_older or name in edits, True)


def each_changed_limit_is_in_the_changelog():
    """Of the secrets, people read how many declarations there may be: one less."""
    limits = {name: constant(crate, name) for crate, name in (*SAID, *IN_LETTERS, ("pawn_pledge", "MOST_SECRETS"))}
    since = read("CHANGELOG.md").split("\n## 0.9.0\n")[0]
    for name, limit in limits.items():
        if limit != OF_RELEASE.get(name):
            told = limit - (name == "MOST_SECRETS")
            expect(f"that CHANGELOG.md names {name}, which is {told:,}", bool(re.search(forms_of(told), since)), True)
    expect("limits that are gone", sorted(set(OF_RELEASE) - set(limits)), [])


def declarations_and_days_are_those_of_the_crates():
    for path, pattern in DECLARATIONS:
        for it in found(path, pattern):
            expect(f"declarations in {path}", number(it) + 1, constant("pawn_pledge", "MOST_SECRETS"))
    (last,) = re.findall(r"(\d{4}-\d\d-\d\d), the last day that a request may name", read("crates/pawn_terms/src/limits.rt"))
    for path, pattern in LAST_DAY:
        expect(f"the last day in {path}", set(found(path, pattern)), {last})


def numbers_are_read_as_people_write_them():
    text = "7,500 7500 7_500 £75.00 £75, but 17,500 75,000 175 £750 7500000 £75.50"
    forms = [it[0] for it in re.finditer(forms_of(7500), text)]
    expect("a figure as people write it", forms, ["7,500", "7500", "7_500", "£75.00", "£75"])
    expect("numbers", [number(it) for it in ("7,500", "75.00", "100_000_000", "64")], [7500, 7500, 100_000_000, 64])


main(
    each_limit_is_one_number, each_comment_of_the_crates_has_the_same, each_limit_in_letters_is_the_same,
    each_number_above_a_limit_is_one_above_it, each_mention_of_small_credits_is_compared, each_mention_of_a_limit_is_compared,
    no_example_is_at_the_border_of_small_credits, each_mention_of_an_unmistakable_limit_on_a_page_is_compared,
    each_limit_is_checked_on_a_page_or_not_on_purpose, each_limit_has_its_row,
    each_limit_has_a_definition_and_a_worked_fact, each_limit_is_in_the_book_of_changes, each_limit_that_is_new_has_an_edit,
    each_changed_limit_is_in_the_changelog, declarations_and_days_are_those_of_the_crates,
    numbers_are_read_as_people_write_them,
)
