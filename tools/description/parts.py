"""What the requests and replies of the description are made of: numbers, days, keys, receipts, and texts line by
line."""

MONEY = r"[0-9]+\.[0-9]{2}"
DAY = r"[0-9]{4}-[0-9]{2}-[0-9]{2}"
NUMBER = r"[1-9][0-9]*"
HYPHENED = "[0-9A-Fa-f]{8}(-[0-9A-Fa-f]{4}){3}-[0-9A-Fa-f]{12}"
HEADER = "row," + ",".join(f"c{place}" for place in range(1, 15))


def ref(kind, name):
    return {"$ref": f"#/components/{kind}/{name}"}


def one_of_form(name, words, **more):
    """A member of that schema, with its own words."""
    return {**ref("schemas", name), "description": words, **more}


def whole(words, least, most, **more):
    """A whole number. What a client keeps it in has 64 bits where 32 are too few."""
    return {
        "type": "integer", "format": "int32" if most < 2**31 else "int64", "minimum": least, "maximum": most,
        "description": words, **more,
    }


def limited(words, most, code):
    """A number with a limit of its own: above it the refusal is this one, and not that of a bad body."""
    return one_of_form("Number", words, **{"x-limit": {"most": most, "refusal": code}})


def pence(words, least=1):
    return one_of_form("Pence", words, **{"x-limit": {"least": least, "most": 100_000_000, "refusal": 201}})


def text(words, most):
    """A text of so many bytes, which a count of characters says in part."""
    return {
        "type": "string", "minLength": 1, "maxLength": most, "pattern": r"^[^\x00-\x1f\x7f]*$",
        "x-max-bytes": most,
        "description": f"{words} At least one byte and at most {most} bytes of UTF-8, without control characters.",
    }


def taken(words, **members):
    """What a body has to say; members that are not named are ignored."""
    return {
        "type": "object", "description": words, "properties": members,
        "required": [it for it in members if it != "agreed"],
    }


def reply_body(words, **members):
    """What a reply says. A later release may add members, so a client passes over those that it does not know."""
    return {
        "type": "object", "description": words, "properties": dict(sorted(members.items())),
        "required": sorted(members),
    }


# The lines of a text after its first. A later release may add some.
FURTHER = r"([^\n]*\n)*"


def exactly(forms):
    """The pattern of lines in this order, as this release writes them."""
    parts = {"once": "{}", "at most once": "({})?", "any number": "({})*"}
    return "".join(parts[often].format(form + r"\n") for _, form, often, _ in forms)


def lines(words, *forms):
    """A text whose lines come in this order: how a line begins, its pattern, how often it is there, and what it says.
    `pattern` allows further lines, and `x-pattern` is exactly what this release writes."""
    return {"type": "string", "description": words, "pattern": rf"^{forms[0][1]}\n{FURTHER}$",
            "x-pattern": f"^{exactly(forms)}$",
            "x-lines": [{"line": line, "often": often, "says": says} for line, _, often, says in forms]}


def booking(words, *states):
    """A booking in one of these states."""
    return reply_body(
        words, booking={"enum": list(states), "description": "Its state."}, day=ref("schemas", "Day"),
        window=ref("schemas", "Window"),
    )


STATEMENT = [
    ("Pledge N", f"Pledge {NUMBER}", "once", "the number of the pledge"),
    ("Article TEXT", r"Article [^\n]+", "once", "the article, as it was described when it was taken"),
    (
        "Kind fixed MONEY, or Kind running MONEY", f"Kind (fixed|running) {MONEY}", "once",
        "the sum, or the limit of the account",
    ),
    ("Taken DAY", f"Taken {DAY}", "once", "the day on which it was taken"),
    ("Ends DAY", f"Ends {DAY}", "once", "the last day of the period"),
    (
        "Extended DAY to DAY", f"Extended {DAY} to {DAY}", "any number",
        "an extension: the day on which it was agreed, and the end that it set",
    ),
    (
        "Status STATUS", "Status (inside|grace|passed|realisable|redeemed|sold)", "once",
        "the status of the pledge on the day of the statement",
    ),
    (
        "Principal MONEY", f"Principal {MONEY}", "at most once",
        "what was lent and not paid back; missing if the pledge is passed",
    ),
    (
        "Charges MONEY", f"Charges {MONEY}", "at most once",
        "interest and safe keeping, in whole pence; missing if the pledge is passed",
    ),
    (
        "Owing MONEY", f"Owing {MONEY}", "at most once",
        "the two together; missing if the pledge is passed. A closed pledge still has the line, as of its closing day",
    ),
    ("Held yes, or Held no", "Held (yes|no)", "once", "whether the pledge is on hold and cannot be redeemed"),
    (
        "Booking none, or Booking DAY WINDOW STATE", f"Booking (none|{DAY} [0-9]+ (asked|confirmed|refused|cancelled))",
        "once", "the booking to collect it",
    ),
    ("Redeemed DAY paid MONEY", f"Redeemed {DAY} paid {MONEY}", "at most once", "if it is redeemed"),
    (
        "Sold DAY net MONEY surplus MONEY shortfall MONEY", f"Sold {DAY} net {MONEY} surplus {MONEY} shortfall {MONEY}",
        "at most once", "if it is sold",
    ),
    (
        "Entry SEQ DAY draw MONEY, or Entry SEQ DAY repay MONEY", f"Entry {NUMBER} {DAY} (draw|repay) {MONEY}",
        "any number", "an entry. The next entry's number is one more than how many such lines there are",
    ),
]

SHEET = [
    ("Day sheet DAY", f"Day sheet {DAY}", "once", "the day of the sheet"),
    (
        "Window W confirmed N of CAPACITY, and Pledge N for each",
        rf"Window [0-9]+ confirmed {NUMBER} of {NUMBER}\n(Pledge {NUMBER}\n)*Pledge {NUMBER}", "any number",
        "the confirmed bookings of a window, if there are any",
    ),
    ("Asked N", "Asked [0-9]+", "once", "how many bookings are asked for the day, and neither confirmed nor refused"),
    ("Pledge N window W", f"Pledge {NUMBER} window [0-9]+", "any number", "each of them"),
    ("Ends N", "Ends [0-9]+", "once", "how many pledges end on the day that are neither redeemed nor sold"),
    ("Pledge N", f"Pledge {NUMBER}", "any number", "each of them"),
]


def presented():
    """The statements of receipts, with a blank line between two."""
    one = exactly(STATEMENT)
    return {
        "type": "string", "pattern": rf"^({STATEMENT[0][1]}|Unknown receipt)\n{FURTHER}$",
        "x-pattern": rf"^({one}|Unknown receipt\n)(\n({one}|Unknown receipt\n))*$",
        "description": "For each receipt, in the order presented, its statement, or the line `Unknown receipt` if it "
            "is not live, with a blank line between two. See the lines of `Statement`.",
    }


def rows():
    """A book as rows, as it goes out."""
    return {
        "type": "string", "pattern": rf"^{HEADER}\nB,2,[0-9]+,[0-9]+,{{11}}\n([TPSEXK],[^\n]*\n)*$",
        "description": "A book as comma-separated rows of 15 columns: the header, one `B` with its counts, the `T` of "
            "its versions of terms, and for each pledge its `P`, `S`, `E`, `X` and `K`. The rules say each column, "
            "under \"The book as a text\". It has the secret of every receipt. Lines end with LF alone, and a field is "
            "quoted if it has a comma or a quotation mark, as in RFC 4180. An export can be longer than an "
            "import may be.",
    }


def rows_handed_in():
    """A book as rows, as it may come in: what a schema can't say is refused by 601 to 606."""
    return {
        "type": "string", "maxLength": 1_048_576, "x-max-bytes": 1_048_576,
        "description": "A book as an export has it. Also taken are records that end with CR LF or CR, a last one "
            "without an end, empty lines, a byte order mark, any field in quotation marks, and version 1 of the form, "
            "whose `B` says 1 and which has no `X`. Not taken are other separators, blanks round a number, and what a "
            "spreadsheet spells anew. UTF-8 alone.",
    }


SCHEMAS = {
    "Number": whole("A whole number without a point or an exponent, as every number of a body is.", 0, 999_999_999_999),
    "Pence": whole(
        "A sum of money in pence, a whole number. 100,000,000 pence are a million pounds.", 0, 999_999_999_999,
    ),
    "Seq": whole(
        "The number of an entry of the pledge, from 1 without a gap. The sender chooses the next one (else 302), so "
        "that an entry that is sent again is known. Two senders that choose the same number for the same sum are "
        "answered alike, and it is one entry: read the statement, and only then choose. A pledge has at most 9,999 "
        "(206).",
        0, 999_999_999_999,
    ),
    "Day": {
        "type": "string", "format": "date", "pattern": "^2[01][0-9]{2}-(0[1-9]|1[0-2])-(0[1-9]|[12][0-9]|3[01])$",
        "description": "A day of the calendar, from 2000-01-01 to 2199-12-31. Days are those of UTC.",
        "examples": ["2024-01-31"],
    },
    "Key": {
        "type": "string", "pattern": rf"^([0-9A-Fa-f]{{32}}|{HYPHENED}|\{{{HYPHENED}\}}|[Uu][Rr][Nn]:[Uu][Uu][Ii][Dd]:{HYPHENED})$",
        "description": "128 bits, as 32 hexadecimal digits: plain, in groups of 8, 4, 4, 4 and 12 with hyphens, and so "
            "also in braces or after `urn:uuid:`. Upper and lower case mean the same, and may be mixed.",
        "examples": ["22222222-2222-2222-2222-222222222222"],
    },
    "Receipt": {
        "type": "string", "pattern": "^[1-9][0-9]{0,8}-[0-9a-f]{8}(-[0-9a-f]{4}){3}-[0-9a-f]{12}$",
        "description": "The number of the pledge, a hyphen, and a secret of 128 bits. Who has it can redeem the "
            "article: keep it out of logs and addresses. The newest receipt of a pledge is live until the pledge is "
            "redeemed, and no other is.",
        "examples": ["3-da41597c-5157-488d-7724-e03fb8d84a37"],
    },
    "Window": whole(
        "A part of the day in which to come, from 0 to 15. The broker decides which hours it is.", 0, 15,
    ),
    "Book": taken(
        "A new book.", capacity=whole("How many bookings the broker takes for one window of one day.", 1, 1000),
        key=one_of_form("Key", "The key of the broker who runs the book."), name=text("The name of the shop.", 60),
    ),
    "Terms": taken(
        "A version of the book's terms. A pledge keeps the terms that were the newest when it was taken.",
        keep_after=limited(
            "The charge for safe keeping after the end of the period, in millionths of a penny a day; not above "
            "`keep_before` (104).",
            10_000_000, 103,
        ),
        keep_before=limited(
            "The charge for safe keeping up to the end of the period, in millionths of a penny a day.", 10_000_000, 103,
        ),
        rate=limited("Simple interest, in millionths of the principal a day.", 20_000, 102),
        version=one_of_form("Number", "The number of this version, from 1 without a gap (else 406); at most 99 (411)."),
    ),
    "Opening": taken(
        "A pledge as it is taken.",
        agreed={
            "anyOf": [ref("schemas", "Day"), {"type": "null"}],
            "description": "A later end of the period, if the parties agreed one. The period is never shorter than "
                "six months.",
        },
        article=text("What is pledged, in words.", 80),
        five_days={
            "type": "boolean",
            "description": "Whether the pledge can still be redeemed on the five days after the end of the period.",
        },
        kind={
            "enum": ["fixed", "running"], "description": "Credit of a fixed sum, or a running account up to a limit.",
        },
        pence=pence("The sum, or the limit of the account, in pence."),
        ref=text(
            "The broker's own reference, one for each pledge of the book. An opening that is sent again is known by "
            "it.",
            40,
        ),
    ),
    "Payment": taken(
        "A drawing or a repayment.",
        pence=pence("What is drawn or repaid, in pence. A repayment pays charges first, then principal."),
        seq=ref("schemas", "Seq"),
    ),
    "Paper": taken(
        "How the loss was declared.",
        paper={
            "enum": ["sworn", "written"],
            "description": "A sworn statement, or a written one, which is for a credit of at most 7,500 pence.",
        },
    ),
    "Decision": taken(
        "What the broker answers to a booking.",
        yes={"type": "boolean", "description": "true confirms the booking, false refuses it."},
    ),
    "Sale": taken("What a sale brought.", net=pence("The net proceeds in pence; 0 is allowed.", 0)),
    "Extension": taken(
        "A longer period, as the parties agreed.", until=one_of_form("Day", "The last day of the period from now on."),
    ),
    "Asking": taken(
        "When the pawnor wants to collect.", day=one_of_form("Day", "The day; today or later."),
        window=one_of_form(
            "Number", "A part of the day in which to come, from 0 to 15.", **{"x-limit": {"most": 15, "refusal": 313}},
        ),
    ),
    "Redemption": taken(
        "What is paid for the article.",
        paid=one_of_form("Pence", "All that is owing today, in pence, to the penny; 0 if nothing is."),
    ),
    "BookMade": reply_body("The book exists.", book=whole("The number of the book.", 1, 999_999_999)),
    "TermsMade": reply_body("The version exists.", version=whole("Its number.", 1, 99)),
    "PledgeTaken": reply_body(
        "The pledge was taken.", number=whole("The number of the pledge in its book.", 1, 1_000_000),
        receipt=ref("schemas", "Receipt"),
    ),
    "Entry": reply_body(
        "The entry, also if it was entered before.",
        day=one_of_form("Day", "The day on which it was entered."), pence=ref("schemas", "Pence"),
        seq=ref("schemas", "Seq"), sort={"enum": ["draw", "repay"], "description": "The kind of entry."},
    ),
    "HeldBack": reply_body(
        "The pledge is on hold and cannot be redeemed.", held={"const": True, "description": "It is on hold."},
    ),
    "Released": reply_body("The pledge is not on hold.", held={"const": False, "description": "It is not on hold."}),
    "NewReceipt": reply_body(
        "The receipt that is live from now on; every earlier one is worth nothing.", receipt=ref("schemas", "Receipt"),
    ),
    "BookingAsked": booking(
        "The booking. If the pledge's booking was confirmed for this day and window before, it stays confirmed.",
        "asked", "confirmed",
    ),
    "BookingCancelled": booking("The booking is cancelled.", "cancelled"),
    "BookingDecided": booking("The booking as the broker decided.", "confirmed", "refused"),
    "SaleMade": reply_body(
        "The pledge is sold.", net=one_of_form("Pence", "What the sale brought."),
        shortfall=one_of_form("Pence", "What is still owing."),
        surplus=one_of_form("Pence", "What is due to the pawnor."),
    ),
    "NewEnd": reply_body("The period ends then.", ends=one_of_form("Day", "Its last day.")),
    "Redeemed": reply_body(
        "The article goes back. The receipt is worth nothing from now on.", paid=one_of_form("Pence", "What was paid."),
        redeemed=one_of_form("Day", "The day on which it was redeemed."),
    ),
    "Imported": reply_body(
        "The book was filled.",
        imported=whole("How many pledges came by the first import under this key.", 0, 1_000_000),
    ),
    "Statement": lines(
        "One pledge in words. Money is pounds, a point and two digits of pence; lines end with LF.", *STATEMENT,
    ),
    "Statements": presented(),
    "Sheet": lines(
        "A day of the book in words. Lines end with LF; pledges are in the order of their numbers.", *SHEET,
    ),
    "Rows": rows(), "RowsHandedIn": rows_handed_in(),
    "ProxyRefusal": reply_body(
        "What the proxy in front says by itself. It is no refusal of the service, and has no `code`.",
        proxy=whole("The status of this reply, once more.", 400, 599),
        handed_on={
            "type": "boolean",
            "description": "Whether the request may have been done. If it is false, the service never received the request, so "
                "that it may be sent again, whatever it is.",
        },
    ),
}

PARAMETERS = {
    "book": {
        "name": "book", "in": "path", "required": True,
        "description": "The number of the book, without a leading zero. Outside its range the target is no route "
            "(706).",
        "schema": {"type": "integer", "format": "int32", "minimum": 1, "maximum": 999_999_999}, "example": 7,
    },
    "number": {
        "name": "number", "in": "path", "required": True,
        "description": "The number of the pledge, without a leading zero. Outside its range the target is no route "
            "(706).",
        "schema": {"type": "integer", "format": "int32", "minimum": 1, "maximum": 999_999_999}, "example": 1,
    },
    "day": {
        "name": "day", "in": "path", "required": True,
        "description": "The day of the sheet. What is no day that may be named is no route (706).",
        "schema": ref("schemas", "Day"), "example": "2024-03-04",
    },
    "importKey": {
        "name": "Import-Key", "in": "header", "required": True,
        "description": "A key that the broker makes for this one import. It is how a repeat is known.",
        "schema": ref("schemas", "Key"), "example": "33333333-3333-3333-3333-333333333333",
    },
}

SECURITY = {
    "operator": {
        "type": "apiKey", "in": "header", "name": "Pledge-Key",
        "description": "The operator's key, which the service was started with. It makes books, but gives no access to "
            "them.",
    },
    "broker": {
        "type": "apiKey", "in": "header", "name": "Pledge-Key",
        "description": "The key of the book, which the operator gave it. Exactly one field.",
    },
    "bearer": {
        "type": "apiKey", "in": "header", "name": "Pledge-Receipt",
        "description": "A receipt of the book. Exactly one field, but for `showHeld`, which takes up to 32. Each field "
            "is one receipt: they are never joined by commas. The secret may be in any form of a key.",
    },
}

HEADERS = {
    "Length": {
        "description": "The bytes of the body.", "required": True,
        "schema": {"type": "integer", "format": "int64", "minimum": 0},
    },
    "RetryAfter": {
        "description": "How many seconds to wait before the request is sent again.",
        "schema": {"type": "integer", "format": "int32", "minimum": 0},
    },
}
