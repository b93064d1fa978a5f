"""The refusals that a request can meet: the code and name of each, its status, and what it says in words."""
from .sentences import sentences

REMEDIES = {code: remedy for code, (_, _, remedy) in sentences().items()}

WORDS = {
    102: ("RateTooHigh", "The rate is above 20,000 millionths a day."),
    103: ("KeepTooHigh", "A charge for safe keeping is above 10,000,000 millionths of a penny a day."),
    104: ("KeepingRate", "The charge for safe keeping after the end of the period is above the one up to it."),
    201: (
        "BadAmount",
        "The sum is not within its limits: from a penny, or for a sale from nothing, to 100,000,000 pence.",
    ),
    202: ("FixedSum", "The pledge is for a fixed sum, so nothing can be drawn on it."),
    203: ("OverLimit", "The drawing would take the principal above the limit of the account. Charges don't count."),
    204: ("OverOwing", "The repayment is more than all that is owing today. The reply has that sum as `total`."),
    205: ("EarlierDay", "The day of the request is before the day of the pledge's last change."),
    206: ("EntriesFull", "The pledge has 9,999 entries, and takes no more."),
    301: (
        "SeqTaken",
        "An entry with this number exists, with another sort or sum. Look at the statement before you send the next.",
    ),
    302: (
        "SeqAhead",
        "The number is 0, or greater than the next. The next is one more than the number of `Entry` lines of the statement.",
    ),
    303: ("Held", "The pledge is on hold, so it cannot be redeemed."),
    304: ("Passed", "The period is over and the article has passed to the broker."),
    305: ("Closed", "The pledge is redeemed or sold."),
    306: (
        "NotRealisable",
        "The pledge can't be sold today: its period, with the five days where they apply, is not over.",
    ),
    307: ("NotSmall", "A written statement is for a credit of at most 7,500 pence. Above that it is sworn."),
    308: (
        "SecretUsed",
        "The secret that was drawn for the new receipt is one of this pledge's. Nothing was declared; ask again.",
    ),
    309: ("DeclarationsFull", "The pledge has had 100 declarations, and takes no more."),
    310: ("WrongAmount", "The sum paid is not exactly what is owing today. The reply has that sum as `total`."),
    311: ("NoBooking", "There is no booking that this could cancel or decide."),
    312: ("BookingDay", "The day of the booking is before today, or the property will have passed by then."),
    313: ("BadWindow", "The window is above 15."), 314: ("PeriodOver", "The period of the pledge is over."),
    315: ("NotLater", "The day is before the present end of the period."),
    316: ("ExtensionsFull", "The pledge has 99 extensions, and takes no more."),
    401: ("NoSuchBook", "There is no such book, or the key is not its key. The reply does not say which."),
    402: (
        "NoSuchReceipt",
        "The receipt is not live, or of several none is: it was declared lost, surrendered or never issued, or is for "
        "another book. The reply does not say which.",
    ),
    403: ("NoSuchPledge", "The book has no pledge of this number."),
    404: ("BookTaken", "The book exists with another key, name or capacity."),
    405: ("NoTerms", "The book has no terms yet, so no pledge can be taken."),
    406: ("TermsSeq", "This version exists with other numbers, or is 0, or is greater than the next."),
    407: ("RefTaken", "The reference belongs to another opening."),
    408: ("WindowFull", "As many bookings of the book are confirmed for this day and window as its capacity."),
    409: ("BookNotEmpty", "The book has terms or pledges, or was filled under another key."),
    410: ("NotOperator", "The key is not the operator's."),
    411: ("TermsFull", "The book has 99 versions of terms, and takes no more."),
    412: ("PledgesFull", "The book has 1,000,000 pledges, and takes no more."),
    490: (
        "Full",
        "The service has no room for the rows that this would add. Nothing was changed. A request that adds no row gets "
        "this answer only if the store holds more rows than its limit.",
    ),
    491: ("Memory", "Memory ran out. Nothing was changed."),
    492: ("Store", "The store failed. Nothing was changed."),
    601: ("Csv", "A row after the header has another number of columns than 15. The reply has its `row`."),
    602: ("Columns", "The first row is not the header."), 603: ("BadField", "A field of the row is not of its form."),
    604: (
        "Order",
        "The row cannot come here, or a row is missing. A pledge's booking, and the last of its entries, extensions and later "
        "secrets, can be missing without this refusal.",
    ),
    605: (
        "NotReplayable",
        "The rows are well formed, but no list of requests can produce them. The row is one past the last.",
    ),
    606: ("TooMany", "A count is above its limit."),
    701: (
        "BadHead",
        "There is no head of a request, or it has more than 64 fields, or more than 8,192 bytes. The connection ends.",
    ),
    703: (
        "Transfer",
        "There is a `Transfer-Encoding`. Send a `Content-Length`. The connection ends, maybe while the client still writes.",
    ),
    704: (
        "BadLength",
        "There are two `Content-Length`, or its value is not 1 to 19 digits. The connection ends.",
    ),
    705: (
        "BodyTooLong", "The body is above 1,048,576 bytes. The connection ends, maybe while the client still writes.",
    ),
    706: (
        "NoRoute",
        "The target is no route of the service: a number in it is out of range or begins with 0, or a day is none that "
        "a request may name.",
    ),
    707: ("WrongMethod", "The target exists with another method."),
    708: (
        "BadBody",
        "The body is not JSON, or contains anywhere a lone surrogate or a number that is too large for a double, or a "
        "member is missing or does not have its form.",
    ),
    709: (
        "BadKey",
        "`Pledge-Key`, or for an import `Import-Key`, is missing, is repeated, or does not have a key's form.",
    ),
    710: ("BadReceipt", "A `Pledge-Receipt` is not of a receipt's form."),
    711: ("TooManyReceipts", "There are more `Pledge-Receipt` fields than this request takes."),
    712: ("NoReceipt", "There is no `Pledge-Receipt`."),
}

# The own replies of the proxy of deploy/, by their status, and what to do.
OF_THE_PROXY = {
    400: "the head is no request, or is too long: correct it.",
    403: "a book is made by the operator, from the proxy's own machine; or the request came without TLS.",
    404: "the target does not have the form of the service's targets: no query, no percent escape.",
    413: "the body is above 1,048,576 bytes.",
    429: "too many requests: wait the seconds of `Retry-After`, and send it again.",
    502: "the service ended before it replied: as after a lost reply.",
    503: "the book's store is being restarted, or has too many requests: wait the seconds of `Retry-After`, and send "
        "it again.",
    504: "the service took too long. If `handed_on` is true, it is as after a lost reply.",
}

# What the bytes of any request can be refused for, before it is known what it asks. The connection ends after each.
BYTES = [701, 703, 704, 705]
# The refusals that can come in place of any answer.
FAILURES = [491, 492]
WITH_TOTAL = (204, 310)
WITH_ROW = range(601, 607)


def status(code):
    """The status of a refusal's reply."""
    if code in (490, 491, 492):
        return 503
    if code == 410:
        return 403
    if code in (401, 402, 403, 706):
        return 404
    if code in (102, 103, 104, 201, 313) or 600 < code:
        return 400
    return 409


def schema(code):
    """What the body of a refusal looks like."""
    name, words = WORDS[code]
    members = {"code": {"const": code}, "name": {"const": name}}
    if code in WITH_TOTAL:
        members["total"] = {
            "description": "All that is owing today, in pence.", "minimum": 0, "type": "integer", "format": "int64",
        }
    if code in WITH_ROW:
        members["row"] = {
            "description": "The row of the first fault. The header is row 1, and the end of the text is one past its "
                "last row.",
            "minimum": 1, "type": "integer", "format": "int64",
        }
    return {
        "title": f"{code} {name}", "description": words, "x-remedy": REMEDIES[code], "type": "object",
        "properties": members, "required": list(members),
    }


def missing(routes):
    """What a refusal lacks that one of these files names, as a sentence; None if nothing is missing."""
    for code in WORDS:
        if code not in REMEDIES:
            return (f"web/shared/refusals.js has no sentence for {code} {WORDS[code][0]}, "
                    "which tools/description/refusals.py names")
    for code in (code for route in routes for code in route.refusals):
        if code not in WORDS:
            return f"tools/description/refusals.py has no name for {code}, which a route of tools/description/routes.py lists"
    return None


def example(code):
    """The same of a refusal that has no more than its code and name."""
    name, words = WORDS[code]
    return {"summary": words, "value": {"code": code, "name": name}}
