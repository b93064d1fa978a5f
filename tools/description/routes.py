"""The routes of the service: what each asks for, answers and can refuse, in order."""
from dataclasses import dataclass, field

# What every command on a pledge can meet before its own refusals.
CHANGES = [205, 305, 304]
NUMBERED = [301, 302]

ALWAYS = ("always", "Send it again: it is answered as the first time, whatever came in between, and not done twice.")
BEARING = (
    "always", "Send it again: it is answered as the first time and not done twice, as long as the receipt is live.",
)
STATE = (
    "if unchanged",
    "Send it again: if nothing else changed the pledge in between, and it is still the same day, it is answered as "
    "the first time, and nothing changes.",
)
VIEW = ("always", "It changes nothing, so it can be sent at any time.")

JSON = "application/json"
TEXT = "text/plain; charset=utf-8"
CSV = "text/csv; charset=utf-8"


@dataclass
class Route:
    """One request: who sends it, its body's and reply's schemas by name, its own refusals in order, and what becomes
    of a repeat."""
    method: str
    path: str
    name: str
    caller: str
    summary: str
    words: str
    reply: str
    refusals: list
    repeat: tuple
    body: str = None
    kind: str = JSON
    receipts: int = 1
    rules: str = field(default="Requests")

    def takes_json(self):
        return self.body is not None and self.body != "RowsHandedIn"

    def writes(self):
        return self.method == "post"


ON_PLEDGE = "/books/{book}/pledges/{number}"
ON_HELD = "/books/{book}/held"

ROUTES = [
    Route(
        "post", "/books/{book}", "makeBook", "operator", "Make a book",
        "Makes a book for the broker who gets its key. A book is never deleted, and its key never changes.",
        "BookMade", [410, 404], ALWAYS, "Book",
    ),
    Route(
        "post", "/books/{book}/terms", "addTerms", "broker", "Add a version of terms",
        "Adds the next version of the book's terms. Pledges taken from then on have them; earlier pledges keep "
        "theirs.",
        "TermsMade", [401, 406, 411, 102, 103, 104], ALWAYS, "Terms",
    ),
    Route(
        "post", "/books/{book}/pledges", "takePledge", "broker", "Take a pledge",
        "Takes an article in pledge, under the newest terms, and issues its receipt. An equal opening under a "
        "reference that exists is answered with the first number and the first receipt, which may since have been "
        "replaced.",
        "PledgeTaken", [401, 407, 405, 201, 412], ALWAYS, "Opening",
    ),
    Route(
        "get", ON_PLEDGE, "showPledge", "broker", "Show a pledge",
        "The statement of a pledge for today, or for its closing day if it is closed.", "Statement",
        [401, 403], VIEW, kind=TEXT, rules="The statement",
    ),
    Route(
        "get", "/books/{book}/days/{day}", "showDay", "broker", "Show a day",
        "The day sheet: who comes in which window, who asked to, and which periods end.", "Sheet", [401], VIEW,
        kind=TEXT, rules="The day's sheet",
    ),
    Route(
        "get", "/books/{book}/export", "exportBook", "broker", "Take the book out",
        "The whole book as rows, with the secret of every receipt. Its key, name and capacity are not in it.", "Rows",
        [401], VIEW, kind=CSV, rules="The book as a text",
    ),
    Route(
        "post", "/books/{book}/import", "importBook", "broker", "Fill an empty book",
        "Fills a book that has neither terms nor pledges with the rows of another, all at once or not at all. The "
        "first fault of the text is returned with its row.",
        "Imported", [601, 602, 603, 606, 604, 605, 401, 409],
        (
            "always",
            "Send it again under the same `Import-Key`: it is answered with the number of pledges that came the first "
            "time, whatever rows come now, if their text has no fault.",
        ),
        "RowsHandedIn", rules="An import",
    ),
    Route(
        "post", f"{ON_PLEDGE}/draw", "draw", "broker", "Draw on a running account",
        "Enters a drawing by the number that the sender gives it.", "Entry",
        [401, 403, *NUMBERED, *CHANGES, 314, 202, 201, 206, 203], ALWAYS, "Payment", rules="Commands on a pledge",
    ),
    Route(
        "post", f"{ON_PLEDGE}/repay", "repay", "broker", "Take a repayment",
        "Enters a repayment over the counter by the number that the sender gives it.", "Entry",
        [401, 403, *NUMBERED, *CHANGES, 201, 206, 204], ALWAYS, "Payment", rules="Commands on a pledge",
    ),
    Route(
        "post", f"{ON_PLEDGE}/hold", "hold", "broker", "Put a pledge on hold",
        "Puts the pledge on hold, so that it cannot be redeemed. A body is not looked at.", "HeldBack", [401, 403, *CHANGES], STATE,
        rules="Commands on a pledge",
    ),
    Route(
        "post", f"{ON_PLEDGE}/release", "release", "broker", "Release a pledge",
        "Lets the pledge be redeemed again. A body is not looked at.", "Released", [401, 403, *CHANGES], STATE,
        rules="Commands on a pledge",
    ),
    Route(
        "post", f"{ON_PLEDGE}/declare", "declareLost", "broker", "Declare a receipt lost",
        "Issues a new receipt for a pledge whose receipt is lost. Every earlier one is worth nothing from then on.",
        "NewReceipt", [401, 403, *CHANGES, 307, 309, 308],
        (
            "never",
            "Never send it again by itself: each one makes another receipt, and the one before, which the pawnor may "
            "have in hand, is worth nothing. After a lost reply let a person decide; a new declaration is right where "
            "no person was given a receipt.",
        ),
        "Paper", rules="Commands on a pledge",
    ),
    Route(
        "post", f"{ON_PLEDGE}/decide", "decideBooking", "broker", "Decide on a booking",
        "Confirms the booking of a pledge, or refuses it.", "BookingDecided", [401, 403, *CHANGES, 311, 312, 408],
        STATE, "Decision", rules="Commands on a pledge",
    ),
    Route(
        "post", f"{ON_PLEDGE}/sell", "sell", "broker", "Record a sale",
        "Closes a pledge whose article was sold, and returns the surplus or the shortfall.", "SaleMade",
        [401, 403, *CHANGES, 306, 201],
        (
            "refused if done",
            "A repeat is harmless and does not show what was answered: where the first one was done it is 305 Closed, "
            "or 205 EarlierDay. The statement has the sale.",
        ),
        "Sale", rules="Commands on a pledge",
    ),
    Route(
        "post", f"{ON_PLEDGE}/extend", "extend", "broker", "Make the period longer",
        "Sets a later end of the period, as the parties agreed.", "NewEnd", [401, 403, *CHANGES, 314, 315, 316], STATE,
        "Extension", rules="Commands on a pledge",
    ),
    Route(
        "get", ON_HELD, "showHeld", "bearer", "Show what is held",
        "The statements of the receipts presented, in their order. It is refused only if none of them is live.",
        "Statements", [402], VIEW, kind=TEXT, receipts=32, rules="The statement",
    ),
    Route(
        "post", f"{ON_HELD}/repay", "repayHeld", "bearer", "Repay", "Enters a repayment by the bearer of the receipt.",
        "Entry", [402, *NUMBERED, *CHANGES, 201, 206, 204], BEARING, "Payment", rules="Commands on a pledge",
    ),
    Route(
        "post", f"{ON_HELD}/ask", "askBooking", "bearer", "Ask for a booking",
        "Asks to collect the article on a day, in a window, in place of any earlier booking.", "BookingAsked",
        [402, *CHANGES, 313, 312], STATE, "Asking", rules="Commands on a pledge",
    ),
    Route(
        "post", f"{ON_HELD}/cancel", "cancelBooking", "bearer", "Cancel a booking",
        "Cancels the booking. A body is not looked at.", "BookingCancelled", [402, *CHANGES, 311], STATE,
        rules="Commands on a pledge",
    ),
    Route(
        "post", f"{ON_HELD}/redeem", "redeem", "bearer", "Redeem the pledge",
        "Pays all that is owing, and takes the article back. The receipt is surrendered.", "Redeemed",
        [402, *CHANGES, 303, 310],
        (
            "refused if done",
            "A repeat is harmless and misleads: where the first one was done the receipt is no longer live, so it is "
            "402 NoSuchReceipt. The broker's statement shows what was done.",
        ),
        "Redemption", rules="Commands on a pledge",
    ),
]
