"""The sentences on each refusal: why, and what to do next, as the pages of web/ say it. Where only a writer of clients
can correct the request, the sentence is here."""
import os
import re

TOP = os.path.dirname(os.path.dirname(os.path.dirname(os.path.abspath(__file__))))
# Where the pages keep their sentences.
PLACES = ("web/shared/refusals.js", "web/refusals.js")
ENTRY = re.compile(r'(\d{3}): \{\s*name: "(\w+)",\s*why: "([^"]*)",\s*next: "([^"]*)"')

# In place of the sentences of a page that are of no use to a writer of a client.
OF_WRITERS = {
    306: "Not before the day after `Ends`; six days after, where the five days apply.",
    402: "Ask for another receipt. After an unanswered redemption it may mean that this was done.",
    405: "Add terms first.",
    408: "Refuse this booking.",
    701: "Correct the head: at most 64 fields and 8,192 bytes.",
    703: "Send a `Content-Length`, and no chunks.",
    704: "Send one `Content-Length`, in digits.",
    707: "Correct the method.",
    708: "Correct the member; a text has its limit in bytes.",
    709: "A key is 32 hexadecimal digits: plain, or with hyphens between groups of 8, 4, 4, 4 and 12. With hyphens it may "
         "also be in braces, or after `urn:uuid:`. Upper and lower case mean the same, and may be mixed.",
    710: "Give each receipt a field of its own, as it was issued.",
    711: "Send 32 receipts at most, or one with a command.",
    712: "Send the receipt.",
}
# Why, where the sentence of a page does not say it exactly.
WHY_TO_WRITERS = {704: "There are two `Content-Length`, or its value is not 1 to 19 digits."}


def sentences():
    """By code: the name, why, and what to do next."""
    path = next(path for path in PLACES if os.path.exists(os.path.join(TOP, path)))
    with open(os.path.join(TOP, path), encoding="utf-8") as it:
        found = ENTRY.findall(it.read())
    return {int(code): (name, WHY_TO_WRITERS.get(int(code), plain(why)), OF_WRITERS.get(int(code), plain(remedy)))
            for code, name, why, remedy in found}


def plain(text):
    """The text with the signs of a keyboard."""
    return text.translate(str.maketrans({"\u2019": "'", "\u201c": '"', "\u201d": '"'}))
