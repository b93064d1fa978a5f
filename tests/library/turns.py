"""Turns, as the files of tests/turns/ have them: the bytes of a request's line and of a reply's, and the secrets in
place of their words."""
from tests.library.keys import OPERATOR, SECRET

KEYS = {
    "operator": OPERATOR, "broker": "22222222-2222-2222-2222-222222222222",
    "stranger": "33333333-3333-3333-3333-333333333333",
}


class Words:
    """The secrets in place of the words of turns, as the program drew them."""

    def __init__(self):
        self.secrets = {}

    def of(self, word):
        return self.secrets.get(word, f"00000000-0000-0000-0000-{word:012x}")

    def in_text(self, text):
        """The text with each such secret in the place of its word."""
        return SECRET.sub(lambda it: self.of(int(it[0].replace("-", ""), 16)), text) if "-0000-" in text else text

    def learn(self, word, wanted, told):
        """Takes the secret from the first reply that has it, if that is the reply that issues this word's."""
        tells = '"receipt":"' in wanted and wanted.endswith(f'-00000000-0000-0000-0000-{word:012x}"}}')
        if tells and word not in self.secrets:
            self.secrets[word] = SECRET.findall(told)[-1]


def fields(caller, words):
    """The fields that make a caller known, and the key of an import, which is named by its first digits after a
    slash."""
    caller, _, digits = caller.partition("/")
    importing = f"Import-Key: {digits}-0000-0000-0000-000000000000\r\n" if digits else ""
    if caller in KEYS:
        return f"Pledge-Key: {KEYS[caller]}\r\n{importing}"
    named = [receipt.split("-") for receipt in caller.split("+")]
    return "".join(f"Pledge-Receipt: {number}-{words.of(int(word))}\r\n" for number, word in named)


def asked(line, words):
    """The day of a request's line, the word of its stamp, and its bytes."""
    day, word, caller, target, body = line.split("|", 4)
    body = words.in_text(body.replace("|", "\n")).encode()
    head = f"{target} HTTP/1.1\r\n{fields(caller, words)}Content-Length: {len(body)}\r\n\r\n"
    return day, int(word), head.encode() + body


def reply(line, words):
    """The bytes of a reply's line."""
    status, body = line.split("|", 1)
    text = "text/csv; charset=utf-8" if body.startswith("row,") else "text/plain; charset=utf-8"
    kind = "application/json" if body.startswith("{") else text
    body = words.in_text(body.replace("|", "\n")).encode()
    return f"HTTP/1.1 {status}\r\nContent-Length: {len(body)}\r\nContent-Type: {kind}\r\n\r\n".encode() + body
