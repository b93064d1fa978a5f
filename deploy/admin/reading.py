"""Reads the small tables of a store while it is served, without a copy of it: only the pages of those tables.

The service has the file locked for SQLite, so that no SQLite opens it. But its form is SQLite's, which
https://www.sqlite.org/fileformat2.html describes: a page is in the log if the log has it, and else in the database.
The database is written only with pages that the log holds, and then the log is begun anew with another head. So pages
that were read between two looks at one head are those of one moment.
"""
import contextlib
import os
import struct
import time

from files import LOG, open_plain
from settings import Stop

DATABASE_HEAD = b"SQLite format 3\0"
LOG_HEAD, FRAME_HEAD = 32, 24
LEAF, INTERIOR = 0x0D, 0x05
TRIES = 200


class Changed(Exception):
    """What was read is not of one moment: it is to be read again."""


def head_of_log(path):
    """The first bytes of a store's log, which are others each time that the log is begun anew."""
    with contextlib.suppress(FileNotFoundError), open_plain(path + LOG) as log:
        return log.read(LOG_HEAD)
    return b""


def checksum(words, first, second):
    for at in range(0, len(words), 2):
        first = (first + words[at] + second) & 0xFFFFFFFF
        second = (second + words[at + 1] + first) & 0xFFFFFFFF
    return first, second


class Log:
    """The whole commits of a log: where each page of them is, the last place of it."""

    def __init__(self, path):
        self.pages, self.head, self.text = {}, b"", b""
        with contextlib.suppress(FileNotFoundError), open_plain(path + LOG) as log:
            self.text = log.read()
        self.head = self.text[:LOG_HEAD]
        if len(self.head) == LOG_HEAD and any(self.head):
            self.index()

    def index(self):
        magic, _, size, _, *_ = struct.unpack(">8I", self.head)
        self.order = ">" if magic & 1 else "<"
        frames, at = [], LOG_HEAD
        while at + FRAME_HEAD + size <= len(self.text) and self.text[at + 8 : at + 16] == self.head[16:24]:
            frames.append((at, *struct.unpack(">2I", self.text[at : at + 8])))
            at += FRAME_HEAD + size
        # The last frame of a commit says how long the database is then. One that is just being written is left out.
        while frames and not (frames[-1][2] and self.is_whole(frames[-1][0], size)):
            frames.pop()
        self.pages = {page: at + FRAME_HEAD for at, page, _ in frames}

    def is_whole(self, at, size):
        """Whether the frame there has the checksum that it says, going on from the one before it."""
        before = self.text[24:32] if at == LOG_HEAD else self.text[at - size - 8 : at - size]
        said = self.text[at : at + 8] + self.text[at + FRAME_HEAD : at + FRAME_HEAD + size]
        words = struct.unpack(f"{self.order}{len(said) // 4}I", said)
        return checksum(words, *struct.unpack(">2I", before)) == struct.unpack(">2I", self.text[at + 16 : at + 24])


def number_at(text, at):
    """One of SQLite's numbers of 1 to 9 bytes, and where the next begins."""
    value = 0
    for place in range(9):
        byte = text[at + place]
        if place == 8:
            return value << 8 | byte, at + 9
        value = value << 7 | byte & 0x7F
        if byte < 0x80:
            return value, at + place + 1


def columns_of(text):
    """The values of a record."""
    length, at = number_at(text, 0)
    kinds = []
    while at < length:
        kind, at = number_at(text, at)
        kinds.append(kind)
    values = []
    for kind in kinds:
        size = (0, 1, 2, 3, 4, 6, 8, 8, 0, 0)[kind] if kind < 10 else (kind - 12) // 2
        part = text[at : at + size]
        at += size
        if kind == 0:
            values.append(None)
        elif kind in (8, 9):
            values.append(kind - 8)
        elif kind == 7:
            values.append(struct.unpack(">d", part)[0])
        elif kind < 7:
            values.append(int.from_bytes(part, "big", signed=True))
        else:
            values.append(part.decode() if kind % 2 else part)
    return values


class Tables:
    """The tables of a store at one moment."""

    def __init__(self, path, file):
        self.file, self.log = file, Log(path)
        head = self.page_of_size(1, 100)
        if head[:16] != DATABASE_HEAD:
            raise Changed
        size = int.from_bytes(head[16:18], "big")
        self.size = 65536 if size == 1 else size
        self.usable = self.size - head[20]
        # name, root page
        self.roots = {row[1]: row[3] for _, row in self.rows_below(1) if row[0] == "table"}

    def page_of_size(self, number, size):
        if number in self.log.pages:
            at = self.log.pages[number]
            return self.log.text[at : at + size]
        return os.pread(self.file.fileno(), size, (number - 1) * size if number > 1 else 0)

    def rows_below(self, number):
        """The rows of a table, each with its number, from this page of it on."""
        page, at = self.page_of_size(number, self.size), 100 if number == 1 else 0
        kind, count = page[at], int.from_bytes(page[at + 3 : at + 5], "big")
        if kind not in (LEAF, INTERIOR):
            raise Changed
        first = at + (8 if kind == LEAF else 12)
        cells = struct.unpack(f">{count}H", page[first : first + 2 * count])
        for cell in cells:
            if kind == INTERIOR:
                yield from self.rows_below(int.from_bytes(page[cell : cell + 4], "big"))
            else:
                yield self.row_at(page, cell)
        if kind == INTERIOR:
            yield from self.rows_below(int.from_bytes(page[at + 8 : at + 12], "big"))

    def row_at(self, page, cell):
        length, at = number_at(page, cell)
        row, at = number_at(page, at)
        most, least = self.usable - 35, (self.usable - 12) * 32 // 255 - 23
        if length <= most:
            return row, columns_of(page[at : at + length])
        here = least + (length - least) % (self.usable - 4)
        here = here if here <= most else least
        text, following = page[at : at + here], int.from_bytes(page[at + here : at + here + 4], "big")
        while following and len(text) < length:
            more = self.page_of_size(following, self.size)
            following, text = int.from_bytes(more[:4], "big"), text + more[4 : self.usable]
        return row, columns_of(text[:length])

    def rows(self, name):
        if name not in self.roots:
            raise Changed
        return list(self.rows_below(self.roots[name]))


class Contents:
    """What the small tables of a store say."""

    def __init__(self, tables):
        self.meta = {row[0]: row[1] for _, row in tables.rows("meta")}
        self.books = {
            book: {"key": row[1], "name": row[2], "capacity": row[3], "pledges": row[5]}
            for book, row in tables.rows("books")
        }

    @property
    def counts(self):
        """As `pawnd check` counts them."""
        pledges = sum(it["pledges"] for it in self.books.values())
        return {"books": len(self.books), "pledges": pledges, "rows": self.meta["rows"]}


def contents_of(path):
    """The books of a store and the numbers in its table `meta`, served or not."""
    for turn in range(TRIES):
        with open_plain(path) as file, contextlib.suppress(
            Changed, IndexError, KeyError, RecursionError, TypeError, ValueError, struct.error
        ):
            tables = Tables(path, file)
            found = Contents(tables)
            if head_of_log(path) == tables.log.head:
                return found
        time.sleep(0.001 * min(turn, 20))
    raise Stop(
        f"the tables of {path} cannot be read: it is not a store of this version, or it is damaged. If its service "
        f"answers, run this command again; else `pawnd check` on a copy of the file and of {path + LOG} says more"
    )
