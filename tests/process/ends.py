"""Standard input and output that fail: each read and each write of a story in turn refused, a write that takes nothing,
and both a byte at a time. What was answered before is kept, no failed read or write is tried again, and slow ends
change no reply. Over memory and over a file."""
import errno
import sys

from tests.library import refusing
from tests.library.checks import expect, main
from tests.library.keys import BROKER, OPERATOR
from tests.library.refusing import Ran, each_refused, refusing as refused
from tests.library.requests import request
from tests.library.stories import a_book_that_moves, a_first_pledge

ENDS = ((3, "fault io\n"),)
KINDS = ("memory", "file")


def by_one_byte(story, kind, calls):
    """The story's replies where each of these calls moves one byte."""
    return Ran(story.store(kind), b"".join(story.requests), refused(calls, mode="slow"))


def each_read_fails():
    story = a_first_pledge()
    for kind in KINDS:
        each_refused(story, kind, "i", ENDS)
        each_refused(story, kind, "i", ENDS, mode="short")
        each_refused(story, kind, "i", ENDS, error=errno.EINTR)


def each_write_fails():
    for story in (a_first_pledge(), a_book_that_moves()):
        for kind in KINDS:
            for how in ({}, {"mode": "none"}, {"mode": "short"}, {"error": errno.EPIPE}, {"mode": "on"}):
                each_refused(story, kind, "o", ENDS, **how)


def slow_ends_change_no_reply():
    for story in (a_first_pledge(), a_book_that_moves()):
        whole = b"".join(story.run_clean(())[0])
        for kind in KINDS:
            for calls in ("i", "o", "io"):
                ran = by_one_byte(story, kind, calls)
                expect(f"{story.name}, {kind}, {calls}", (ran.status, ran.complained, ran.said), (0, "", whole))


def a_request_of_more_than_a_hundred_thousand_reads():
    """Its length asks for more bytes than a session makes reads, where each read returns one."""
    body = f'{{"capacity":2,"key":"{BROKER}","name":"High Street"}}'
    long = request("POST", "/books/7", f"Pledge-Key: {OPERATOR}", body=body.ljust(110_000))
    for kind in KINDS:
        story = a_first_pledge()
        first = story.requests[0]
        ran = Ran(story.store(kind), first + long, refused("i", mode="slow"))
        expect(f"how it ended, {kind}", (ran.status, ran.complained), (3, "fault io\n"))
        expect(f"what was answered, {kind}", ran.replies(), (story.run_clean(())[0][:1], b""))
        ran = Ran(story.store(kind), long)
        expect(f"the same at once, {kind}", (ran.status, ran.said[:15]), (0, b"HTTP/1.1 200 OK"))


if refusing.library() is None:
    print("not tried: ends that fail, since no C compiler is there\n0 passed, 0 failed")
    sys.exit(0)
main(each_read_fails, each_write_fails, slow_ends_change_no_reply, a_request_of_more_than_a_hundred_thousand_reads)
