"""A stream of requests that ends anywhere. Each prefix of the program's stored run is answered as far as its requests are
whole, and nothing is answered for what is cut: each cut head and each cut body could still be completed."""
import os
import re
import subprocess

from tests.library.checks import expect, main
from tests.library.keys import OPERATOR, SEED
from tests.library.paths import PROGRAM, TOP

DAY = "2024-01-31"


def stored(name):
    """What is stored next to the program's source: the stored run's requests, or its replies."""
    with open(os.path.join(TOP, "crates/pawnd", name), "rb") as it:
        return it.read()


def messages(stream):
    """The messages of a stream, requests or replies: each a head and a body of the length that the head says."""
    while stream:
        head = stream.index(b"\r\n\r\n") + 4
        length = re.search(rb"(?i)content-length: (\d+)", stream[:head])
        end = head + (int(length[1]) if length else 0)
        yield stream[:end]
        stream = stream[end:]


def answered(stream):
    words = [PROGRAM, "answer", ":memory:", DAY, SEED, OPERATOR]
    ran = subprocess.run(words, input=stream, capture_output=True, timeout=60)
    expect(f"how the program ends after {len(stream)} bytes", (ran.returncode, ran.stderr), (0, b""))
    return ran.stdout


def each_prefix_is_answered_as_far_as_its_requests_are_whole():
    stream = stored("stdin")
    requests, replies = list(messages(stream)), list(messages(stored("stdout")))
    expect("how many requests and replies there are", (len(requests), len(replies)), (4, 4))
    ends = [sum(map(len, requests[:count])) for count in range(len(requests) + 1)]
    for length in range(len(stream) + 1):
        whole = sum(end <= length for end in ends[1:])
        expect(f"the replies to the first {length} bytes", answered(stream[:length]), b"".join(replies[:whole]))
    print(f"        {len(stream) + 1} prefixes", flush=True)


main(each_prefix_is_answered_as_far_as_its_requests_are_whole)
