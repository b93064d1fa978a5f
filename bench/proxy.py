"""Prints views and repayments a second for one, two and three shards: asked directly, and over TLS through nginx by the
files of deploy/nginx.

usage: python3 -m bench.proxy [PROGRAM [RUNS]]     (default: build/pawnd, and the best of 5 runs of a second for each
figure)

Directly a shard has one client, since it answers one connection after the other: on one connection that is kept for
1,000 requests, and on a connection for each request. Through nginx there are one client or six, each a process with a
connection of its own that is kept; nginx asks the shard on a connection for each. The limits on how often an address
may ask are lifted. The stores are files, in /dev/shm where nothing is said and in the folder TMPDIR where one is named,
so repayments wait for a disk there. All of it shares this machine's processors, so what the clients take is missing
from the others. The time of a processor that a request takes, in the shard and in nginx, says what is left without
them.
"""
import multiprocessing
import os
import socket
import sys
import time

if len(sys.argv) > 1:
    os.environ["PAWND"] = sys.argv[1]

from tests.library.hosting import NAME, PACKAGES, Hosted  # noqa: E402
from tests.library.packages import missing  # noqa: E402
from tests.library.requests import request  # noqa: E402

SECONDS, RUNS = 1, int(sys.argv[2]) if len(sys.argv) > 2 else 5
LIFTED = (("rate=5r/s", "rate=100000r/s"), ("rate=50r/s", "rate=100000r/s"))
FORK = multiprocessing.get_context("fork")


def once(connection, sent):
    """One request and its whole reply, on a connection."""
    connection.sendall(sent)
    said = connection.recv(65536)
    while b"\r\n\r\n" not in said:
        said += connection.recv(65536)
    head, body = said.split(b"\r\n\r\n", 1)
    length = int(head.lower().split(b"content-length: ")[1].split(b"\r\n")[0])
    while len(body) < length:
        body += connection.recv(65536)
    if not head.startswith(b"HTTP/1.1 200"):
        raise SystemExit(f"{head[:40]!r} {body[:100]!r}")


def client(connect, asked, most, turns, told):
    """Asks in turns, with a new connection after so many requests, and notes of each turn how many requests were made
    and how long it took."""
    connection, carried = connect(), 0
    for turn in range(RUNS):
        turns.wait()
        times, end = [], time.monotonic() + SECONDS
        while (begun := time.monotonic()) < end:
            if carried == most:
                connection.close()
                connection, carried = connect(), 0
            once(connection, next(asked))
            carried += 1
            times.append(time.monotonic() - begun)
        times.sort()
        told.put((turn, len(times), times[len(times) // 2], times[len(times) * 99 // 100]))


def used(processes):
    """The time that processes had a processor, in seconds."""
    total = 0
    for pid in processes:
        for thread in os.listdir(f"/proc/{pid}/task"):
            with open(f"/proc/{pid}/task/{thread}/schedstat") as it:
                total += int(it.read().split()[0])
    return total / 1e9


def workers(hosted):
    with open(f"/proc/{hosted.nginx.pid}/task/{hosted.nginx.pid}/children") as it:
        return it.read().split()


def measure(hosted, name, clients):
    """Runs these clients at once, each a way to connect, its requests, and how many a connection carries; prints the
    best turn, and what processors a request took in all."""
    shards, proxy = [shard.program.pid for shard in hosted.stores], workers(hosted)
    before = used(shards), used(proxy)
    turns, told = FORK.Barrier(len(clients)), FORK.Queue()
    processes = [FORK.Process(target=client, args=(*words, turns, told)) for words in clients]
    for process in processes:
        process.start()
    found = [told.get(timeout=RUNS * SECONDS + 60) for _ in range(RUNS * len(processes))]
    for process in processes:
        process.join()
    done, median, late = max(
        (
            sum(it[1] for it in found if it[0] == turn), max(it[2] for it in found if it[0] == turn),
            max(it[3] for it in found if it[0] == turn),
        )
        for turn in range(RUNS)
    )
    each = [(after - at) / sum(it[1] for it in found) * 1e6 for after, at in zip((used(shards), used(proxy)), before)]
    print(
        f"{name:55}{done / SECONDS:8.0f} a second{median * 1e3:9.2f} ms median{late * 1e3:8.2f} ms for 99 of 100; "
        f"microseconds of a processor: {each[0]:.0f} the shard, {each[1]:.0f} nginx",
        flush=True,
    )


def views(book, receipts):
    sent = request("GET", f"/books/{book}/held", f"Host: {NAME}", f"Pledge-Receipt: {receipts[0]}")
    while True:
        yield sent


def repayments(book, receipts):
    """Of one pledge, and then of another, since none takes more than 9,999 entries."""
    while True:
        receipt = receipts.pop()
        for seq in range(1, 9_001):
            yield request(
                "POST", f"/books/{book}/held/repay", f"Host: {NAME}", f"Pledge-Receipt: {receipt}",
                body=f'{{"pence":1,"seq":{seq}}}',
            )


def closing(asked):
    for sent in asked:
        yield sent.replace(b"\r\n\r\n", b"\r\nConnection: close\r\n\r\n", 1)


def directly(port):
    def connect():
        plain = socket.create_connection(("127.0.0.1", port), timeout=60)
        plain.setsockopt(socket.IPPROTO_TCP, socket.TCP_NODELAY, 1)
        return plain
    return connect


def bench(shards):
    books = {7 + number: 1 + number for number in range(shards)}
    many = f"{shards} shard{'s' * (shards > 1)}"
    with Hosted(stores=3, books=books, changes=LIFTED) as it:
        receipts = it.open_books(40)
        for what, asks in (("views", views), ("repayments", repayments)):
            def of(book):
                return asks(book, [receipts[book].pop() for _ in range(2)] if asks is repayments else receipts[book])
            measure(
                it, f"{what}, {many}, directly, connections kept",
                [(directly(it.store_of(book).port), of(book), 1000) for book in books],
            )
            measure(
                it, f"{what}, {many}, directly, a connection each",
                [(directly(it.store_of(book).port), closing(of(book)), 1) for book in books],
            )
            for clients in (1, 6) if shards == 1 else (6,):
                measure(
                    it, f"{what}, {many}, through nginx, {clients} client{'s' * (clients > 1)}",
                    [(it.caller().connect, of(list(books)[number % shards]), 1000) for number in range(clients)],
                )


def main():
    if missing(PACKAGES):
        print(f"not measured, since there is no {' and no '.join(missing(PACKAGES))}")
        return
    print(f"{os.cpu_count()} processors, load {os.getloadavg()[0]:.1f} before", flush=True)
    for shards in (1, 2, 3):
        bench(shards)
    print(f"load {os.getloadavg()[0]:.1f} after", flush=True)


main()
