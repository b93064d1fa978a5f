"""What docs/CLIENTS.md says to a writer of clients, shown by the clients themselves: five requests by each that the
machine has, with the times; how connections end; several receipts; two senders of one entry; what the proxy says by
itself; and the two ways to try."""
import contextlib
import datetime
import http.client
import json
import os
import re
import shutil
import signal
import socket
import subprocess
import tempfile
import time

from tests.library import refusing
from tests.library.checks import expect, main, not_tried
from tests.library.keys import BROKER, OPERATOR, SEED
from tests.library.packages import BUILDING, provide
from tests.library.paths import PROGRAM, TOP
from tests.library.program import Server, free_port
from tests.library.relayed import Relay
from tests.library.requests import refusal, request
from tests.library.sessions import PATIENCE, Once, Session, read_all

BODY_BYTES = 1_048_576
KEY, IMPORT, CLOSE = f"Pledge-Key: {BROKER}", f"Import-Key: {BROKER}", "Connection: close"
JAVA = """
import java.net.URI;
import java.net.http.HttpClient;
import java.net.http.HttpRequest;
import java.net.http.HttpResponse.BodyHandlers;
public class Five {
    public static void main(String[] words) throws Exception {
        for (var version : HttpClient.Version.values()) {
            var client = HttpClient.newBuilder().version(version).build();
            for (int turn = 0; turn < 5; turn++) {
                var asked = HttpRequest.newBuilder(URI.create(words[0]));
                for (int at = 1; at < words.length; at++) asked.header("Pledge-Receipt", words[at]);
                var reply = client.send(asked.build(), BodyHandlers.ofString());
                System.out.println(reply.statusCode() + " " + reply.body().split("Pledge ").length);
            }
        }
    }
}
"""
NODE = """
import http from "node:http";
const [, , how, url, ...receipts] = process.argv;
const field = { "Pledge-Receipt": receipts[0] };
const ways = {
  "fetch kept": async () => (await fetch(url, { headers: field })).text(),
  "fetch closed": async () => (await fetch(url, { headers: { ...field, Connection: "close" } })).text(),
  "fetch appended": async () => {
    const headers = new Headers({ Connection: "close" });
    for (const it of receipts) headers.append("Pledge-Receipt", it);
    return (await fetch(url, { headers })).text();
  },
  "http": () => new Promise((done) => {
    http.get(url, { agent: false, headers: { "Pledge-Receipt": receipts } }, (reply) => {
      let said = "";
      reply.on("data", (piece) => { said += piece; });
      reply.on("end", () => done(said));
    });
  }),
};
for (let turn = 0; turn < 5; turn += 1) console.log((await ways[how]()).split("Pledge ").length, how);
"""
RUNS = {"node": "nodejs", "nginx": "nginx-light"}


def has(program):
    """Whether a program is there, which is installed where that may be done."""
    return not provide({program: RUNS[program], **(BUILDING if program == "nginx" else {})})


@contextlib.contextmanager
def two_pledges():
    """A service with a book of two pledges: the port and the receipts."""
    with Server() as server:
        session = server.session()
        session.open_book()
        receipts = [session.open_pledge(number) for number in (1, 2)]
        session.close()
        yield server, receipts


def held(server):
    return f"http://127.0.0.1:{server.port}/books/7/held"


def timed(who, asked):
    """What comes of it. The seconds that it takes are printed."""
    begun = time.monotonic()
    said = asked()
    print(f"        {time.monotonic() - begun:6.2f} s  {who}", flush=True)
    return said


def output(*words, **how):
    ran = subprocess.run(words, stdin=subprocess.DEVNULL, capture_output=True, text=True, timeout=120, **how)
    expect(f"how {words[0]} ended", (ran.returncode, ran.stderr[-300:]), (0, ""))
    return ran.stdout


def by_http_client(server, receipt, closes):
    connection, statuses = http.client.HTTPConnection("127.0.0.1", server.port, timeout=60), []
    fields = {"Pledge-Receipt": receipt, **({"Connection": "close"} if closes else {})}
    for _ in range(5):
        connection.request("GET", "/books/7/held", headers=fields)
        reply = connection.getresponse()
        statuses.append((reply.status, len(reply.read()) > 0))
        if closes:
            connection.close()
    connection.close()
    return statuses


def five_requests_by_each_client():
    """All are answered. Those that close each connection wait for none. Those that keep one and open another mostly
    wait for its end, which is shown and not required: it hangs on which reply comes first. What an idle connection does
    to others is shown below."""
    with two_pledges() as (server, receipts), Relay(server.port) as relay:
        by_curl(relay, ["curl", "-sS", "-H", f"Pledge-Receipt: {receipts[0]}"])
        for closes in (False, True):
            who = f"http.client, {'closed' if closes else 'kept'}"
            said = timed(who, lambda: by_http_client(relay, receipts[0], closes))
            expect(f"the replies to {who}", said, [(200, True)] * 5)
            relay.none_waited(who, 5)
        by_node(relay, receipts)
        by_java(relay, receipts)


def by_curl(relay, curl):
    five, together = [held(relay)] * 5, ["-Z", "--no-progress-meter"]
    said = timed("curl -Z, kept", lambda: output(*curl, *together, *five))
    expect("the replies to curl -Z", said.count("Pledge 1"), 5)
    relay.waits = []
    for who, words in (("curl, one process", five), ("curl -Z, closed", [*together, "-H", CLOSE, *five])):
        said = timed(who, lambda: output(*curl, *words))
        expect(f"the replies to {who}", said.count("Pledge 1"), 5)
        relay.none_waited(who, 5)
    said = timed("curl, five times", lambda: "".join(output(*curl, held(relay)) for _ in range(5)))
    expect("the replies to curl, five times", said.count("Pledge 1"), 5)
    relay.none_waited("curl, five times", 5)


def node(*words):
    """What the program for node prints. It begins with what a script's path is else."""
    return output("node", "--input-type=module", "-e", f"process.argv.splice(1, 0, '');{NODE}", *words)


def by_node(relay, receipts):
    if not has("node"):
        return not_tried("the clients of node", "node is not installed")
    said = timed("node, fetch kept", lambda: node("fetch kept", held(relay), receipts[0]))
    expect("the replies to fetch", said, "2 fetch kept\n" * 5)
    relay.waits = []
    for how, asked in (("fetch closed", receipts[:1]), ("http", receipts)):
        said = timed(f"node, {how}", lambda: node(how, held(relay), *asked))
        expect(f"the replies to {how}", said, f"{len(asked) + 1} {how}\n" * 5)
        relay.none_waited(f"node, {how}", 5)
    said = node("fetch appended", held(relay), *receipts)
    expect("fetch joins receipts by a comma", said.split("\n")[0], "1 fetch appended")
    relay.waits = []


def by_java(relay, receipts):
    if not shutil.which("java") or not shutil.which("javac"):
        return not_tried("the client of Java", "its kit is not installed")
    with tempfile.TemporaryDirectory() as room:
        path = os.path.join(room, "Five.java")
        with open(path, "w") as it:
            it.write(JAVA)
        output("javac", "-d", room, path)
        java = ["java", "-Djdk.httpclient.keepalive.timeout=0", "-cp", room, "Five"]
        said = timed("Java, twice five by two clients", lambda: output(*java, held(relay), *receipts))
        expect("the replies to Java", said.split("\n")[:-1], ["200 3"] * 10)
        relay.none_waited("Java", 10)


def an_idle_connection_bars_the_others():
    with two_pledges() as (server, _), server.connect() as idle:
        idle.sendall(request("GET", "/books/7/held"))
        idle.recv(4096)
        for waits in (True, False):
            begun = time.monotonic()
            with server.connect() as peer:
                peer.sendall(request("GET", "/books/7/held", CLOSE))
                expect("a reply", read_all(peer), refusal(712, "NoReceipt", "400 Bad Request"))
            expect("it waited", time.monotonic() - begun > PATIENCE - 1, waits)
        expect("the idle one is ended", idle.recv(10), b"")


def how_connections_end():
    with two_pledges() as (server, _):
        none = refusal(712, "NoReceipt", "400 Bad Request")
        for field, replies in ((CLOSE, 1), ("Connection: CLOSE", 1), ("Connection: keep-alive, close", 2)):
            with server.connect() as peer:
                peer.sendall(request("GET", "/books/7/held", field) + request("GET", "/books/7/held", CLOSE))
                expect(field, read_all(peer), none * replies)
        with server.connect() as peer:
            peer.sendall(request("GET", "/books/7/held") * 1001)
            said = read_all(peer)
        told = (said.count(b"HTTP/1.1 "), b"connection" in said.lower(), b"date:" in said.lower())
        expect("a thousand replies, and no word of the end", told, (1000, False, False))
        for method in ("HEAD", "OPTIONS"):
            with server.connect() as peer:
                peer.sendall(request(method, "/books/7/held", CLOSE))
                expect(method, read_all(peer), refusal(707, "WrongMethod", "400 Bad Request"))
        connection = http.client.HTTPConnection("127.0.0.1", server.port, timeout=60)
        connection.request("HEAD", "/books/7/held")
        reply = connection.getresponse()
        expect("what http.client reads of HEAD", (reply.status, reply.read()), (400, b""))
        connection.close()
        with server.connect() as peer:
            body = '{"keep_after":0,"keep_before":0,"rate":0,"version":1}'
            peer.sendall(request("POST", "/books/7/terms", KEY, "Expect: 100-continue", CLOSE, body=body)[:-len(body)])
            peer.settimeout(1)
            with contextlib.suppress(TimeoutError):
                expect("nothing comes to Expect", peer.recv(100), "nothing")
            peer.sendall(body.encode())
            expect("the reply then", read_all(peer).endswith(b'{"version":1}'), True)


def heads_by_the_grammar():
    """The examples of the rules, of what a head may and may not have."""
    asked = request("GET", "/books/7/held", CLOSE)
    field = b"Connection: close\r\n"
    taken = {
        "empty lines before it": b"\r\n\n" + asked, "bytes above 0x7F": asked.replace(field, field + b"X: \xe9\xff\r\n"),
        "two such fields": asked.replace(field, b"Connection: keep-alive\r\n" + field),
    }
    refused = {
        "a blank before a colon": asked.replace(field, b"X : 1\r\n" + field),
        "a value that goes on": asked.replace(field, b"X: 1\r\n 2\r\n" + field),
        "two blanks": asked.replace(b"GET ", b"GET  "), "HTTP/1.2": asked.replace(b"HTTP/1.1", b"HTTP/1.2"),
        "a byte 0": asked.replace(field, b"X: \0\r\n" + field),
    }
    with two_pledges() as (server, _):
        for heads, wanted in (taken, refusal(712, "NoReceipt", "400 Bad Request")), (refused, refusal(701, "BadHead", "400 Bad Request")):
            for name, head in heads.items():
                with server.connect() as peer:
                    peer.sendall(head)
                    expect(name, read_all(peer), wanted)


def the_columns_of_a_row_before_its_place():
    rows = {"B": "B,2,0,0", "T": "T,1,0,0,0", "bad T": "T,1,x,0,0", "X": "X,1,1,2024-01-31,2024-09-01", "B of version 1": "B,1,0,0"}
    texts = [(("T",), (604, 2)), (("bad T",), (603, 2)), (("B of version 1", "X"), (603, 3)), (("B", "X"), (604, 3))]
    heading = ",".join(["row", *(f"c{at}" for at in range(1, 15))]) + "\n"
    with two_pledges() as (server, _):
        for names, wanted in texts:
            text = heading + "".join(rows[name] + "," * (14 - rows[name].count(",")) + "\n" for name in names)
            with server.connect() as peer:
                peer.sendall(request("POST", "/books/7/import", KEY, IMPORT, CLOSE, body=text))
                said = json.loads(read_all(peer).partition(b"\r\n\r\n")[2])
            expect(names, (said["code"], said["row"]), wanted)


def a_body_is_one_of_the_nested_objects():
    with two_pledges() as (server, _):
        for lists, wanted in (126, b'{"version":1}'), (127, b'{"code":708,"name":"BadBody"}'):
            body = '{"keep_after":0,"keep_before":0,"rate":0,"version":1,"x":' + "[" * lists + "]" * lists + "}"
            with server.connect() as peer:
                peer.sendall(request("POST", "/books/7/terms", KEY, CLOSE, body=body))
                expect(f"{lists} lists in a body", read_all(peer).partition(b"\r\n\r\n")[2], wanted)


def refused_while_it_is_written(server, code, made):
    """Sends a body twenty times, and checks that the client sees this refusal or that the connection is broken."""
    seen, fields = {}, {"Pledge-Key": BROKER, "Import-Key": BROKER, "Connection": "close"}
    for _ in range(20):
        connection = http.client.HTTPConnection("127.0.0.1", server.port, timeout=60)
        try:
            connection.request("POST", "/books/7/import", made(), fields)
            said = json.loads(connection.getresponse().read())["code"]
        except OSError as why:
            said = type(why).__name__
        connection.close()
        seen[said] = seen.get(said, 0) + 1
    print(f"        http.client saw {seen}", flush=True)
    expect("what was seen", set(seen) <= {code, "BrokenPipeError", "ConnectionResetError"}, True)


def a_body_that_is_refused_while_it_is_written():
    """A body that is too long, and one in chunks even if it is short. One byte less than too long is read."""
    with two_pledges() as (server, _):
        refused_while_it_is_written(server, 705, lambda: b"x" * 2 * BODY_BYTES)
        refused_while_it_is_written(server, 703, lambda: iter([b"{}"]))
        with server.connect() as peer:
            peer.sendall(request("POST", "/books/7/import", KEY, IMPORT, CLOSE, body="x" * BODY_BYTES))
            expect("the longest body", read_all(peer).endswith(b'{"code":602,"name":"Columns","row":1}'), True)


def a_length_that_is_not_that_of_the_body():
    """No reply comes to a body that is too short, and what comes after a body is read as the next request: neither is 704.
    A body of no known length is sent in chunks."""
    with two_pledges() as (server, _):
        body = '{"keep_after":0,"keep_before":0,"rate":0,"version":1}'
        whole = request("POST", "/books/7/terms", KEY, body=body)
        begun = time.monotonic()
        with server.connect() as peer:
            peer.sendall(whole[:-1])
            expect("the reply to a body without its last byte", read_all(peer), b"")
        expect("the connection ended after the silence", time.monotonic() - begun > PATIENCE - 1, True)
        with server.connect() as peer:
            peer.sendall(whole + b"x\r\n\r\n")
            codes = re.findall(rb'"(?:version|code)":\d+', read_all(peer))
        expect("the replies to a body with more bytes after it", codes, [b'"version":1', b'"code":701'])
        # The reply comes to the head, before a chunk is read.
        head = whole.partition(b"\r\n\r\n")[0]
        with server.connect() as peer:
            peer.sendall(re.sub(rb"Content-Length: \d+", b"Transfer-Encoding: chunked", head) + b"\r\n\r\n")
            expect("the reply to chunks", b'"code":703' in read_all(peer), True)


def several_receipts():
    with two_pledges() as (server, receipts):
        fields = [word for it in receipts for word in ("-H", f"Pledge-Receipt: {it}")]
        shown = output("curl", "-sS", *fields, held(server))
        expect("by curl", re.findall(r"Pledge \d", shown), ["Pledge 1", "Pledge 2"])
        joined = output("curl", "-sS", "-H", f"Pledge-Receipt: {', '.join(receipts)}", held(server))
        expect("joined by a comma", json.loads(joined)["code"], 710)
        connection = http.client.HTTPConnection("127.0.0.1", server.port, timeout=60)
        connection.putrequest("GET", "/books/7/held")
        for it in receipts:
            connection.putheader("Pledge-Receipt", it)
        connection.putheader("Connection", "close")
        connection.endheaders()
        expect("by putheader", re.findall(rb"Pledge \d", connection.getresponse().read()), [b"Pledge 1", b"Pledge 2"])
        connection.close()


def two_senders_of_one_entry():
    """Both get the answer that it is entered, and it is entered once."""
    with two_pledges() as (server, receipts):
        session, entry, at = server.session(), {"pence": 1000, "seq": 1}, "/books/7/pledges/1/repay"
        one = session.bearer(receipts[0], "POST", "/books/7/held/repay", entry)
        expect("both get the same answer", (session.broker("POST", at, entry), one[0]), (one, 200))
        shown = session.broker("GET", "/books/7/pledges/1")[1]
        expect("it is entered once", (shown.count("Entry "), "Owing 90.00\n" in shown), (1, True))
        expect("another sum", session.broker("POST", at, {"pence": 999, "seq": 1})[1]["code"], 301)
        session.close()


@contextlib.contextmanager
def proxied(port):
    """The port of nginx in front of a service, as `make pages` starts it."""
    with tempfile.TemporaryDirectory() as room:
        here = free_port()
        environment = {**os.environ, "PORT": str(port), "PAGES_PORT": str(here), "ROOM": os.path.join(room, "pages")}
        os.chmod(room, 0o755)
        how = dict.fromkeys(("stdin", "stdout", "stderr"), subprocess.DEVNULL)
        proxy = subprocess.Popen([os.path.join(TOP, "tools/pages")], env=environment, **how)
        try:
            for _ in range(100):
                with contextlib.suppress(OSError), socket.create_connection(("127.0.0.1", here), timeout=10):
                    break
                time.sleep(0.1)
            yield here
        finally:
            proxy.send_signal(signal.SIGTERM)
            proxy.wait(timeout=30)


def what_the_proxy_says_by_itself():
    """JSON with `handed_on` and without `code`, and how long to wait."""
    if not has("nginx"):
        return not_tried("the proxy's own replies", "nginx is not installed")
    with open(os.path.join(TOP, "docs/openapi.json"), encoding="utf-8") as it:
        told = json.load(it)["components"]
    with two_pledges() as (server, receipts), proxied(server.port) as port:
        view = {"Pledge-Receipt": receipts[0]}
        statuses = [by_proxy(port, "/books/7/held", **it)[0] for it in (view, {"Pledge-Receipt": "x"})]
        expect("what the service says", statuses, [200, 400])
        with socket.create_connection(("127.0.0.1", port), timeout=60) as idle:
            idle.sendall(request("GET", "/books/7/held", "Host: x", f"Pledge-Receipt: {receipts[0]}"))
            expect("a reply to one that stays", idle.recv(12), b"HTTP/1.1 200")
            begun = time.monotonic()
            expect("a reply to another", by_proxy(port, "/books/7/held", **view)[0], 200)
            expect("it did not wait", time.monotonic() - begun < PATIENCE - 1, True)
        expect("a target of another shape", by_proxy(port, "/books/7/held?x=1"), (404, not_handed_on(404), None))
        for target in ("/books", "/books/", "/books/7/nothing/more"):
            expect(target, by_proxy(port, target)[:2] in ((404, not_handed_on(404)), (404, {"code": 706, "name": "NoRoute"})), True)
        status, said, _ = by_proxy(port, "/book/7/pledges/1")
        expect("a target that is the pages'", (status, said[:15]), (404, b"<!doctype html>"))
        expect("a long body", by_proxy(port, "/books/7/import", b"x" * (BODY_BYTES + 1))[:2], (413, not_handed_on(413)))
        expect("a long head", by_proxy(port, "/books/7/held", X="x" * 40_000)[:2], (400, not_handed_on(400)))
        seen = [by_proxy(port, "/books/7/held", **view)]
        end = time.monotonic() + 60
        while seen[-1][0] != 429 and time.monotonic() < end:
            seen.append(by_proxy(port, "/books/7/held", **view))
        expect("many", {(it[0], it[2]) for it in seen}, {(200, None), (429, "2")})
        expect("their answer", next(it[1] for it in seen if it[0] == 429), not_handed_on(429))
        time.sleep(2)
        expect("after as long as it said", by_proxy(port, "/books/7/held", **view)[0], 200)
        server.program.kill()
        server.program.wait()
        away = by_proxy(port, "/books/7/pledges/1", **{"Pledge-Key": BROKER})
        expect("a service that is not there", away, (503, not_handed_on(503), "2"))
        expect("its schema", sorted(told["schemas"]["ProxyRefusal"]["required"]), ["handed_on", "proxy"])


def not_handed_on(status):
    return {"proxy": status, "handed_on": False}


def by_proxy(port, target, body=None, **fields):
    """The status of a reply, what it says, and how long it asks to wait."""
    connection = http.client.HTTPConnection("127.0.0.1", port, timeout=60)
    connection.request("GET" if body is None else "POST", target, body, fields)
    reply = connection.getresponse()
    said = reply.read()
    connection.close()
    if reply.getheader("Content-Type").startswith("application/json"):
        said = json.loads(said)
    return reply.status, said, reply.getheader("Retry-After")


def steps(receipt):
    """Requests that change something, in the order of a story, as their targets and bodies; and what the table of
    retries says of a repeat: the same answer, or a refusal."""
    pledge, held = "/books/7/pledges/1", "/books/7/held"
    day = str(datetime.datetime.now(datetime.timezone.utc).date())
    opening = {"article": "Cup", "five_days": False, "kind": "fixed", "pence": 10000, "ref": "A2"}
    return (
        ("POST", "/books/7/terms", {"keep_after": 0, "keep_before": 0, "rate": 1, "version": 2}, None),
        ("POST", "/books/7/pledges", opening, None),
        ("POST", f"{pledge}/repay", {"pence": 100, "seq": 1}, None),
        ("POST", f"{held}/repay", {"pence": 100, "seq": 2}, None),
        ("POST", f"{pledge}/hold", None, None), ("POST", f"{pledge}/release", None, None),
        ("POST", f"{held}/ask", {"day": day, "window": 3}, None), ("POST", f"{pledge}/decide", {"yes": True}, None),
        ("POST", f"{held}/cancel", None, None), ("POST", f"{pledge}/extend", {"until": "2199-12-31"}, None),
        ("POST", f"{held}/redeem", {"paid": 9800}, 402),
    ), {"Pledge_Key": BROKER, "Pledge_Receipt": receipt}


@contextlib.contextmanager
def refused_while(path, calls, error=5, **how):
    """A service over a store that has one pledge, its receipt, and a file: calls are refused as long as that is there."""
    during = os.path.join(os.path.dirname(path), "during")
    with Server(path, env=refusing.refusing(calls, during=during, error=error, **how)) as server:
        session = Once(server.port)
        session.open_book()
        yield server, session, session.open_pledge(1), during


def after_492_the_table_of_retries_holds():
    """While the disk is full nothing is changed. After that, the same again is done once."""
    with tempfile.TemporaryDirectory() as room:
        with refused_while(os.path.join(room, "books"), "w", error=28, at=1, mode="on") as (_, session, receipt, during):
            requests, fields = steps(receipt)
            for method, target, body, repeated in requests:
                before = session.broker("GET", "/books/7/export")
                with open(during, "w"):
                    refused = session.ask(method, target, body, **fields)
                    expect(f"{target}, with a full disk", refused, (503, {"code": 492, "name": "Store"}))
                    expect(f"the book after {target}", session.broker("GET", "/books/7/export"), before)
                os.remove(during)
                done = session.ask(method, target, body, **fields)
                expect(f"{target}, the same again", done[0], 200)
                again = session.ask(method, target, body, **fields)
                expect(f"{target}, once more", again[1]["code"] if repeated else again, repeated or done)


def after_492_the_service_may_end():
    """A sync that failed: no connection is answered until the next start, which may find the request done. The same
    again is one entry."""
    with tempfile.TemporaryDirectory() as room:
        path = os.path.join(room, "books")
        with refused_while(path, "s", at=1, mode="on") as (server, session, _, during):
            with open(during, "w"):
                refused = session.broker("POST", "/books/7/pledges/1/repay", {"pence": 100, "seq": 1})
            expect("a sync that failed", refused, (503, {"code": 492, "name": "Store"}))
            with contextlib.suppress(OSError, http.client.HTTPException):
                session.broker("GET", "/books/7/pledges/1")
            expect("how it ends", (server.program.wait(timeout=60), server.program.stderr.read()), (1, b"fault 503 Store\n"))
        with Server(path) as server:
            session = Once(server.port)
            for _ in range(2):
                said = session.broker("POST", "/books/7/pledges/1/repay", {"pence": 100, "seq": 1})
                expect("the same again", (said[0], said[1]["seq"]), (200, 1))
            expect("it is one entry", session.broker("GET", "/books/7/pledges/1")[1].count("Entry "), 1)


def after_491_the_same_again_is_done():
    """Memory that is refused once, at one place after another, until a repayment is answered 491."""
    for at in (1, 2, 3, 5, 8, 13, 21, 34, 55, 89, 144, 233):
        with tempfile.TemporaryDirectory() as room:
            with refused_while(os.path.join(room, "books"), "m", at=at) as (_, session, _, during):
                entry = "POST", "/books/7/pledges/1/repay", {"pence": 100, "seq": 1}
                with open(during, "w"):
                    try:
                        refused = session.broker(*entry)
                    except (OSError, http.client.HTTPException):
                        continue
                if refused[0] == 200:
                    continue
                expect("without memory", refused, (503, {"code": 491, "name": "Memory"}))
                expect("nothing was changed", session.broker("GET", "/books/7/pledges/1")[1].count("Entry "), 0)
                expect("the same again", session.broker(*entry)[0], 200)
                expect("it is one entry", session.broker("GET", "/books/7/pledges/1")[1].count("Entry "), 1)
                return
    not_tried("491", "the memory of this program can't be refused")


def answered(stream):
    """What the program answers to a stream on a day of long ago."""
    words = [PROGRAM, "answer", ":memory:", "2024-01-31", SEED, OPERATOR]
    return subprocess.run(words, input=stream, capture_output=True, timeout=60, check=True).stdout


def a_pledge_of_long_ago():
    """The requests that take it."""
    book = {"capacity": 1, "key": BROKER, "name": "High Street"}
    terms = {"version": 1, "rate": 2667, "keep_before": 0, "keep_after": 0}
    opening = {"ref": "A1", "article": "Ring", "kind": "fixed", "pence": 10000, "five_days": False}
    return b"".join([request("POST", "/books/7", f"Pledge-Key: {OPERATOR}", body=json.dumps(book)),
                     request("POST", "/books/7/terms", KEY, body=json.dumps(terms)),
                     request("POST", "/books/7/pledges", KEY, body=json.dumps(opening))])


def two_ways_to_try():
    """A store in memory ends with the program; the same day, seed and requests get the same replies."""
    with two_pledges() as (_, receipts):
        pass
    with Server() as server:
        session = server.session()
        expect("another sandbox", session.bearer(receipts[0], "GET", "/books/7/held")[1]["code"], 402)
        session.close()
    stream = a_pledge_of_long_ago() + request("GET", "/books/7/pledges/1", KEY)
    said = [answered(stream) for _ in range(2)]
    expect("the same replies", (said[0], b"Taken 2024-01-31\n" in said[0]), (said[1], True))
    late = answered(request("GET", "/x") + stream)
    receipts = [re.findall(rb'"receipt":"(1-[0-9a-f-]{36})"', it) for it in (said[0], late)]
    expect("how many receipts", [len(it) for it in receipts], [1, 1])
    expect("that a refused request before it changes a receipt", receipts[0] != receipts[1], True)


def old_days_by_an_import():
    """A pledge that was taken long ago comes in by an import, and its period is over."""
    exported = answered(a_pledge_of_long_ago() + request("GET", "/books/7/export", KEY))
    rows = "row,c1" + exported.decode().split("row,c1", 1)[1]
    with Server() as server:
        session = server.session()
        session.ask("POST", "/books/8", {"capacity": 1, "key": BROKER, "name": "x"}, Pledge_Key=OPERATOR)
        session.close()
        with server.connect() as peer:
            peer.sendall(request("POST", "/books/8/import", KEY, IMPORT, CLOSE, body=rows))
            expect("the import", read_all(peer).endswith(b'{"imported":1}'), True)
        session = Session(server.port)
        shown = session.broker("GET", "/books/8/pledges/1")[1]
        expect("its statement", ("Taken 2024-01-31\n" in shown, "Status realisable\n" in shown), (True, True))
        session.close()


AFTER_FAULTS = (
    after_492_the_table_of_retries_holds, after_492_the_service_may_end, after_491_the_same_again_is_done,
)
if __name__ == "__main__":
    if refusing.library() is None:
        not_tried("491 and 492", "no C compiler is there")
    main(
        five_requests_by_each_client, an_idle_connection_bars_the_others, how_connections_end,
        a_body_that_is_refused_while_it_is_written, a_length_that_is_not_that_of_the_body, several_receipts,
        two_senders_of_one_entry, what_the_proxy_says_by_itself, two_ways_to_try, old_days_by_an_import,
        heads_by_the_grammar, the_columns_of_a_row_before_its_place, a_body_is_one_of_the_nested_objects,
        *([] if refusing.library() is None else AFTER_FAULTS),
    )
