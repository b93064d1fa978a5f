"""The first example of each language: it shows pledges by their receipts, and its second request does not wait for the
end of its first one's connection. And the requests for editors, each of which the service answers."""
import contextlib
import glob
import http.client
import os
import re
import shutil
import socket
import subprocess
import tempfile
import threading

from tests.library.checks import expect, main, not_tried
from tests.library.keys import BROKER, OPERATOR
from tests.library.packages import missing, provide
from tests.library.paths import PROGRAM, TOP
from tests.library.program import Server
from tests.library.relayed import Relay

FIRST = os.path.join(TOP, "examples/first")
# Each language: its example, how it is run, and Debian's packages for it.
LANGUAGES = {
    "Go": ("show.go", ["{room}/show"], {"go": "golang-go"}),
    "Ruby": ("show.rb", ["ruby", "{example}"], {"ruby": "ruby"}),
    "Perl": ("show.pl", ["perl", "{example}"], {"perl": "perl"}),
    "PHP": ("show.php", ["php", "{example}"], {"php": "php-cli"}),
    "Python": ("show.py", ["/usr/bin/python3", "{example}"], {"/usr/bin/python3": "python3"}),
    "JavaScript": ("show.mjs", ["node", "{example}"], {"node": "nodejs"}),
    "Java": ("Show.java", ["java", "-Djdk.httpclient.allowRestrictedHeaders=connection", "{example}"], {
        "java": "openjdk-17-jdk-headless"}),
}
# What a language's library needs beside the language, by a file of it.
LIBRARIES = {
    "PHP": ("/usr/share/doc/php8.2-curl", "php-curl"), "Python": ("/usr/lib/python3/dist-packages/requests", "python3-requests"),
}


def has(language):
    packages = dict(LANGUAGES[language][2])
    file, package = LIBRARIES.get(language, ("/", ""))
    if not os.path.exists(file):
        packages[f"the library of {package}"] = package
    provide(packages)
    absent = missing(LANGUAGES[language][2]) or ([] if os.path.exists(file) else [package])
    if absent:
        not_tried(f"the example in {language}", f"there is no {absent[0]}")
    return not absent


def run_example(language, room, port, receipts):
    example, words, _ = LANGUAGES[language]
    made = [word.format(room=room, example=os.path.join(FIRST, example)) for word in words]
    return subprocess.run(
        [*made, f"http://localhost:{port}", "7", *receipts], stdin=subprocess.DEVNULL, capture_output=True, text=True,
        timeout=120,
    )


def build_for_go(room, source=os.path.join(FIRST, "show.go"), name="show"):
    how = {**os.environ, "GO111MODULE": "off", "GOCACHE": os.path.join(room, "cache"), "GOFLAGS": ""}
    words = ["go", "build", "-o", os.path.join(room, name), source]
    subprocess.run(words, check=True, env=how, capture_output=True, timeout=200)


def each_language_asks_twice_without_waiting():
    with Server() as server, tempfile.TemporaryDirectory() as room, Relay(server.port) as relay:
        session = server.session()
        session.open_book()
        receipts = [session.open_pledge(number) for number in (1, 2)]
        session.close()
        for language in LANGUAGES:
            if not has(language):
                continue
            if language == "Go":
                build_for_go(room)
            ran = run_example(language, room, relay.port, receipts)
            expect(f"how the example in {language} ends", (ran.returncode, ran.stderr), (0, ""))
            shown = ran.stdout
            expect(f"what {language} shows", (shown.count("200"), shown.count("Pledge 1\n"), shown.count("Pledge 2\n")), (2, 1, 1))
            print(f"        {max(relay.waits):.2f} s, the longer wait of two requests in {language}", flush=True)
            relay.none_waited(language, 2)


def each_example_is_short():
    """A reader sees an example as a whole; that in Go is laid out as gofmt does it."""
    for example, _, _ in LANGUAGES.values():
        with open(os.path.join(FIRST, example), encoding="utf-8") as it:
            lines = len(it.read().splitlines())
        expect(f"{example} has at most 27 lines, and not {lines}", lines <= 27, True)
    if has("Go"):
        ran = subprocess.run(["gofmt", "-d", os.path.join(FIRST, "show.go")], capture_output=True, text=True, timeout=60)
        expect("what gofmt changes", (ran.returncode, ran.stdout, ran.stderr), (0, "", ""))


# How an example ends if its reply was cut. Perl's library makes a reply of its own from such a fault.
AFTER_A_CUT = {
    "Go": (1, "unexpected EOF"), "Ruby": (1, "the reply was cut"), "Perl": (0, ""), "PHP": (1, "no whole reply"),
    "Python": (1, "the reply was cut"), "JavaScript": (1, ""), "Java": (1, "IOException"),
}
# A reply that ends in the middle of a statement. Of one that ends in its head, curl and the libraries of PHP, Python and
# Ruby may report the status 200, an empty body and no error.
CUT_IN_THE_BODY = b"HTTP/1.1 200 OK\r\nContent-Length: 99\r\nContent-Type: text/plain\r\n\r\nPledge 1\n"
CUT_IN_THE_STATUS = b"HTTP/1.1 200"
# The head of the proxy's replies is long: it may be cut in a field before or after the length.
LONG = b"Content-Security-Policy: " + b"default-src 'none'; " * 60
# Each reply that is cut in its head, with the exit status of curl and the HTTP status that it reports.
CUT_IN_THE_HEAD = {
    CUT_IN_THE_STATUS: (52, b"000"), b"HTTP/1.1 200 OK\r\n": (0, b"200"),
    b"HTTP/1.1 200 OK\r\nContent-Length: 9": (0, b"200"), b"HTTP/1.1 200 OK\r\n" + LONG: (0, b"200"),
    b"HTTP/1.1 200 OK\r\nContent-Type: text/plain; charset=utf-8\r\nContent-Length: 185\r\n" + LONG: (18, b"200"),
}


def read_request(stream):
    """Reads one whole request, however many pieces it comes in: its method, or "" at the connection's end."""
    method = stream.readline().decode().partition(" ")[0]
    if method:
        stream.read(int(http.client.parse_headers(stream).get("Content-Length", 0)))
    return method


@contextlib.contextmanager
def cutting(reply):
    """A server that answers each request with these bytes: its port."""
    def serve():
        while True:
            try:
                peer, _ = it.accept()
            except OSError:
                return
            with contextlib.suppress(OSError), peer, peer.makefile("rb") as stream:
                read_request(stream)
                peer.sendall(reply)

    with socket.create_server(("127.0.0.1", 0)) as it:
        threading.Thread(target=serve, daemon=True).start()
        yield it.getsockname()[1]
        it.shutdown(socket.SHUT_RDWR)


def a_reply_that_was_cut_is_not_shown():
    """No example takes the beginning of a statement for the whole; curl and Python's own client report it, too."""
    with cutting(CUT_IN_THE_BODY) as port, tempfile.TemporaryDirectory() as room:
        for language, (wanted, why) in AFTER_A_CUT.items():
            if not has(language):
                continue
            if language == "Go":
                build_for_go(room)
            ran = run_example(language, room, port, ["1-x"])
            expect(f"how {language} ends", (ran.returncode, why in ran.stderr), (wanted, True))
            expect(f"what {language} shows of it", "Pledge" in ran.stdout, False)
            if language == "Perl":
                expect("what Perl shows", ran.stdout.startswith("599\n"), True)
        ran = subprocess.run(["curl", "-s", f"http://localhost:{port}/books/7/held"], capture_output=True, timeout=60)
        expect("how curl ends", ran.returncode, 18)
        connection = http.client.HTTPConnection("127.0.0.1", port, timeout=60)
        connection.request("GET", "/books/7/held")
        try:
            said = connection.getresponse().read()
        except http.client.IncompleteRead:
            said = None
        connection.close()
        expect("what Python's own client reads", said, None)


def a_reply_that_was_cut_in_its_head_is_no_success():
    """No example takes such a reply for a statement, although some libraries report no error. curl reports one if the
    cut is in the status line, or if the length came before it."""
    languages = [language for language in AFTER_A_CUT if has(language)]
    with tempfile.TemporaryDirectory() as room:
        if "Go" in languages:
            build_for_go(room)
        for reply, by_curl in CUT_IN_THE_HEAD.items():
            with cutting(reply) as port:
                for language in languages:
                    ended_by_a_cut(language, room, port, reply)
                words = ["curl", "-s", "-w", "%{http_code}", f"http://localhost:{port}/books/7/held"]
                ran = subprocess.run(words, capture_output=True, timeout=60)
                expect(f"what curl reports of {reply[:60]}", (ran.returncode, ran.stdout), by_curl)


def ended_by_a_cut(language, room, port, reply):
    """An example ends as it does after a cut, and shows no status 200."""
    wanted, why = AFTER_A_CUT[language]
    ran = run_example(language, room, port, ["1-x"])
    # Some libraries call a cut status line by another name.
    is_named = reply == CUT_IN_THE_STATUS or why in ran.stderr
    expect(f"how {language} ends after {reply[:60]}", (ran.returncode, is_named), (wanted, True))
    expect(f"what {language} shows of {reply[:60]}", ran.stdout.startswith("200"), False)


def a_body_of_ruby_is_binary_if_it_is_not_ascii():
    """What docs/CLIENTS.md says of the encoding that Net::HTTP gives to the body of a reply."""
    if not has("Ruby"):
        return
    script = (
        'require "net/http"; r = Net::HTTP.new("127.0.0.1", ARGV[0].to_i).request(Net::HTTP::Get.new("/x")); '
        'print r.body.encoding, " ", r.body.force_encoding("UTF-8") == ARGV[1]'
    )
    for article, encoding in (("Ring", "UTF-8"), ("Jad\u00e9", "ASCII-8BIT")):
        body = f"Article {article}\n".encode()
        with cutting(b"HTTP/1.1 200 OK\r\nContent-Length: %d\r\n\r\n%s" % (len(body), body)) as port:
            words = ["ruby", "-Ku", "-e", script, str(port), body.decode()]
            ran = subprocess.run(
                words, env={**os.environ, "LC_ALL": "C.UTF-8"}, capture_output=True, text=True, timeout=60,
            )
        expect(f"the body with {article!r}", (ran.stdout, ran.stderr), (f"{encoding} true", ""))


def each_line_of_a_statement_is_read_by_the_expression():
    """The regular expression of docs/CLIENTS.md, over the statements of all stories."""
    with open(os.path.join(TOP, "docs/CLIENTS.md"), encoding="utf-8") as it:
        (written,) = re.findall(r"(?m)^ +(\^\(\?:Pledge .*\$)$", it.read())
    expression, seen = re.compile(written.replace("?<", "?P<")), set()
    # In JavaScript and Java a point matches no U+2028, which an article may contain.
    expect("a point that matches not each character of an article", re.search(r"(?<!\\)\.", written), None)
    for path in glob.glob(os.path.join(TOP, "tests/turns/*.txt")):
        with open(path, encoding="utf-8") as it:
            replies = [line.rstrip("\n") for line in it if line.startswith("200 OK|Pledge ")]
        for line in (line for reply in replies for line in reply.split("|")[1:] if line not in ("", "Unknown receipt")):
            found = expression.match(line)
            expect(f"the expression reads {line!r} of {os.path.basename(path)}", bool(found), True)
            seen |= {name for name, value in found.groupdict().items() if value}
    expect("groups that no story has", sorted(set(expression.groupindex) - seen), [])


def a_story_of_the_page_is_played():
    """The story that docs/CLIENTS.md shows, by the demo."""
    with open(os.path.join(TOP, "docs/CLIENTS.md"), encoding="utf-8") as it:
        story = re.search(r"(?m)((?:^ {6}(?:#|\d{4}-|\d{3} ).*\n)+)", it.read())[1]
    with tempfile.TemporaryDirectory() as room:
        path = os.path.join(room, "story.txt")
        with open(path, "w", encoding="utf-8") as it:
            it.write(re.sub(r"(?m)^ {6}", "", story))
        ran = subprocess.run(
            ["make", "-s", "demo", f"FILE={path}"], cwd=TOP, env={**os.environ, "PAWND": PROGRAM}, capture_output=True,
            text=True, timeout=120,
        )
    expect("how it ends", (ran.returncode, ran.stderr), (0, ""))
    expect("what it counts", "4 requests, 1 with an expected reply, 1 answered as expected" in ran.stdout, True)


def the_rows_of_the_page_can_be_sold():
    """The rows that docs/CLIENTS.md shows fill a book, and its pledge is sold."""
    with open(os.path.join(TOP, "docs/CLIENTS.md"), encoding="utf-8") as it:
        rows = re.search(r"(?m)((?:^ {6}(?:row|[BTPS]),.*\n)+)", it.read())[1]
    with Server() as server:
        session = server.session()
        book = {"capacity": 2, "key": BROKER, "name": "High Street"}
        expect("a book", session.ask("POST", "/books/7", book, Pledge_Key=OPERATOR), (200, {"book": 7}))
        session.close()
        words = ["curl", "-sS", "-H", "Connection: close", "-H", f"Pledge-Key: {BROKER}", "-H", f"Import-Key: {BROKER}"]
        words += ["--data-binary", re.sub(r"(?m)^ {6}", "", rows), f"http://localhost:{server.port}/books/7/import"]
        ran = subprocess.run(words, capture_output=True, text=True, timeout=60)
        expect("the import", ran.stdout, '{"imported":1}')
        session = server.session()
        code, said = session.broker("POST", "/books/7/pledges/1/sell", {"net": 14000})
        session.close()
        expect("the sale", (code, sorted(said)), (200, ["net", "shortfall", "surplus"]))


def requests_of_the_file(text, values):
    """The requests of a file for editors: method, target, fields and body."""
    for part in re.split(r"(?m)^###.*\n", text)[1:]:
        head, _, body = part.strip().partition("\n\n")
        for name, value in values.items():
            head = head.replace("{{" + name + "}}", value)
        first, *fields = head.split("\n")
        yield (*first.split(" ", 1), dict(field.split(": ", 1) for field in fields), body)


def the_requests_for_editors_are_answered():
    with open(os.path.join(TOP, "examples/requests.http"), encoding="utf-8") as it:
        text = it.read()
    with Server() as server:
        session = server.session()
        session.open_book()
        receipt = session.open_pledge(1)
        session.close()
        values = {"base": f"http://localhost:{server.port}", "book": "7", "key": BROKER, "receipt": receipt}
        asked = list(requests_of_the_file(text, values))
        expect("how many requests there are", len(asked), 7)
        for method, address, fields, body in asked:
            words = ["curl", "-sS", "-o", "/dev/null", "-w", "%{http_code}", "-X", method, address]
            words += [word for name, value in fields.items() for word in ("-H", f"{name}: {value}")]
            ran = subprocess.run(words + (["-d", body] if body else []), capture_output=True, text=True, timeout=60)
            wanted = "409" if address.endswith("/ask") else "200"
            expect(f"{method} {address}", ran.stdout in (wanted, "200"), True)


# One handle of PHP sends a GET and then a POST; with the option that CLIENTS.md names, each by a connection of its own.
PHP_TWICE = """
$call = curl_init();
curl_setopt_array($call, [CURLOPT_RETURNTRANSFER => true, CURLOPT_FORBID_REUSE => $argv[2] === "closing"]);
foreach (["GET", "POST"] as $method) {
    curl_setopt_array($call, [CURLOPT_URL => "$argv[1]/$method", CURLOPT_CUSTOMREQUEST => $method]);
    echo curl_exec($call) === false ? "nothing " : curl_getinfo($call, CURLINFO_RESPONSE_CODE) . " ";
}
"""
# Of Java the older client, and the one that CLIENTS.md has a row for. A short pause lets the first connection become free.
JAVA_TWICE = """
import java.io.*;
import java.net.*;
import java.net.http.*;
public class Twice {
    static int older(String method, String url) throws Exception {
        var call = (HttpURLConnection) new URL(url).openConnection();
        call.setRequestMethod(method);
        if (method.equals("POST")) {
            call.setDoOutput(true);
            call.getOutputStream().write(1);
        }
        call.getInputStream().readAllBytes();
        return call.getResponseCode();
    }
    public static void main(String[] words) throws Exception {
        var client = HttpClient.newBuilder().version(HttpClient.Version.HTTP_1_1).build();
        for (String method : new String[] {"GET", "POST"}) {
            try {
                var url = words[0] + "/" + method;
                var asked = HttpRequest.newBuilder(URI.create(url)).method(method, HttpRequest.BodyPublishers.noBody()).build();
                System.out.print((words[1].equals("older") ? older(method, url)
                    : client.send(asked, HttpResponse.BodyHandlers.ofString()).statusCode()) + " ");
            } catch (IOException fault) {
                System.out.print("error ");
            }
            Thread.sleep(100);
        }
    }
}
"""
NODE_TWICE = """
for (const method of ["GET", "POST"]) {
  const asked = fetch(process.argv[1], { method });
  const shown = await asked.then(async (reply) => (await reply.text(), reply.status), () => "error");
  process.stdout.write(`${shown} `);
  await new Promise((done) => setTimeout(done, 100));
}
process.exit();
"""
# The second word says how a connection is kept from being used again, or names a field that Go takes for a promise that a
# repeat is harmless.
GO_TWICE = """
package main

import (
	"bytes"
	"fmt"
	"io"
	"net/http"
	"os"
	"time"
)

func main() {
	client := http.DefaultClient
	if os.Args[2] == "transport" {
		client = &http.Client{Transport: &http.Transport{DisableKeepAlives: true}}
	}
	for _, method := range []string{"GET", "POST"} {
		request, _ := http.NewRequest(method, os.Args[1]+"/"+method, bytes.NewReader([]byte("{}")))
		request.Close = os.Args[2] == "request"
		request.Header.Set(os.Args[2], "1")
		if reply, err := client.Do(request); err != nil {
			fmt.Print("error ")
		} else {
			io.ReadAll(reply.Body)
			reply.Body.Close()
			fmt.Print(reply.StatusCode, " ")
		}
		time.Sleep(100 * time.Millisecond)
	}
}
"""
# The method of the second request on a connection, or of the first one on a connection of its own.
GO_ONCE_MORE = """
package main

import (
	"fmt"
	"io"
	"net/http"
	"os"
)

func main() {
	for range os.Args[2:] {
		if reply, err := http.Get(os.Args[1]); err != nil {
			fmt.Print("error ")
		} else {
			io.ReadAll(reply.Body)
			reply.Body.Close()
			fmt.Print(reply.StatusCode, " ")
		}
	}
}
"""
# A body whose length Go does not know, and the same with its length.
GO_WRAPPED = """
package main

import (
	"fmt"
	"io"
	"net/http"
	"os"
	"strings"
)

func main() {
	for _, length := range []int64{0, 2} {
		body := io.NopCloser(strings.NewReader("{}"))
		request, _ := http.NewRequest("POST", os.Args[1], body)
		request.ContentLength = length
		request.Close = true
		if reply, err := http.DefaultClient.Do(request); err != nil {
			fmt.Print("error ")
		} else {
			text, _ := io.ReadAll(reply.Body)
			fmt.Print(string(text), " ")
		}
	}
}
"""
# The second word is the method of the second request; a third one makes Ruby repeat nothing.
RUBY_TWICE = """
call = Net::HTTP.new("127.0.0.1", URI(ARGV[0]).port)
call.max_retries = 0 if ARGV[2]
call.start do
  print call.get("/").code, " "
  print((call.send_request(ARGV[1], "/", ARGV[1] == "POST" ? "" : nil).code rescue "error"), " ")
end
"""
PERL_TWICE = """
use HTTP::Tiny;
my $client = HTTP::Tiny->new(keep_alive => 1);
print $client->request($_, "$ARGV[0]/$_")->{status}, " " for "GET", $ARGV[1];
"""


@contextlib.contextmanager
def ending_in_a_second_request():
    """A server that answers the first request of a connection, and reads the second and then ends the connection, as a
    service that was killed after it had done the request: its address, and the methods of the requests that it read."""
    read = []

    def answer(peer):
        with contextlib.suppress(OSError), peer, peer.makefile("rb") as stream:
            for first in (True, False):
                method = read_request(stream)
                if method:
                    read.append(method)
                if not method or not first:
                    return
                peer.sendall(b"HTTP/1.1 200 OK\r\nContent-Length: 2\r\n\r\n{}")

    def serve():
        while True:
            try:
                peer, _ = it.accept()
            except OSError:
                return
            threading.Thread(target=answer, args=(peer,), daemon=True).start()

    with socket.create_server(("127.0.0.1", 0)) as it:
        threading.Thread(target=serve, daemon=True).start()
        yield f"http://127.0.0.1:{it.getsockname()[1]}", read
        it.shutdown(socket.SHUT_RDWR)


def made_in_go(room, name, source):
    """The path of the program of this name, which is built if there is a compiler."""
    path = os.path.join(room, name)
    with open(path + ".go", "w") as file:
        file.write(source)
    if has("Go"):
        build_for_go(room, path + ".go", name)
    return path


def go_sends_a_body_in_chunks_unless_it_knows_its_length():
    if not has("Go"):
        return not_tried("a wrapped body of Go", "there is no Go")
    with tempfile.TemporaryDirectory() as room, Server() as server:
        words = [made_in_go(room, "wrapped", GO_WRAPPED), f"http://localhost:{server.port}/books/7/terms"]
        shown = subprocess.run(words, stdin=subprocess.DEVNULL, capture_output=True, text=True, timeout=60).stdout
    expect("without a length", shown.startswith(('{"code":703,', "error ")), True)
    expect("with its length", shown.endswith('{"code":709,"name":"BadKey"} '), True)


def some_clients_send_a_post_again_by_themselves():
    """On a connection that was used before, and without reporting it. On a new connection libcurl sends nothing twice."""
    twice, once = ["GET", "POST", "POST"], ["GET", "POST"]
    curl = ["curl", "-s", "-X", "GET", "{url}", "--next", "-s", "-X", "POST", "{url}"]
    with tempfile.TemporaryDirectory() as room:
        java = os.path.join(room, "Twice.java")
        with open(java, "w") as file:
            file.write(JAVA_TWICE)
        go, more = (made_in_go(room, name, source) for name, source in (("twice", GO_TWICE), ("more", GO_ONCE_MORE)))
        runs = [
            (None, "curl", curl, "{}{}", twice), ("PHP", "PHP, kept", ["php", "-r", PHP_TWICE, "{url}", "kept"], "200 200 ", twice),
            ("PHP", "PHP, CURLOPT_FORBID_REUSE", ["php", "-r", PHP_TWICE, "{url}", "closing"], "200 200 ", once),
            ("Java", "HttpURLConnection", ["java", java, "{url}", "older"], "200 200 ", twice),
            ("Java", "HttpURLConnection without retryPost", ["java", "-Dsun.net.http.retryPost=false", java, "{url}", "older"],
             "200 error ", once),
            ("Java", "java.net.http", ["java", java, "{url}", "newer"], "200 error ", once),
            ("JavaScript", "node's fetch", ["node", "--input-type=module", "-e", NODE_TWICE, "{url}"], "200 error ", once),
            ("Ruby", "Net::HTTP", ["ruby", "-rnet/http", "-e", RUBY_TWICE, "{url}", "POST"], "200 error ", once),
            ("Ruby", "Net::HTTP with GET", ["ruby", "-rnet/http", "-e", RUBY_TWICE, "{url}", "GET"], "200 200 ", ["GET"] * 3),
            ("Ruby", "Net::HTTP without retries", ["ruby", "-rnet/http", "-e", RUBY_TWICE, "{url}", "GET", "none"],
             "200 error ", ["GET"] * 2),
            ("Perl", "HTTP::Tiny", ["perl", "-e", PERL_TWICE, "{url}", "POST"], "200 599 ", once),
            ("Perl", "HTTP::Tiny with GET", ["perl", "-e", PERL_TWICE, "{url}", "GET"], "200 200 ", ["GET"] * 3),
            ("Go", "Go's own client, kept", [go, "{url}", "kept"], "200 error ", once),
            ("Go", "Go's own client with GET", [more, "{url}", "once", "twice"], "200 200 ", ["GET"] * 3),
            ("Go", "Go's own client by Close", [go, "{url}", "request"], "200 200 ", once),
            ("Go", "Go's own client by DisableKeepAlives", [go, "{url}", "transport"], "200 200 ", once),
            ("Go", "Go's own client with Idempotency-Key", [go, "{url}", "Idempotency-Key"], "200 200 ", twice),
            ("Go", "Go's own client with X-Idempotency-Key", [go, "{url}", "X-Idempotency-Key"], "200 200 ", twice),
        ]
        for language, who, words, shown, methods in runs:
            if language and not has(language):
                continue
            with ending_in_a_second_request() as (url, read):
                made = [word.replace("{url}", url) for word in words]
                ran = subprocess.run(made, stdin=subprocess.DEVNULL, capture_output=True, text=True, timeout=60)
            expect(f"what {who} shows, and what the server read", (ran.stdout, read), (shown, methods))


if not shutil.which("curl"):
    provide({"curl": "curl"})
main(
    each_example_is_short, each_language_asks_twice_without_waiting, a_reply_that_was_cut_is_not_shown,
    a_reply_that_was_cut_in_its_head_is_no_success, a_body_of_ruby_is_binary_if_it_is_not_ascii,
    some_clients_send_a_post_again_by_themselves, go_sends_a_body_in_chunks_unless_it_knows_its_length,
    the_requests_for_editors_are_answered,
    each_line_of_a_statement_is_read_by_the_expression, a_story_of_the_page_is_played, the_rows_of_the_page_can_be_sold,
)
