"""The description of the service, docs/openapi.json, against the program: it is valid, its examples are what the
program answers, each reply of a run of some thousand requests is as it says, and each refusal is listed at exactly
the routes that answer it, but for those named below."""
import atexit
import datetime
import importlib.util
import json
import os
import random
import re
import shutil
import subprocess
import sys
import tempfile

from tests.library.book_texts import COLUMNS, row
from tests.library.checks import Failed, expect, main, not_tried
from tests.library.described import (
    CODES, DAY, DESCRIPTION, NOBODY, OPERATIONS, PATH, VALIDATORS, Run, Schema, chosen, compact, resolved,
)
from tests.library.keys import BROKER
from tests.library.paths import TOP
from tests.library.sums import LARGE, SMALL
from tests.library.tables import opened

STRANGER = [["Pledge-Key", "99999999-9999-9999-9999-999999999999"]]
LATE = "2025-06-01"

# What no request can meet in a test: too little memory.
UNSEEN = {(name, 491) for name in OPERATIONS}
# What the rules name and no reply of a request has: the reader of a request's body does not fail.
UNTOLD = {607: "Read"}

# The commands on a pledge: a body of each, that of a broker's and that of a bearer's.
COMMANDS = {
    "draw": {"pence": 1, "seq": 2}, "repay": {"pence": 1, "seq": 2}, "hold": None, "release": None,
    "declareLost": {"paper": "sworn"}, "decideBooking": {"yes": True}, "sell": {"net": 1},
    "extend": {"until": "2027-01-01"},
}
BEARERS = {
    "repayHeld": {"pence": 1, "seq": 2}, "askBooking": {"day": "2024-03-04", "window": 3}, "cancelBooking": None,
    "redeem": {"paid": 1},
}

# In the system's memory, where it has a place for files there, since thousands of commits would wait for a disk.
ROOM = tempfile.mkdtemp(prefix="pawnd-description-", dir="/dev/shm" if os.access("/dev/shm", os.W_OK) else None)
atexit.register(shutil.rmtree, ROOM, ignore_errors=True)
RUN = Run(os.path.join(ROOM, "story"))


def turn_to(name):
    """The same run goes on over another file, or in memory where there is no name."""
    RUN.close()
    RUN.path = os.path.join(ROOM, name) if name else ":memory:"


def text(*rows):
    return "\n".join([COLUMNS, *rows, ""]).encode()


def it_is_valid_and_what_its_generator_writes():
    older = os.path.join(TOP, "docs/openapi-3.0.json")
    for word, path in (("openapi", PATH), ("openapi-3.0", older), ("clients", os.path.join(TOP, "docs/CLIENTS.md"))):
        made = subprocess.run([os.path.join(TOP, "tools/describe"), word], capture_output=True, timeout=60)
        expect(f"tools/describe {word}", (made.returncode, made.stderr), (0, b""))
        with open(path, "rb") as it:
            expect(
                f"{os.path.relpath(path, TOP)} is what tools/describe writes: run it, if a sentence of web/ changed",
                it.read() == made.stdout, True,
            )
    if importlib.util.find_spec("openapi_spec_validator"):
        import openapi_spec_validator
        try:
            openapi_spec_validator.validate(DESCRIPTION)
        except Exception as why:
            raise Failed(f"it is no OpenAPI description: {why}") from why
    else:
        not_tried("whether it is OpenAPI", "openapi-spec-validator is not installed")


def its_refusals_and_routes_are_those_of_the_rules():
    with open(os.path.join(TOP, "docs/RULES.md"), encoding="utf-8") as it:
        rules = it.read().split("\n## Requests\n")[1].split("\n## The program\n")[0]
    told = {
        int(code): name
        for code, name in re.findall(r"\b([1-7]\d\d) ([A-Z][A-Za-z]+)", rules)
        if int(code) not in (400, 503) and name not in ("Not", "Forbidden", "Conflict")
    }
    for codes, names in re.findall(r"^\| ([1-7]\d\d(?:, [1-7]\d\d)*) \| ([A-Za-z, ]+) \|", rules, re.MULTILINE):
        told.update(zip(map(int, codes.split(", ")), names.split(", "), strict=True))
    expect("codes and names", dict(sorted(told.items())), dict(sorted({**CODES, **UNTOLD}.items())))
    headings = {
        re.sub("[^a-z-]", "", line.lstrip("# ").lower().replace(" ", "-"))
        for line in open(os.path.join(TOP, "docs/RULES.md"), encoding="utf-8") if line.startswith("#")
    }
    for operation in OPERATIONS.values():
        expect(
            f"the section of the rules of {operation.name}",
            operation.said["externalDocs"]["url"].removeprefix("RULES.md#") in headings, True,
        )


def each_part_has_its_words():
    """Each operation, parameter and schema, and each member of a body or a reply."""
    parts = DESCRIPTION["components"]
    named = {
        **parts["schemas"], **parts["parameters"], **parts["securitySchemes"],
        **{it.name: it.said for it in OPERATIONS.values()},
    }
    expect("without words", [name for name, it in named.items() if len(it.get("description", "")) < 10], [])
    members = [
        (name, member, it)
        for name, schema in parts["schemas"].items() for member, it in schema.get("properties", {}).items()
    ]
    expect(
        "members without words",
        [
            (name, member)
            for name, member, it in members if "const" not in it and "description" not in {**resolved(it), **it}
        ],
        [],
    )


def each_part_has_its_form():
    """Whole numbers say how many bits they take, operations have a tag and one way to be let in, and each says what
    the proxy may answer in place of the service."""
    numbers = []

    def walk(value):
        if isinstance(value, dict):
            if value.get("type") == "integer":
                numbers.append(value)
            for it in value.values():
                walk(it)
        elif isinstance(value, list):
            for it in value:
                walk(it)
    walk(DESCRIPTION)
    counted = [it for it in numbers if "const" not in it]
    expect("numbers without a format", [it for it in counted if it.get("format") not in ("int32", "int64")], [])
    expect(
        "numbers that 32 bits don't hold",
        [it for it in counted if it["format"] == "int32" and it.get("maximum", 0) >= 2**31], [],
    )
    tags, schemes = {it["name"] for it in DESCRIPTION["tags"]}, set(DESCRIPTION["components"]["securitySchemes"])
    for operation in OPERATIONS.values():
        said = operation.said
        expect(f"the tags of {operation.name}", (len(said["tags"]), set(said["tags"]) <= tags), (1, True))
        expect(f"who may ask {operation.name}", (len(said["security"]), set(said["security"][0]) <= schemes), (1, True))
        for status in (400, 403, 404, 413, 429, 502, 503, 504):
            response = resolved(said["responses"].get(str(status)) or said["responses"]["default"])
            expect(
                f"the proxy's {status} in place of {operation.name}",
                Schema(response["content"]["application/json"]["schema"]).fault({"proxy": status, "handed_on": False}),
                None,
            )


def its_refusals_are_those_of_the_pages():
    """Each refusal has the name that it has in the pages, and says what to do."""
    sys.path.insert(0, os.path.join(TOP, "tools"))
    from description.sentences import sentences
    told = {code: name for code, (name, _, _) in sentences().items()}
    expect("codes and names", {code: told[code] for code in CODES}, CODES)
    expect(
        "without a remedy",
        [name for name in CODES.values() if len(DESCRIPTION["components"]["schemas"][name]["x-remedy"]) < 8], [],
    )


def the_page_has_each_reply_of_the_proxy():
    """docs/CLIENTS.md and the description name the same statuses of the proxy. A 502 of the proxy always says that the
    request may have been done, so the page gives no advice for the other case."""
    sys.path.insert(0, os.path.join(TOP, "tools"))
    from description.refusals import OF_THE_PROXY
    with open(os.path.join(TOP, "docs/CLIENTS.md"), encoding="utf-8") as it:
        section = it.read().partition("\n## The proxy's own replies\n")[2].partition("\n## ")[0]
    told = dict(re.findall(r"(?m)^\| (\d{3}(?:, \d{3})*) \| .* \| (.*) \|$", section))
    statuses = sorted(int(status) for cell in told for status in cell.split(", "))
    expect("the statuses of the page", statuses, sorted(OF_THE_PROXY))
    with open(os.path.join(TOP, "deploy/nginx/pawnd-refused.conf"), encoding="utf-8") as it:
        configured = it.read()
    expect("what a 502 says", re.findall(r'"proxy":502,"handed_on":(\w+)', configured), ["true"])
    expect("the page's advice for a 502 that was not passed on", told.get("502"), "`handed_on` is always true")


def each_operation_stands_once_among_the_retries():
    with open(os.path.join(TOP, "docs/CLIENTS.md"), encoding="utf-8") as it:
        rows = re.findall(r"^\| (`.*?) \|", it.read().split("\n## Retries\n")[1].split("\n## ")[0], re.M)
    expect("the operations", sorted(re.findall(r"`(\w+)`", " ".join(rows))), sorted(OPERATIONS))


def repeated(operation, step, body, first):
    """Whether the same request, sent again over a copy of the file, is answered as the operation's `x-repeat` says."""
    path, copy = RUN.path, os.path.join(ROOM, "copy")
    RUN.close()
    shutil.copyfile(path, copy)
    RUN.path = copy
    code, said = RUN.ask(operation.method, step["target"], step["fields"], body, step["day"])
    if operation.name == "sell":
        earlier, _ = RUN.ask(operation.method, step["target"], step["fields"], body, DAY)
        expect("a sale that is sent again after the clock was set back", earlier, 205)
    RUN.close()
    RUN.path = path
    when = operation.said["x-repeat"]["when"]
    wanted = {
        "always": (0, first), "if unchanged": (0, first), "never": (0, said),
        "refused if done": (305 if operation.name == "sell" else 402, said),
    }[when]
    expect(
        f"{operation.name}, which may be sent again: {when}", (code, said, said == first),
        (*wanted, "always" == when or "if unchanged" == when),
    )


def its_story_is_what_the_program_answers():
    turn_to("story")
    for step in DESCRIPTION["x-story"]:
        operation, at = OPERATIONS[step["operation"]], f"step {step['step']}"
        body = compact(operation.bodies[step["sends"]]) if "sends" in step else ""
        _, said = RUN.ask(operation.method, step["target"], step["fields"], body.encode(), step["day"], step["step"])
        expect(at, compact(said), compact(operation.examples()[step["status"], step["answered"]]))
        if step.get("sends") in operation.refused:
            expect(f"{at} is refused on purpose", said["code"], operation.refused[step["sends"]])
        if step["status"] == 200:
            repeated(operation, step, body.encode(), said)
    for operation in OPERATIONS.values():
        sent = {it.get("sends") for it in DESCRIPTION["x-story"] if it["operation"] == operation.name} - {None}
        expect(f"the bodies of {operation.name} that are sent", sent, set(operation.bodies))
        done = {
            it.get("sends")
            for it in DESCRIPTION["x-story"] if it["operation"] == operation.name and it["status"] == 200
        } - {None}
        expect(f"the bodies of {operation.name} that are done", set(operation.bodies) - set(operation.refused), done)
        for name, body in operation.bodies.items() if operation.body_kind == "application/json" else ():
            expect(f"{name} of {operation.name}", operation.body.fault(body), None)


def around(member):
    """The last value within a limit that the description has for a member, and the first beyond it: in bytes of plain letters and
    of letters of two bytes, or as a number."""
    member = resolved(member)
    most, last = member.get("x-max-bytes"), member.get("maximum")
    if most:
        yield from ("x" * most, "x" * (most + 1), "\u00e9" * (most // 2), "\u00e9" * (most // 2 + 1))
    if last:
        yield from (last, last + 1)


def bent(body, members):
    """A body, and the same with one member changed, left out or added."""
    values = [
        None, True, "x", "", -1, 0, 1, 1.5, "2024-02-29", "2024-2-9", "1999-12-31", "2200-01-01", "a\tb", "a\u007fb",
        BROKER.replace("-", ""), f"{{{BROKER}}}", f"urn:uuid:{BROKER}", f"Urn:uUId:{BROKER}", f"{{{BROKER}", BROKER[1:], [], {},
    ]
    yield from (body, {**body, "more": [1, {}]}, [], [body], "x", 1, None)
    for name in body:
        yield {other: value for other, value in body.items() if other != name}
        yield from ({**body, name: value} for value in (*values, *around(members[name])))


def bodies_are_refused_where_the_description_refuses_them():
    if not VALIDATORS:
        return not_tried("bodies against their schemas", "python3-jsonschema is not installed")
    turn_to(None)
    for operation in OPERATIONS.values():
        if operation.body_kind != "application/json":
            continue
        for body in bent(operation.first_body(), operation.body.schema.get("properties", {})):
            fields = STRANGER if operation.caller != "bearer" else None
            fits = operation.body.fault(body) is None if isinstance(body, dict) else False
            said = RUN.send(operation.name, None, compact(body).encode() if body is not None else b"null", fields)
            expect(f"{operation.name} with {body}", said["code"] != 708, fits)


def members_that_are_ignored_are_read():
    """What no reader of JSON can hold is refused in a member that is not named, too."""
    turn_to(None)
    for operation in OPERATIONS.values():
        more_members = (
            ('"\\ud800"', True), ("1e999", True), ("-1e999", True), ("1e308", False), ('"\\ud83d\\ude00"', False),
            ("{}", False),
        )
        for more, is_bad in more_members if operation.body_kind == "application/json" else ():
            body = compact(operation.first_body())[:-1] + f',"more":{more}}}'
            said = RUN.send(operation.name, None, body.encode(), STRANGER if operation.caller != "bearer" else None)
            expect(f"{operation.name} with {more}", said["code"] == 708, is_bad)


def the_last_of_members_with_one_name_counts():
    """Where the first value is refused and the last is not, the body is read, and the other way round it is refused."""
    turn_to(None)
    for operation in (it for it in OPERATIONS.values() if it.body_kind == "application/json"):
        plain = operation.first_body()
        for name in plain:
            for first, last, is_bad in (({}, plain[name], False), (plain[name], {}, True)):
                body = f"{{{json.dumps(name)}:{json.dumps(first)},{json.dumps({**plain, name: last})[1:]}"
                said = RUN.send(operation.name, None, body.encode(), STRANGER if operation.caller != "bearer" else None)
                expect(f"{operation.name} with {body}", said["code"] == 708, is_bad)


def texts_that_an_import_takes():
    """What is taken is of the schema of a text for an import, and goes out as of the schema of an export."""
    turn_to("texts")
    pledge = row("P", 1, "A1", '"=1+1, ""gold"" \u2028"', "fixed", 100, DAY, "", "no", 1, "no", DAY, "open")
    rows = [COLUMNS, row("B", 2, 1, 1), row("T", 1, 0, 0, 0), pledge, *secrets(1, 1)]
    plain = "\n".join([*rows, ""])
    older = plain.replace("B,2", "B,1")
    quoted = plain.replace(COLUMNS, ",".join(f'"{it}"' for it in COLUMNS.split(","))).replace("B,2", '"B","2"')
    taken = [
        plain, older, quoted, plain[:-1], plain.replace("\n", "\r\n"), plain.replace("\n", "\r"),
        plain.replace("\n", "\n\n"), f"\ufeff{plain}",
    ]
    kept = [
        plain.replace(",", ";"), plain.replace("B,2", "B, 2"), plain.replace(DAY, "31/01/2024"), plain.encode("utf-16"),
        plain.replace("gold", "gold\n"),
    ]
    handed_in, out = OPERATIONS["importBook"].body, OPERATIONS["exportBook"].schemas[200, "text/csv; charset=utf-8"]
    for book, given in enumerate([*taken, *kept], 1):
        RUN.send("makeBook", 0, {"capacity": 1, "key": BROKER, "name": "High Street"}, book=book)
        said = RUN.send("importBook", None, given if isinstance(given, bytes) else given.encode(), book=book)
        expect(f"the import {given[:200]!r}", said.get("imported"), 1 if given in taken else None)
        if given in taken:
            expect(f"its schema {given[:200]!r}", handed_in.fault(given), None)
            exported = RUN.send("exportBook", book=book)
            expect(f"what goes out of {given[:200]!r}", (exported, out.fault(exported)), (plain, None))


def head_refused(operation, code, fields, head=None, method=None, target=None, body=b""):
    target = target or operation.path.format(book=7, number=1, day=DAY)
    expect(
        f"{method} {target} with {fields} {head}",
        RUN.ask(method or operation.method, target, fields, body, head=head)[0], code,
    )


def heads_are_refused():
    """What is refused at every route by its bytes, its target, its keys or receipts, and its method, and a body that
    is no JSON."""
    turn_to(None)
    for operation in OPERATIONS.values():
        head_refused(operation, 701, [("bad name", "x")])
        head_refused(operation, 703, [("Transfer-Encoding", "chunked")])
        head_refused(operation, 704, [], "Content-Length: x\r\n")
        head_refused(operation, 705, [], "Content-Length: 1048577\r\n")
        head_refused(operation, 706, operation.fields(), target=operation.path.format(book=0, number=1, day=DAY))
        for method in ("PUT", "HEAD", "OPTIONS"):
            head_refused(operation, 707, operation.fields(), method=method)
        if operation.body_kind == "application/json":
            head_refused(operation, 708, operation.fields(), body=b"{")
        if operation.caller == "bearer":
            most = operation.said["x-receipts"]["most"]
            for code, receipts in (
                (712, []), (711, [NOBODY] * (most + 1)), (710, ["x"]), (710, [f"{NOBODY},{NOBODY}"]),
            ):
                head_refused(operation, code, [("Pledge-Receipt", it) for it in receipts])
        else:
            head_refused(operation, 709, [])
    for target in ("/", "/books", "/books/7/", "/books/7?x=1", "/books/%37", "/books/7/pledges/1/pawn"):
        expect(target, RUN.ask("GET", target, [])[0], 706)


def open_books():
    """Book 7 with four pledges: a ring, a small sum, an account, and a clock. Their receipts. Book 6 has no terms."""
    for book in (7, 6):
        RUN.send("makeBook", 0, {"capacity": 1, "key": BROKER, "name": "High Street"}, book=book)
    RUN.send("addTerms", 0, {"keep_after": 0, "keep_before": 0, "rate": 0, "version": 1})
    return [
        RUN.send("takePledge", 0, opening(ref, pence, kind))["receipt"]
        for ref, pence, kind in (
            ("A", LARGE, "fixed"), ("S", SMALL, "fixed"), ("R", LARGE, "running"), ("T", LARGE, "fixed"),
        )
    ]


def opening(ref, pence=LARGE, kind="fixed"):
    return {"article": "Ring", "five_days": False, "kind": kind, "pence": pence, "ref": ref}


def books_and_terms():
    for wanted, body, fields in (
        (404, {"capacity": 2, "key": BROKER, "name": "High Street"}, None),
        (410, {"capacity": 1, "key": BROKER, "name": "High Street"}, STRANGER),
    ):
        RUN.send("makeBook", wanted, body, fields)
    for wanted, version, rate, before, after in (
        (406, 1, 5, 0, 0), (102, 2, 20001, 0, 0), (103, 2, 0, 10000001, 0), (104, 2, 0, 5, 6),
    ):
        RUN.send("addTerms", wanted, {"keep_after": after, "keep_before": before, "rate": rate, "version": version})
    RUN.send("takePledge", 405, opening("A"), book=6)
    RUN.send("takePledge", 407, opening("A", 1))
    RUN.send("takePledge", 201, opening("B", 0))


def who_is_unknown():
    for name in OPERATIONS:
        operation = OPERATIONS[name]
        body = text(row("B", 2, 0, 0)) if name == "importBook" else operation.first_body()
        if operation.caller == "bearer":
            RUN.send(name, 402, body, receipt=NOBODY)
        elif operation.caller == "broker":
            RUN.send(name, 401, body, [*STRANGER, *operation.fields()[1:]])
        if "{number}" in operation.path:
            RUN.send(name, 403, body, number=99)


def entries(clock):
    for name, to in (("repay", {"number": 2}), ("repayHeld", {"receipt": clock})):
        for wanted, seq, pence in ((302, 0, 1), (201, 1, 0), (204, 1, 99_999_999), (0, 1, 5), (301, 1, 6)):
            RUN.send(name, wanted, {"pence": pence, "seq": seq}, **to)
    for wanted, seq, pence in ((0, 1, 100), (301, 1, 101), (302, 5, 1), (201, 2, 0), (203, 2, LARGE)):
        RUN.send("draw", wanted, {"pence": pence, "seq": seq}, number=3)
    RUN.send("draw", 202, {"pence": 1, "seq": 1})


def bookings(ring, clock):
    RUN.send("cancelBooking", 311, receipt=ring)
    RUN.send("decideBooking", 311, {"yes": True})
    RUN.send("askBooking", 313, {"day": "2024-03-04", "window": 16}, receipt=ring)
    RUN.send("askBooking", 312, {"day": "2024-01-01", "window": 3}, receipt=ring)
    for receipt in (ring, clock):
        RUN.send("askBooking", 0, {"day": "2024-03-04", "window": 3}, receipt=receipt)
    RUN.send("decideBooking", 0, {"yes": True})
    RUN.send("decideBooking", 408, {"yes": True}, number=4)
    RUN.send("askBooking", 0, {"day": "2024-02-04", "window": 3}, receipt=clock)
    RUN.send("decideBooking", 312, {"yes": True}, number=4, day="2024-02-10")


def declarations_and_extensions():
    RUN.send("declareLost", 307, {"paper": "written"})
    RUN.send("takePledge", 0, opening("U"), seed=7)
    RUN.send("declareLost", 308, {"paper": "sworn"}, number=5, seed=7)
    RUN.send("extend", 315, {"until": "2024-01-01"})
    RUN.send("extend", 0, {"until": "2024-09-01"})


def each_command(wanted, number, receipt, day):
    """Every command on a pledge is refused so."""
    for name, body in COMMANDS.items():
        RUN.send(name, wanted, body, number=number, day=day)
    for name, body in BEARERS.items():
        RUN.send(name, wanted, body, receipt=receipt, day=day)


def days_and_ends(small, clock):
    """What is refused on an earlier day, of a pledge that passed, and of one that was sold."""
    RUN.send("repay", 0, {"pence": 1, "seq": 1}, number=1)
    RUN.send("draw", 0, {"pence": 1, "seq": 2}, number=3)
    each_command(205, 4, clock, "2024-01-30")
    each_command(304, 2, small, LATE)
    for name, wanted, body in (
        ("draw", 314, {"pence": 1, "seq": 2}), ("extend", 314, {"until": "2027-01-01"}),
        ("sell", 201, {"net": 100_000_001}),
    ):
        RUN.send(name, wanted, body, number=4, day=LATE)
    RUN.send("sell", 306, {"net": 1}, number=4)
    RUN.send("hold", number=4)
    RUN.send("redeem", 303, {"paid": 1}, receipt=clock)
    RUN.send("release", number=4)
    RUN.send("redeem", 310, {"paid": 1}, receipt=clock)
    RUN.send("sell", 0, {"net": 9000}, number=4, day=LATE)
    each_command(305, 4, clock, LATE)


def imports():
    whole = RUN.send("exportBook", day=LATE).encode()
    RUN.send("makeBook", 0, {"capacity": 1, "key": BROKER, "name": "Low Street"}, book=8)
    for rows, wanted in (
        (text("B,2"), 601), (b"", 602), (text(row("B", 9)), 603), (text(row("T", 1, 0, 0, 0)), 604),
        (text(row("B", 2, 1, 0), row("T", 1, 20001, 0, 0)), 605), (text(row("B", 2, 100, 1)), 606), (whole, 0),
        (whole, 0),
    ):
        RUN.send("importBook", wanted, rows, book=8)
    RUN.send("importBook", 409, whole, [["Pledge-Key", BROKER], ["Import-Key", BROKER]], book=8)


def secrets(number, count):
    """The rows of so many secrets of a pledge, the first of them the opening's."""
    return [
        row("S", number, place, DAY, "sworn" if place > 1 else "opening", f"00000000-0000-0000-0000-{place:012}")
        for place in range(1, count + 1)
    ]


def counts_at_their_limits():
    """A book with 99 versions of terms, a pledge with 9,999 entries, and one with 100 declarations and 99
    extensions. A program that was built without its proof needs minutes for it."""
    turn_to("counts")
    RUN.send("makeBook", 0, {"capacity": 1, "key": BROKER, "name": "Full Street"}, book=9)
    terms = [row("T", version, version, 0, 0) for version in range(1, 100)]
    pledges = [
        row("P", number, f"L{number}", "Ring", "running", LARGE, DAY, "", "no", 99, "no", DAY, "open")
        for number in (1, 2)
    ]
    entered = [row("E", 1, seq, DAY, "draw" if seq % 2 else "repay", 1) for seq in range(1, 10_000)]
    extended = [
        row("X", 2, place, DAY, datetime.date(2024, 12, 31) + datetime.timedelta(place)) for place in range(1, 100)
    ]
    whole = text(
        row("B", 2, 99, 2), *terms, pledges[0], *secrets(1, 1), *entered, pledges[1], *secrets(2, 101), *extended,
    )
    RUN.send("importBook", 0, whole, book=9)
    RUN.send("addTerms", 411, {"keep_after": 0, "keep_before": 0, "rate": 0, "version": 100}, book=9)
    for name, to in (("draw", {}), ("repay", {}), ("repayHeld", {"receipt": "1-00000000-0000-0000-0000-000000000001"})):
        RUN.send(name, 206, {"pence": 1, "seq": 10_000}, book=9, **to)
    RUN.send("extend", 316, {"until": "2026-01-01"}, book=9, number=2)
    RUN.send("declareLost", 309, {"paper": "sworn"}, book=9, number=2)


def a_book_of_a_million_pledges():
    """Its number of pledges is put into the store by hand: to open a store of a million takes an unproved program too long.
    The reply to an opening that is sent again is the first one still. Another is refused, for a bad amount first."""
    RUN.send("makeBook", 0, {"capacity": 1, "key": BROKER, "name": "Long Street"}, book=11)
    RUN.send("addTerms", 0, {"keep_after": 0, "keep_before": 0, "rate": 0, "version": 1}, book=11)
    first = RUN.send("takePledge", 0, opening("A"), book=11)
    RUN.close()
    with opened(RUN.path) as tables:
        tables.execute("UPDATE books SET pledges = 1000000 WHERE book = 11")
    RUN.send("takePledge", 412, opening("B"), book=11)
    RUN.send("takePledge", 201, opening("B", 0), book=11)
    expect("the same opening", RUN.send("takePledge", 0, opening("A"), book=11), first)


def a_store_without_room(account):
    RUN.close()
    with opened(RUN.path) as tables:
        tables.execute("UPDATE meta SET value = (SELECT value FROM meta WHERE name = 'rows') WHERE name = 'limit'")
    RUN.send("makeBook", 490, {"capacity": 1, "key": BROKER, "name": "No Street"}, book=10)
    RUN.send("addTerms", 490, {"keep_after": 0, "keep_before": 0, "rate": 0, "version": 1}, book=6)
    RUN.send("takePledge", 490, opening("Z"))
    RUN.send("importBook", 490, text(row("B", 2, 1, 0), row("T", 1, 0, 0, 0)), book=6)
    for name in ("draw", "repay"):
        RUN.send(name, 490, {"pence": 1, "seq": 3}, number=3)
    RUN.send("declareLost", 490, {"paper": "sworn"}, number=3)
    RUN.send("repayHeld", 490, {"pence": 1, "seq": 3}, receipt=account)
    RUN.send("askBooking", 490, {"day": "2024-03-04", "window": 1}, receipt=account)


def a_store_with_more_rows_than_its_limit(ring):
    """Whatever writes is refused then, what adds no row too."""
    RUN.send("hold", 0, number=3)
    RUN.close()
    with opened(RUN.path) as tables:
        tables.execute("UPDATE meta SET value = value - 1 WHERE name = 'limit'")
    RUN.send("hold", 490)
    RUN.send("release", 490, number=3)
    RUN.send("extend", 490, {"until": "2024-12-01"})
    RUN.send("decideBooking", 490, {"yes": False})
    RUN.send("cancelBooking", 490, receipt=ring)
    RUN.send("redeem", 490, {"paid": LARGE - 1}, receipt=ring)
    RUN.send("sell", 490, {"net": 1}, day=LATE)


def a_store_with_a_bent_row(account):
    RUN.close()
    with opened(RUN.path) as tables:
        tables.execute("UPDATE books SET capacity = 0 WHERE book = 7")
        tables.execute("UPDATE pledges SET credit = 0 WHERE book = 7")
    for name, operation in OPERATIONS.items():
        body = text(row("B", 2, 0, 0)) if name == "importBook" else operation.first_body()
        RUN.send(name, 492, body, receipt=account if operation.caller == "bearer" else None, number=3)


def each_refusal_is_met():
    turn_to("refusals")
    ring, small, account, clock = open_books()
    books_and_terms()
    who_is_unknown()
    entries(clock)
    bookings(ring, clock)
    declarations_and_extensions()
    days_and_ends(small, clock)
    imports()
    a_book_of_a_million_pledges()
    a_store_without_room(account)
    a_store_with_more_rows_than_its_limit(ring)
    a_store_with_a_bent_row(account)


def two_thousand_requests_at_random():
    """Each reply is as the description has it, whatever it is; the texts line by line."""
    turn_to("chance")
    chance, day, before = random.Random(31), datetime.date(2024, 1, 31), RUN.asked
    RUN.send("makeBook", 0, {"capacity": 2, "key": BROKER, "name": "High Street"})
    RUN.send("addTerms", 0, {"keep_after": 1000, "keep_before": 5000, "rate": 2667, "version": 1})
    receipts = [
        RUN.send(
            "takePledge", 0,
            {
                **opening(f"A{n}", chance.randint(100, 20000), chance.choice(["fixed", "running"])),
                "five_days": n % 2 == 0, "article": f"Ring \u2028\"{n}\"",
            },
        )["receipt"]
        for n in range(1, 13)
    ]
    seqs = dict.fromkeys(range(1, 13), 1)
    while RUN.asked < before + 2_000:
        if chance.random() < 0.02:
            day += datetime.timedelta(chance.randint(1, 8))
        name, body, number, near = chosen(chance, seqs, day)
        said = RUN.send(
            name, None, body, number=number, shown=str(near),
            receipt=receipts[number - 1] if OPERATIONS[name].caller == "bearer" else None, day=str(day),
        )
        if "seq" in said and "sort" in said:
            seqs[number] += 1
        elif "receipt" in said and isinstance(said, dict):
            receipts[number - 1] = said["receipt"]
        elif name == "redeem" and said.get("code") == 310 and chance.random() < 0.3:
            RUN.send(name, 0, {"paid": said["total"]}, receipt=receipts[number - 1], day=str(day))


def each_pair_and_each_example_was_seen():
    for name, operation in OPERATIONS.items():
        wanted = {0, *operation.codes}
        expect(
            f"the codes of {name} that were not seen", sorted(wanted - RUN.codes[name]),
            sorted(code for code in wanted if (name, code) in UNSEEN),
        )
        for (status, example), value in operation.examples().items():
            code = value["code"] if isinstance(value, dict) and "code" in value else 0
            if (name, code) not in UNSEEN:
                expect(f"{example} of {name} was answered", compact(value) in RUN.replies[name, status], True)
    pairs = sum(len(it.codes) for it in OPERATIONS.values()) - len(UNSEEN)
    print(f"        {RUN.asked} requests, {pairs} pairs of route and refusal", flush=True)
    if not VALIDATORS:
        not_tried("replies against their schemas", "python3-jsonschema is not installed")
    RUN.close()


main(
    it_is_valid_and_what_its_generator_writes, each_part_has_its_words, each_part_has_its_form,
    its_refusals_and_routes_are_those_of_the_rules,
    its_refusals_are_those_of_the_pages, the_page_has_each_reply_of_the_proxy, each_operation_stands_once_among_the_retries,
    its_story_is_what_the_program_answers, bodies_are_refused_where_the_description_refuses_them,
    members_that_are_ignored_are_read, the_last_of_members_with_one_name_counts, texts_that_an_import_takes, heads_are_refused, each_refusal_is_met,
    counts_at_their_limits, two_thousand_requests_at_random, each_pair_and_each_example_was_seen,
)
