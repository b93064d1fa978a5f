"""Each refusal is in every place that needs it: the crates, the rules, the description and the pages. Each operation of the
description has the refusals of the rules, all of them and in the rules' order. A refusal that was added in one place and
forgotten in another is named here. The program is not driven; tests/documents/description.py does that."""
import glob
import os
import re
import shutil
import subprocess
import sys
import tempfile

from tests.library.checks import expect, main
from tests.library.described import CODES, DESCRIPTION, OPERATIONS
from tests.library.paths import TOP

# What the rules name and no request can get: the reader of a request's body does not fail.
OF_THE_LIBRARY = {607: "Read"}
# The command, in the words of the rules, of each operation that is a command on a pledge.
COMMANDS = {
    "draw": "draw", "repay": "repay", "repayHeld": "repay", "hold": "hold", "release": "release", "declareLost": "declare",
    "askBooking": "ask", "cancelBooking": "cancel", "decideBooking": "decide", "redeem": "redeem", "sell": "sell",
    "extend": "extend",
}
# Refusals that concern no field of a form of the pages, so that web/shared/faults.js has no field for them: they speak of the
# pledge, of the book or of the service as a whole, or of a text or a head that no form sends.
WITHOUT_A_FIELD = {
    202, 205, 206, 301, 302, 303, 304, 305, 306, 308, 309, 311, 314, 316, 403, 404, 405, 406, 409, 410, 411, 412, 490, 491, 492,
    601, 602, 603, 604, 605, 606, 701, 703, 704, 705, 706, 707, 708, 709, 711, 712,
}
# The refusals of release 0.9.0. CHANGELOG.md names each one that came or went since, because it concerns clients.
OF_RELEASE = {
    102, 103, 104, *range(201, 207), *range(301, 317), *range(401, 413), 490, 491, 492, *range(601, 607), 701, *range(703, 713),
}


def read(path):
    with open(os.path.join(TOP, path), encoding="utf-8") as it:
        return it.read()


RULES = read("docs/RULES.md")


def section(text, heading):
    """A section of the rules, without those after it."""
    return re.split(r"\n#{2,3} ", text.split(f"# {heading}\n")[1])[0]


def once(found):
    return list(dict.fromkeys(found))


def codes_in(text, digits="1-7"):
    """The codes that a text names, each once, in its order."""
    return once(int(code) for code in re.findall(rf"(?<![\d,])[{digits}]\d\d(?![\d,]*\d)", text))


def of_the_crates():
    """The refusals that the crates can answer, as the functions that return their numbers have them."""
    found = {}
    for path in glob.glob("crates/*/src/**/*.rt", root_dir=TOP, recursive=True):
        if "_tests/" not in path:
            for name, code in re.findall(r"\w+::(\w+)(?: \{ \.\. \}|\(_\))? => ([1-7]\d\d)\b", read(path)):
                found.setdefault(int(code), set()).add(name)
    return {code: names for code, names in sorted(found.items()) if 101 < code < 500 or code > 600}


def of_the_rules(rules=RULES):
    """The refusals that the rules name, up to the section on the program."""
    part = rules.split("\n## Requests\n")[1].split("\n## The program\n")[0]
    named = re.findall(r"\b([1-7]\d\d) ([A-Z][A-Za-z]+)", part)
    phrases = {"Bad", "Not", "Forbidden", "Service", "Conflict"}
    return {int(code): name for code, name in named if name not in phrases}


def of_the_pages():
    return {int(code): name for code, name in re.findall(r'(\d{3}): \{\s*name: "(\w+)"', read("web/shared/refusals.js"))}


def differing(found, wanted):
    """The refusals that are named in one of the two alone, or by another name, each with both names."""
    codes = sorted({*found, *wanted})
    return {code: (found.get(code), wanted.get(code)) for code in codes if found.get(code) != wanted.get(code)}


def each_refusal_is_in_every_list():
    crates = of_the_crates()
    expect("numbers of refusals with several names in the crates", {code: it for code, it in crates.items() if len(it) > 1}, {})
    plain = {code: name for code, (name,) in crates.items()}
    requests = {code: name for code, name in plain.items() if code not in OF_THE_LIBRARY}
    for place, named, wanted in (
        ("docs/RULES.md", of_the_rules(), plain), ("the description", CODES, requests),
        ("web/shared/refusals.js", of_the_pages(), plain),
    ):
        expect(f"refusals of {place} and of the crates that differ, each with both names", differing(named, wanted), {})
    told_apart = {int(code): name for name, code in re.findall(r"(\w+): ([1-7]\d\d)\b", read("web/shared/codes.js"))}
    wrong = {code: name for code, name in told_apart.items() if plain.get(code) != name}
    expect("refusals of web/shared/codes.js that the crates call otherwise", (wrong, len(told_apart) > 5), ({}, True))
    print(f"        {len(plain)} refusals", flush=True)


def order_of_bytes(rules=RULES):
    """The faults of a request's bytes, as the rules list them."""
    listed = [line for line in section(rules, "Bytes").split("\n") if line.startswith("- 7")]
    return once(int(code) for line in listed for code in re.findall(r"(7\d\d) [A-Z]\w+:", line))


def orders_of_commands(rules=RULES):
    """The refusals of each command on a pledge, in order: those that every command shares, and then its own."""
    part = section(rules, "Commands on a pledge")
    shared = {number: codes_in(words, "2-3") for number, words in re.findall(r"(?m)^(\d)\. (.*)$", part)}
    numbered, common = shared["1"], [code for number in "234" for code in shared[number]]
    own = {}
    for line in part.split("| Command | Refusals in order | Effect |\n")[1].split("\n\n")[0].splitlines()[1:]:
        commands, refusals, _ = line.strip("| ").split(" | ")
        for command in re.sub(r" \(.*\)| yes| no", "", commands).split(", "):
            own[command] = once(own.get(command, []) + codes_in(re.sub(r"\([^)]*\)", "", refusals), "2-3"))
    return {command: (numbered if command in ("draw", "repay") else []) + common + it for command, it in own.items()}


def orders_of_requests(rules=RULES):
    """By method and target: the refusals that the rules list of a request that is no command on a pledge."""
    found = {}
    for line in re.findall(r"(?m)^- (`(?:GET|POST) .*)$", section(rules, "Requests")):
        head, _, words = line.partition(": ")
        for method, target in re.findall(r"`(GET|POST) (/[^`]*)`", head):
            found[method, re.sub(r"\{\w+\}", "{}", target)] = codes_in(words, "1-4")
    text = [int(code) for code in re.findall(r"(?m)^- (60\d) \w+", section(rules, "The book as a text"))]
    imported = section(rules, "An import").split("If nothing refuses")[0]
    found["POST", "/books/{}/import"] = [*(code for code in text if code not in OF_THE_LIBRARY), *codes_in(imported, "4")]
    return found


def wanted_of(operation, rules=RULES):
    """The refusals of an operation, all of them in order, as the rules have them."""
    commands, requests = orders_of_commands(rules), orders_of_requests(rules)
    shown = [712, 711, 710] if operation.caller == "bearer" else [709]
    body = [708] if operation.body_kind == "application/json" else []
    bytes_of_it = [code for code in order_of_bytes(rules) if code in {701, 703, 704, 705, 706, *shown, *body}]
    command = COMMANDS.get(operation.name)
    if command:
        base = requests["POST", "/books/{}/held/{}" if operation.caller == "bearer" else "/books/{}/pledges/{}/{}"]
        last = [408] if command == "decide" else []
        own = [*(code for code in base if code != 408), *commands[command], *last]
    else:
        own = [code for code in requests[operation.method, re.sub(r"\{\w+\}", "{}", operation.path)] if code != 490]
    return [*bytes_of_it, *own, *([490] if operation.method == "POST" else []), 491, 492]


def each_operation_has_the_refusals_of_the_rules_in_order():
    commands = {name for name, it in OPERATIONS.items() if re.search(r"(\{number\}|held)/\w+$", it.path)}
    expect("the commands", set(COMMANDS), commands)
    for name, operation in OPERATIONS.items():
        expect(f"x-refusals-in-order of {name}, as docs/RULES.md has them", operation.codes, wanted_of(operation))
    print(f"        {len(OPERATIONS)} operations", flush=True)


def lists_of_the_definitions():
    """The lists of conditions and refusals in the definitions of the rules: by path and name, the refusals' codes in order."""
    names = {name: code for code, name in of_the_rules().items()}
    row = re.compile(r", (?:Pledge \()?(?:\w+\.)?\(?(?:Debt |Terms )?([A-Z]\w+)[^)∷]*\)+\s*∷")
    for path in sorted(glob.glob("crates/pawn_*/specs/*.antt", root_dir=TOP)):
        for block in re.split(r"\n\n+", read(path)) if "/Worked" not in path else ():
            name, found = re.search(r"(?m)^abbrev pub (\w+)", block), row.findall(block)
            if name and any(it in names for it in found):
                missing = [it for it in found if it not in names]
                expect(f"refusals of {name[1]} of {path} that docs/RULES.md does not name", missing, [])
                yield path, name[1], once(names[it] for it in found)


def each_list_of_the_definitions_is_in_the_order_of_the_rules():
    orders = [order_of_bytes(), *(wanted_of(operation) for operation in OPERATIONS.values())]
    listed = list(lists_of_the_definitions())
    for path, name, codes in listed:
        fits = [order for order in orders if [code for code in order if code in codes] == codes]
        expect(f"that {name} of {path}, {codes}, is in the rules' order of a request", bool(fits), True)
    crates = {path.split("/")[1] for path, _, _ in listed}
    expect("crates with such lists", {"pawn_terms", "pawn_debt", "pawn_pledge", "pawn_book", "pawn_wire"} - crates, set())
    expect("how many lists there are", len(listed) > 15, True)


def each_refusal_is_in_a_definition():
    """A definition of the rules says when it is answered, beside those that have its number, its name or an example."""
    told = r"(?m)^(?:pub )?use .*$|^\w+_(?:code|name) .*$|^ *--.*$"
    paths = [it for it in glob.glob("crates/pawn_*/specs/*.antt", root_dir=TOP) if "/Worked" not in it]
    definitions = "".join(re.sub(told, "", read(path)) for path in paths)
    missing = [(code, name) for code, (name,) in of_the_crates().items() if not re.search(rf"\b{name}\b", definitions)]
    expect("refusals that the crates answer and that no definition of the rules answers", missing, [])


def each_refusal_of_a_pledge_has_a_worked_example():
    """A refusal of terms, of a debt or of a pledge, in an example of a crate that can answer it."""
    crates = {code: name for code, (name,) in of_the_crates().items() if code < 400}
    worked = "".join(
        re.sub(r"(?m)^use .*$", "", read(path))
        for crate in ("terms", "debt", "pledge") for path in glob.glob(f"crates/pawn_{crate}/specs/Worked*.antt", root_dir=TOP)
    )
    missing = [(code, name) for code, name in crates.items() if not re.search(rf"\b{name}\b", worked)]
    expect("refusals that no worked example meets", (missing, len(crates) > 20), ([], True))


def each_refusal_that_is_new_has_an_edit():
    """A must-fail edit names it, in its text or in the name of its file."""
    edits = {path: read(path) for path in glob.glob("crates/*/must-fail/*.edit", root_dir=TOP)}
    for code, (name,) in of_the_crates().items():
        words = re.sub(r"(?<!^)(?=[A-Z])", "_", name).lower()
        named = any(name in text or words in os.path.basename(path) for path, text in edits.items())
        expect(f"that a must-fail edit names {code} {name}, or {words}", named or code in OF_RELEASE or code in OF_THE_LIBRARY, True)


def codes_of(words):
    """The codes that words name: 102 to 104, 201 and 701 to 712, except 706."""
    named, _, left_out = words.partition("except")
    found = {
        code for first, last in re.findall(r"(\d{3})(?: to (\d{3}))?", named)
        for code in range(int(first), int(last or first) + 1)
    }
    return found - set(codes_in(left_out))


def statuses_of_the_rules(rules=RULES):
    """By code the status of a refusal, as the rules have it; None stands for all others."""
    part = section(rules, "Bodies and replies").split("A refusal's code is not its HTTP status.")[1].split("\n")[0]
    said = re.findall(r"(?:The codes )?(\d[^.]*?|All others),? (?:has|have)(?: the status)? (\d{3}) [A-Z]", part)
    found = {}
    for words, status in said:
        for code in codes_of(words):
            found.setdefault(code, int(status))
    return {**found, None: next(int(status) for words, status in said if words == "All others")}


def statuses_of_the_crates():
    """The same, as the function that returns the statuses has it."""
    named = {"BAD_REQUEST": 400, "FORBIDDEN": 403, "NOT_FOUND": 404, "SERVICE_UNAVAILABLE": 503, "CONFLICT": 409}
    found = {}
    for codes, status in re.findall(r"(?m)^ +([\d_].*) => StatusCode::(\w+),", read("crates/pawn_reply/src/status.rt")):
        for first, last in re.findall(r"(\d{3})(?:\.\.=(\d{3}))?", codes):
            found.update(dict.fromkeys(range(int(first), int(last or first) + 1), named[status]))
        if codes == "_":
            found[None] = named[status]
    return found


def each_status_is_that_of_the_rules():
    """In the rules, in the crates, and in the responses of the description."""
    rules, crates = statuses_of_the_rules(), statuses_of_the_crates()
    responses = {}
    for operation in OPERATIONS.values():
        for status, it in operation.responses.items():
            for code in CODES:
                if f"- {code} {CODES[code]}: " in it["description"]:
                    responses.setdefault(code, set()).add(status)
    for code in sorted(CODES):
        wanted = rules.get(code, rules[None])
        expect(f"the status of {code} in crates/pawn_reply/src/status.rt", crates.get(code, crates[None]), wanted)
        if code in responses:
            expect(f"the status of {code} in the description", responses[code], {wanted})
    expect("refusals of no response", sorted(set(CODES) - set(responses)), [707])


def each_refusal_has_the_members_of_the_rules():
    """The totals and rows that the rules, CLIENTS.md, the description and the pages name."""
    (totals, rows), = re.findall(r'`"total":N` \(in pence\) for ([\d, and]+), and with `"row":N` for (\d+ to \d+) \|', RULES)
    (totals_told, rows_told), = re.findall(
        r"([\d, and]+) have the `total` that is owing, .*?\. (\d+ to \d+) have the `row`", read("docs/CLIENTS.md"),
    )
    (shown,) = re.findall(r"if \((code === .*)\) return ` Owed today", read("web/shared/refusals.js"))
    members = {
        it["properties"]["code"]["const"]: set(it["properties"])
        for it in DESCRIPTION["components"]["schemas"].values() if "code" in it.get("properties", {})
    }
    for place, found, wanted in (
        ("docs/CLIENTS.md", codes_of(totals_told), totals), ("docs/CLIENTS.md", codes_of(rows_told), rows),
        ("web/shared/refusals.js", codes_of(shown), totals),
        ("the description", {code for code, it in members.items() if "total" in it}, totals),
        ("the description", {code for code, it in members.items() if "row" in it}, rows),
    ):
        expect(f"refusals with a total or a row in {place}", found, codes_of(wanted))


def the_forms_of_a_key_are_those_of_the_rules():
    """Where a writer of a client reads what a key looks like, no form of the rules is left out."""
    (rules,) = re.findall(r"(?m)^A \*\*key\*\* is (.*?) A \*\*receipt\*\*", RULES)
    (told,) = re.findall(r"(?m)^\|709 BadKey\|(.*)\|$", read("docs/CLIENTS.md"))
    for form in ("plain", "8, 4, 4, 4 and 12", "hyphens", "in braces", "after `urn:uuid:`. Upper and lower case mean the same"):
        expect(f"that the rules and CLIENTS.md, at 709, say of a key {form!r}", (form in rules, form in told), (True, True))


def unnamed(codes, changes):
    """Refusals that differ from those of the release, and that its changes do not name."""
    since = changes.split("\n## 0.9.0\n")[0]
    return sorted(code for code in OF_RELEASE ^ codes if not re.search(rf"\b{code}\b", since))


def each_new_refusal_is_in_the_changelog():
    missing = unnamed(set(CODES), read("CHANGELOG.md"))
    expect("refusals that came or went since 0.9.0, and that CHANGELOG.md does not name", missing, [])


def fields(text):
    """The codes for which web/shared/faults.js names the field of a form, or says that there is none."""
    (table,) = re.findall(r"(?s)const FIELDS = \{(.*?)\};", text)
    return {int(code): name for code, name in re.findall(r'(\d{3}): (?:"(\w+)"|null)', table)}


def each_refusal_has_a_field_of_a_form_or_none_on_purpose():
    found = fields(read("web/shared/faults.js"))
    neither = sorted(set(CODES) - set(found) - WITHOUT_A_FIELD)
    expect("refusals without a field in web/shared/faults.js that this script does not list as having none", neither, [])
    expect("refusals that are in both", sorted(set(found) & WITHOUT_A_FIELD), [])
    expect("fields of refusals that do not exist", sorted((set(found) | WITHOUT_A_FIELD) - set(CODES)), [])
    forms = "".join(read(path) for path in sorted(glob.glob("web/*/*.*", root_dir=TOP)) if not path.endswith("faults.js"))
    for code, name in found.items():
        expect(f"that a form has the field {name!r} of {code}", not name or f'"{name}"' in forms, True)


def described_without(path, old, new):
    """How tools/describe ends, and what it says, where a text of its inputs is another."""
    with tempfile.TemporaryDirectory() as room:
        for folder in ("tools", "web/shared"):
            shutil.copytree(os.path.join(TOP, folder), os.path.join(room, folder), ignore=shutil.ignore_patterns("__pycache__"))
        os.mkdir(os.path.join(room, "docs"))
        for file in ("VERSION", "docs/CLIENTS.md"):
            shutil.copyfile(os.path.join(TOP, file), os.path.join(room, file))
        with open(os.path.join(room, path), encoding="utf-8") as it:
            text = it.read()
        expect(f"{old!r} in {path}", text.count(old), 1)
        with open(os.path.join(room, path), "w", encoding="utf-8") as it:
            it.write(text.replace(old, new))
        made = subprocess.run([sys.executable, "tools/describe", "openapi"], cwd=room, capture_output=True, text=True, timeout=60)
        return made.returncode, made.stderr


def the_generator_names_what_is_missing():
    """A refusal that has no sentence on the pages, and one of a route that has no name."""
    status, said = described_without("web/shared/refusals.js", "  316: {\n", "  317: {\n")
    wanted = "describe: web/shared/refusals.js has no sentence for 316 ExtensionsFull, which tools/description/refusals.py names\n"
    expect("a sentence that is missing", (status, said), (1, wanted))
    status, said = described_without("tools/description/routes.py", "405, 201, 412]", "405, 201, 412, 413]")
    wanted = "describe: tools/description/refusals.py has no name for 413, which a route of tools/description/routes.py lists\n"
    expect("a name that is missing", (status, said), (1, wanted))


def these_checks_can_fail():
    """A refusal that is left out, added or moved in the rules is found."""
    operation = OPERATIONS["extend"]
    for old, new in (
        ("315 NotLater (the day is before the end), ", ""), ("316 ExtensionsFull", "317 Reminded, 316 ExtensionsFull"),
        ("2. 205 EarlierDay", "2. 305 Earlier"),
    ):
        expect(f"{old!r} in the rules", RULES.count(old), 1)
        expect(f"the order without {old!r}", wanted_of(operation, RULES.replace(old, new)) == operation.codes, False)
    statuses = statuses_of_the_rules()
    expect("statuses", [statuses.get(code) for code in (102, 313, 706, 707, 410, 491, 408, None)],
           [400, 400, 404, 400, 403, 503, None, 409])
    for old, new in (("201, 313, 601", "201, 601"), ("712, except 706", "712"), ("All others have 409", "All others have 400")):
        expect(f"{old!r} in the rules", RULES.count(old), 1)
        expect(f"the statuses without {old!r}", statuses_of_the_rules(RULES.replace(old, new)) == statuses, False)
    changes = "## Unreleased\n317 TooFar is new.\n## 0.9.0\n102 and 318"
    expect("what the changes lack", unnamed({*OF_RELEASE, 317, 318} - {102}, changes), [102, 318])
    bent = RULES.replace("409 BookNotEmpty, if", "411 BookNotEmpty, if")
    expect("another number of an import", wanted_of(OPERATIONS["importBook"], bent) == OPERATIONS["importBook"].codes, False)
    expect("codes of a text", codes_in("201 (above 100,000,000 pence), 412 of 1,000,000; 99 and 490."), [201, 412, 490])
    expect("fields", fields('const FIELDS = {\n  102: "rate", 408: null,\n};'), {102: "rate", 408: ""})


main(
    each_refusal_is_in_every_list, each_operation_has_the_refusals_of_the_rules_in_order,
    each_list_of_the_definitions_is_in_the_order_of_the_rules, each_refusal_is_in_a_definition,
    each_refusal_of_a_pledge_has_a_worked_example, each_refusal_that_is_new_has_an_edit, each_status_is_that_of_the_rules,
    each_refusal_has_the_members_of_the_rules, the_forms_of_a_key_are_those_of_the_rules, each_new_refusal_is_in_the_changelog,
    each_refusal_has_a_field_of_a_form_or_none_on_purpose,
    the_generator_names_what_is_missing, these_checks_can_fail,
)
