"""The documents: each path that one names is there, each script of tests/ is on the map, each link leads to a file and
to a heading of it, each definition that the glossary names is in the file that it names, each clause of docs/PROVED.md
is in the contract of its call, each definition of specs has a name of its own, each definition that is quoted is in the
file that it is quoted from. The sentences of the documents that are read in need are short, and so are the lines of the
crates. Each source begins with what is found in it. The text that a must-fail edit replaces is there. An import names one crate. A measured figure is in one document,
and docs/BENCH.md is what its script writes.
"""
import csv
import glob
import os
import re
import subprocess
import sys

from tests.library.checks import Failed, expect, main
from tests.library.paths import TOP

MADE = ("build/", "data/", "dist/")
DOCUMENTS = sorted(
    path for pattern in ("*.md", "*/*.md") for path in glob.glob(pattern, root_dir=TOP) if not path.startswith(MADE)
)
COLUMNS = 160
# What a script writes, between `<!-- By PATH .. -->` and `<!-- until here -->`, is no prose.
WRITTEN_PART = re.compile(r"<!-- By [^>]*-->.*?<!-- until here -->", re.S)
# No sentence is longer in the documents that are read in need.
SENTENCE_WORDS = 32
READ_IN_NEED = ("README.md", "docs/RULES.md", "docs/OPERATING.md", "docs/DEPLOYING.md")
# Expressions with a private meaning, which nothing that is read in the crates' sources and definitions uses.
PRIVATE_WORDS = ("is told", "are told", "come about", "handed over", "hands on", "whoever", "is lent", "is no record", "let go of",
                 "what came of", "ways out", "want of memory")
# A figure is a number with one of these units. Two documents may have the same one only if each says another thing.
UNITS = {"ms": "ms", "s": "s", "second": "s", "seconds": "s", "minute": "min", "minutes": "min", "hour": "h",
         "hours": "h", "kB": "kB", "KiB": "KiB", "MB": "MB", "MiB": "MiB", "GB": "GB", "rows": "rows"}
NUMBER = r"\d[\d,]*(?:\.\d+)?"
FIGURE = re.compile(rf"(?<![\w.,:/-])({NUMBER}) (?:to ({NUMBER}) )?({'|'.join(UNITS)})\b")
COINCIDENCES = {"10 MB": "the length of a log, and that of a reply"}
# An import of definitions or lemmas. Those of Rust's own are laid out by `rt fmt`, one crate each.
IMPORT = re.compile(r"\s*(?:(?:pub|ghost|unfoldable) )*use Rattle\.(.*?);?\s*")
CRATES = sorted(os.listdir(os.path.join(TOP, "crates")))
ENDS = "md|rt|antt|py|sh|json|yaml|conf|map|edit|html|js|css|txt|svg|service|target|timer|sysusers|toml"
# What looks like a path, within backticks or after a prompt: words with slashes between them, or a name with an end
# that files here have.
WITH_SLASHES = re.compile(r"[\w.@*-]+(?:/[\w.@*-]+)+/?")
WITH_AN_END = re.compile(rf"[\w@*-]+(?:\.[\w@*-]+)*\.(?:{ENDS})")
# What is made by a command, or is elsewhere, or is no path: media types, and names in place of any.
NOT_HERE = re.compile(
    r"(application|text|x)/|.*\b(NAME|VERSION|BACKUP|ROOM|COPY|PATH|FOLDER|N)\b|(build|dist|data|out)/"
    r"|before-|copy\.json$|settings\.example$"
)
FOLDERS = ("crates", "tests", "tools", "deploy", "deploy/nginx", "deploy/systemd", "docs", "web", *sorted(glob.glob("tests/*/", root_dir=TOP)))

# The documents on the code, where the names in their backticks are, and the names that are of the kit or of an example.
ON_THE_CODE = ("CONTRIBUTING.md", *(f"docs/{it}.md" for it in (
    "ARCHITECTURE", "CHANGING", "DECISIONS", "GLOSSARY", "PROMISES", "PROVED", "THEOREM",
)))
SOURCES = ("crates", "tests", "tools", "web", "bench", "deploy", "examples")
NO_SOURCE = {"max_depth", "TooLong", "too_far", "TooFar", "NAME_OF_TEST"}


def read(path):
    with open(os.path.join(TOP, path), encoding="utf-8") as it:
        return it.read()


def sections(text):
    """A document's prose by its headings, without blocks of code."""
    prose = re.sub(r"^```.*?^```", "", text, flags=re.M | re.S)
    prose = re.sub(r"^(?: {4,}|\t)(?! *[-*0-9]).*$", "", prose, flags=re.M)
    return re.split(r"^#+ ", prose, flags=re.M)


def named(section):
    """The paths that a section names in backticks."""
    spans = re.findall(r"`([^`\n]+)`", section)
    paths = {span for span in spans if WITH_SLASHES.fullmatch(span) or WITH_AN_END.fullmatch(span)}
    return {path for path in paths if not NOT_HERE.match(path)}


def places(document, section, path):
    """Where a path may be: from the top, from the document's folder, in a folder of scripts, or in a crate that the
    section names (in any, if it names none)."""
    yield path
    yield os.path.join(os.path.dirname(document), path)
    for inside in FOLDERS:
        yield os.path.join(inside, path)
    of_section = [crate for crate in CRATES if re.search(rf"\b{crate}\b", section)]
    for crate in of_section or CRATES:
        yield os.path.join("crates", crate, path)
        yield os.path.join("crates", crate, "src", path)


def is_there(document, section, path):
    return any(
        glob.glob(os.path.join(TOP, place) + end)
        for place in places(document, section, path) for end in ("", ".antt", ".rt")
    )


def each_path_is_there():
    count = 0
    for document in DOCUMENTS:
        for section in sections(read(document)):
            paths = named(section)
            count += len(paths)
            missing = sorted(path for path in paths if not is_there(document, section, path))
            heading = section.splitlines()[0] if section else ""
            expect(f"what {document} names below {heading!r} and is not there", missing, [])
    print(f"        {count} paths in {len(DOCUMENTS)} documents", flush=True)


def names_in(text):
    """The names of code in a document's backticks: words with an underscore, or with a capital after a small letter."""
    spans = {span for section in sections(text) for span in re.findall(r"`([^`\n]+)`", section)}
    words = {it for span in spans for it in re.findall(r"\w{4,}", span)}
    return {it for it in words if re.search(r"[a-z]_?[A-Z]|[A-Za-z0-9]_[A-Za-z0-9]", it) and not it.endswith("_")}


def each_name_of_code_is_there():
    """In the documents on the code: a name that was changed there and not here sends a reader to nothing."""
    written = set()
    for folder in SOURCES:
        for path in glob.glob(f"{folder}/**/*", root_dir=TOP, recursive=True):
            if os.path.isfile(os.path.join(TOP, path)) and "/out/" not in path and not path.endswith(".pyc"):
                with open(os.path.join(TOP, path), encoding="utf-8", errors="replace") as it:
                    written.update(re.findall(r"\w+", f"{path}\n{it.read()}"))
    for document in ON_THE_CODE:
        expect(f"names in {document} that no source has", sorted(names_in(read(document)) - written - NO_SOURCE), [])


def anchors(text):
    """The headings of a document, as links name them."""
    headings = re.findall(r"^#+ (.*)$", text, re.M)
    return {re.sub(r"[^\w\s-]", "", heading.lower()).strip().replace(" ", "-") for heading in headings}


def each_script_is_on_the_map():
    """A script of tests/ that docs/ARCHITECTURE.md does not name is not found by a reader."""
    part = read("docs/ARCHITECTURE.md").split("\n## Tests\n")[1].split("\n## ")[0]
    for folder in sorted(glob.glob("tests/*/", root_dir=TOP)):
        scripts = {os.path.basename(path)[:-3] for path in glob.glob(f"{folder}*.py", root_dir=TOP)}
        lines = "".join(line for line in part.split("\n") if f"`{folder}`" in line)
        missing = [] if folder == "tests/library/" else sorted(it for it in scripts if f"`{it}`" not in lines)
        expect(f"scripts of {folder} that the map does not name", missing, [])


def each_link_leads_somewhere():
    for document in DOCUMENTS:
        for target in re.findall(r"\]\(([^)\s]+)\)", read(document)):
            if re.match(r"[a-z]+:", target):
                continue
            path, _, anchor = target.partition("#")
            place = os.path.normpath(os.path.join(os.path.dirname(document), path)) if path else document
            if not os.path.exists(os.path.join(TOP, place)):
                raise Failed(f"{document} links to {target}, which is not there")
            if anchor and place.endswith(".md") and anchor not in anchors(read(place)):
                raise Failed(f"{document} links to {target}, and {place} has no such heading")


def each_installed_path_is_in_the_package():
    """What the documents name of the package's own files is put there by deploy/debian/build."""
    texts, made = read("docs/DEPLOYING.md") + read("docs/OPERATING.md"), read("deploy/debian/build")
    for path in set(re.findall(r"/usr/share/pawnd/([\w/-]+)", texts)):
        expect(f"/usr/share/pawnd/{path}", os.path.exists(os.path.join(TOP, "deploy", path)), True)
    for path in set(re.findall(r"/etc/nginx/sites-available/([\w-]+)", texts)):
        expect(f"the site {path}", f"/etc/nginx/sites-available/{path} " in made, True)


def each_word_is_defined_where_the_glossary_says():
    rows = re.findall(r"^\| ([^|]+) \|[^|]+\| `(\w+)` in `([\w/.]+)` \|$", read("docs/GLOSSARY.md"), re.M)
    for word, name, path in rows:
        text = read(os.path.join("crates", path))
        form = (
            r"^\s*(?:pub(?:\(crate\))? )?(?:abbrev |record |data |fn |struct |enum |trait |type |opaque )*"
            rf"(?:pub )?(?:record |data |fn |struct |enum |trait )?{name}\b"
        )
        expect(f"{word}: {name} in {path}", bool(re.search(form, text, re.M)), True)
    expect("its words", len(rows) > 50, True)
    print(f"        {len(rows)} words", flush=True)


def contracts_of(crate):
    """The clauses of each function and of each method of a crate, by their names."""
    found = {}
    for path in glob.glob(os.path.join(TOP, "crates", crate, "src/**/*.rt"), recursive=True):
        called = None
        for line in read(path).split("\n"):
            begins = re.match(r"\s*(?:pub(?:\(crate\))? )?(?:const )?fn (\w+)", line)
            if begins:
                called = found.setdefault(begins[1], set())
            clause = re.match(r"\s*(?:ensures|requires)\*? (\w+) ?\{", line)
            if clause and called is not None:
                called.add(clause[1])
    return found


CITED = re.compile(r"((?:`[\w:]+`(?:,| and) )*`[\w:]+`) \[((?:`\w+`,? ?)+)\]")


def cited_clauses(text):
    """What is after calls in brackets: the crate of the section, if it names one, the calls and the clauses."""
    for section in re.split(r"(?m)^## ", text):
        crate = re.match(r"`(\w+)`", section)
        for calls, clauses in CITED.findall(section):
            yield crate and crate[1], re.findall(r"`([\w:]+)`", calls), re.findall(r"`(\w+)`", clauses)


def each_clause_stands_in_its_contract():
    contracts = {crate: contracts_of(crate) for crate in CRATES}
    count = 0
    for document in DOCUMENTS:
        for crate, calls, clauses in cited_clauses(read(document)):
            for call in calls:
                said = [contracts[name].get(call.split("::")[-1]) for name in ([crate] if crate else CRATES)]
                step = f"that {call}{f' of {crate}' if crate else ''} ensures {clauses}, as {document} says"
                expect(step, any(found is not None and set(clauses) <= found for found in said), True)
            count += len(calls)
    expect("how many there are", count > 80, True)
    print(f"        {count} calls", flush=True)


def each_definition_has_one_name():
    places, form = {}, re.compile(r"(?m)^(?:abbrev )?pub (?!use )(?:abbrev |record |data )?([^\s(:{]+)")
    for path in sorted(glob.glob(os.path.join(TOP, "crates/*/specs/**/*.antt"), recursive=True)):
        for name in form.findall(read(os.path.relpath(path, TOP))):
            places.setdefault(name, []).append(os.path.relpath(path, TOP))
    twice = {name: stand for name, stand in places.items() if len(stand) > 1 and name != "mod"}
    expect("definitions of specs that share a name", twice, {})
    expect("how many there are", len(places) > 500, True)
    print(f"        {len(places)} definitions", flush=True)


def files_of_crates():
    """The files of source, definitions and proofs, each with its text."""
    for end in ("rt", "antt"):
        for part in ("src", "specs", "proofs"):
            for path in glob.glob(f"crates/*/{part}/**/*.{end}", root_dir=TOP, recursive=True):
                yield path, read(path)


def no_line_of_the_crates_is_long():
    texts = dict(files_of_crates())
    long = [path for path, text in texts.items() if any(len(line) > COLUMNS for line in text.split("\n"))]
    expect(f"files of crates with a line above {COLUMNS} columns", long, [])
    expect("how many were read", len(texts) > 900, True)


def each_edit_is_of_a_text_that_is_there():
    """Of each file that a must-fail edit names, the text that it replaces. The proof would report a BAD EDIT after minutes."""
    edits = sorted(glob.glob("crates/*/must-fail/*.edit", root_dir=TOP))
    gone = []
    for path in edits:
        file, crate = None, path.split("/")[1]
        for name, text in re.findall(r"(?ms)^(file|old|new):(.*?)(?=^(?:file|old|new):|\Z)", read(path)):
            if name == "file":
                file = text.strip()
            elif name == "old" and text.removeprefix(" ").strip("\n") not in read(f"crates/{crate}/{file}"):
                gone.append((path, text.strip()))
    expect("must-fail edits of a text that is not in its file", gone, [])
    expect("how many there are", len(edits) > 100, True)


def imported_crates(line):
    """The crates that an import of definitions or lemmas names."""
    tree = IMPORT.fullmatch(line)
    if tree is None:
        return set()
    if not tree[1].startswith("{"):
        return {re.match(r"\w+", tree[1])[0]}
    heads, depth, head = set(), 0, ""
    for character in tree[1][1:-1] + ",":
        if character == "," and depth == 0:
            heads.add(re.match(r"\w*", head.strip())[0])
            head = ""
        else:
            depth += (character == "{") - (character == "}")
            head += character
    return heads - {""}


def comments(path, text):
    """The comments of a source, or of definitions, one line each."""
    form = r"^\s*//[/!]?(.*)$|\s// (.*)$" if path.endswith(".rt") else r"(?:^|\s)-- (.*)$"
    return ["".join(found) for found in re.findall(form, text, re.M)]


def each_source_says_what_is_in_it():
    sources = [(path, text) for path, text in files_of_crates() if path.endswith(".rt")]
    expect("sources whose first line is no `//!`", [path for path, text in sources if not text.startswith("//! ")], [])
    said = [
        (path, words) for path, text in files_of_crates() if "/src/" in path or "/specs/" in path
        for line in comments(path, text) for words in PRIVATE_WORDS if words in line.lower()
    ]
    expect("comments with a private meaning", said, [])


def each_import_names_one_crate():
    """The lines of an import that is broken are read as one."""
    mixed = []
    for path, text in files_of_crates():
        for line in re.sub(r",\s*\n\s*", ", ", text).split("\n"):
            if len(imported_crates(line)) > 1:
                mixed.append(f"{path}: {line.strip():.80}")
    expect("imports that name several crates", mixed, [])


def each_quotation_is_true():
    form = re.compile(r"(?ms)^```\w+ from (\S+)\n(.*?)^```$")
    quoted = [(document, *found) for document in DOCUMENTS for found in form.findall(read(document))]
    for document, path, block in quoted:
        expect(f"what {document} quotes is in {path}: {block}", block in read(path), True)
    expect("how many there are", len(quoted) > 5, True)


def prose(text):
    """What a person wrote of a document."""
    return WRITTEN_PART.sub("", text)


def sentences(text):
    """The sentences of prose. A line is a text of its own, and so is each cell of a table."""
    for section in sections(text):
        for line in section.split("\n"):
            cells = line.strip().strip("|").split(" | ") if line.startswith("|") else [line]
            for cell in cells:
                yield from re.split(r"(?<=[^.][.!?])\**\s+", re.sub(r"^ *(?:[-*]|\d+\.) +", "", cell))


def too_long(text):
    return [sentence for sentence in sentences(text) if len(sentence.split()) > SENTENCE_WORDS]


def no_sentence_is_too_long():
    for document in READ_IN_NEED:
        found = too_long(prose(read(document)))
        expect(f"sentences of {document} with more than {SENTENCE_WORDS} words", found, [])


def figures(text):
    """The numbers of a text that have a unit, as `0.3 ms`."""
    found = FIGURE.findall(text)
    return {f"{number.replace(',', '')} {UNITS[unit]}" for *both, unit in found for number in both if number}


def said_twice(texts):
    """The figures that are in more than one of these texts, each with the names of its texts."""
    places = {}
    for name, text in texts.items():
        for figure in figures(text):
            places.setdefault(figure, []).append(name)
    return {figure: names for figure, names in places.items() if len(names) > 1 and figure not in COINCIDENCES}


def measured_things():
    """What was measured, as the rows of bench/results/ name it, if the name alone says what it is."""
    rows = []
    for path in glob.glob(os.path.join(TOP, "bench/results/*.csv")):
        with open(path, encoding="utf-8", newline="") as it:
            rows += csv.DictReader(it)
    things = {row["what"].rpartition(": ")[0] or row["what"] for row in rows}
    return {thing for thing in things if len(thing.split()) > 4}


def each_figure_stands_in_one_document():
    texts = {document: read(document) for document in DOCUMENTS}
    twice = said_twice(texts)
    for thing in measured_things():
        others = [name for name, text in texts.items() if name != "docs/BENCH.md" and thing in text]
        twice.update({thing: others} if others else {})
    if twice:
        raise Failed(f"{len(twice)} figures are in two documents: {dict(sorted(twice.items()))}")


def building_and_testing_take_the_same_time_everywhere():
    """README.md and make help say how long to allow for the first build and for the first run of the tests."""
    form = re.compile(r"[Aa]llow\s+([\w ]+?)\s+on\s+four\s+processors")
    allowed = {path: form.findall(read(path)) for path in ("README.md", "tools/help")}
    expect("what README.md allows", len(allowed["README.md"]), 2)
    expect("what make help allows, for the build and then for the tests", allowed["tools/help"], allowed["README.md"])


def the_page_of_figures_is_what_its_script_writes():
    made = subprocess.run([sys.executable, os.path.join(TOP, "bench/page.py"), "--print"], capture_output=True)
    expect("bench/page.py --print", (made.returncode, made.stderr), (0, b""))
    same = made.stdout.decode() == read("docs/BENCH.md")
    expect("docs/BENCH.md is what bench/page.py writes: run it, when a row was added", same, True)


def these_checks_can_fail():
    """What they look for is found in texts that are made for it."""
    long = " ".join(["word"] * (SENTENCE_WORDS + 1))
    expect("a long sentence", len(too_long(f"# Title\n\nShort. {long}. Short.\n- {long}\n| a | {long} |\n")), 3)
    expect("one that is not", too_long(f"{long[:-5]}.\n\n    {long}\n"), [])
    made = "One.\n<!-- By bench/page.py: gate -->\n1 2 3\n<!-- until here -->\ntwo\n"
    expect("prose beside what a script writes", prose(made).split(), ["One.", "two"])
    for line, crates in (
        ("use Rattle.std.proofs.Common.{refl, sym}", {"std"}),
        ("ghost use Rattle.{std.specs.{Prelude.{Ok}, List.All}, pawn_base.specs.Text.IsText};", {"std", "pawn_base"}),
        ("    pub use Rattle.{std.specs.List.All, std.specs.Int.w32}", {"std"}),
        ("unfoldable pub use Rattle.{one.specs.A.b, two.specs.A.b as c}", {"one", "two"}),
        ("use std::alloc::Global;", set()),
    ):
        expect(f"the crates of {line}", imported_crates(line), crates)
    names = "# A\n\n`some_name` and `Some.OtherName`, not `word`, `A`, `NAME` or some_more.\n"
    expect("names of code", names_in(names), {"some_name", "OtherName"})
    source = "//! One.\n/// Two is told.\nlet a = 1; // three\n"
    expect("the comments of a source", comments("a.rt", source), [" One.", " Two is told.", "three"])
    expect("those of definitions", comments("A.antt", "-- one\na = b -- two\nc = d\n"), ["one", "two"])
    texts = {"a": "It takes 1,200 ms, and 3 to 5 minutes.", "b": "1200 ms", "c": "5 minutes, 7 s", "d": "v1.7 s"}
    expect("figures that are there twice", said_twice(texts), {"1200 ms": ["a", "b"], "5 min": ["a", "c"]})
    expect("what was measured", len(measured_things()) > 20, True)


main(
    each_path_is_there, each_name_of_code_is_there, each_script_is_on_the_map, each_link_leads_somewhere, each_word_is_defined_where_the_glossary_says,
    each_installed_path_is_in_the_package, each_clause_stands_in_its_contract, each_definition_has_one_name,
    no_line_of_the_crates_is_long, each_source_says_what_is_in_it, each_edit_is_of_a_text_that_is_there, each_import_names_one_crate,
    each_quotation_is_true, these_checks_can_fail, no_sentence_is_too_long, building_and_testing_take_the_same_time_everywhere, each_figure_stands_in_one_document,
    the_page_of_figures_is_what_its_script_writes,
)
