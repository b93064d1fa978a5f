"""The description of the service, as other languages read it: its patterns are taken by RE2, PCRE, Perl and ECMAScript,
both forms of it are valid for the tools of three languages, and a ready client that Perl makes from it works through a
whole pledge."""
import json
import os
import re
import shutil
import subprocess
import tempfile

from tests.library.checks import Failed, expect, main, not_tried
from tests.library.keys import OPERATOR
from tests.library.packages import missing, provide
from tests.library.paths import TOP
from tests.library.program import Server

NEWER, OLDER = (os.path.join(TOP, "docs", name) for name in ("openapi.json", "openapi-3.0.json"))
CLIENTS = os.path.join(TOP, "tests/library/clients")
PERL = {"perl": "perl", "/usr/share/perl5/OpenAPI/Client.pm": "libopenapi-client-perl"}
GO = {"go": "golang-go", "/usr/share/gocode/src/github.com/getkin/kin-openapi/openapi3/openapi3.go": (
    "golang-github-getkin-kin-openapi-dev")}
PYTHON = {"/usr/lib/python3/dist-packages/jsonschema/__init__.py": "python3-jsonschema",
          "/usr/share/openapi-specification/schemas/v3.0/schema.json": "openapi-specification"}
# What one of the engines does not take: escapes by \u, lookaround, backreferences, and possessive parts.
REFUSED = re.compile(r"\\u|\\[1-9kKpPzZAbB]|\(\?|[*+?}]\+|\[\[:")


def here(packages):
    """Whether these files and programs are there, or can be installed."""
    files = {path: name for path, name in packages.items() if "/" in path and not os.path.exists(path)}
    programs = {name: it for name, it in packages.items() if "/" not in name}
    if (files or missing(programs)) and os.geteuid() == 0 and shutil.which("apt-get"):
        provide({**programs, **{f"file {path}": name for path, name in files.items()}})
    absent = [name for name in missing(programs)] + [path for path in files if not os.path.exists(path)]
    if absent:
        not_tried("what needs it", f"there is no {' and no '.join(absent)}")
    return not absent


def patterns(value):
    """The patterns of a description, wherever they are."""
    if isinstance(value, list):
        for it in value:
            yield from patterns(it)
    elif isinstance(value, dict):
        yield from (it for name, it in value.items() if name in ("pattern", "x-pattern") and isinstance(it, str))
        for it in value.values():
            yield from patterns(it)


def described(path):
    with open(path, encoding="utf-8") as it:
        return json.load(it)


def run(step, *words, **how):
    ran = subprocess.run(words, capture_output=True, text=True, timeout=300, **how)
    if ran.returncode:
        raise Failed(f"{step}: {ran.stdout[-1500:]}{ran.stderr[-500:]}")
    return ran.stdout


def each_pattern_is_taken_by_each_engine():
    found = sorted(set(patterns(described(NEWER))) | set(patterns(described(OLDER))))
    expect("how many there are", len(found) > 8, True)
    expect("patterns that some engine refuses", [it for it in found if REFUSED.search(it)], [])
    expect("the check can fail", [bool(REFUSED.search(it)) for it in (r"\u0000", r"(?=a)", r"\x00", r"a\.b")],
           [True, True, False, False])
    run("Python", "python3", "-c", "import re, sys\nfor it in sys.argv[1:]: re.compile(it)", *found)
    if shutil.which("node"):
        run("ECMAScript", "node", "-e", "for (const it of process.argv.slice(1)) new RegExp(it, 'u')", *found)
    else:
        not_tried("ECMAScript", "there is no node")


def perl_finds_it_valid():
    if here(PERL):
        told = "".join(f"{it}\n" for it in sorted(set(patterns(described(OLDER)))))
        run("Perl", "perl", os.path.join(CLIENTS, "validate.pl"), OLDER, input=told)


def go_finds_it_valid():
    """Its library compiles each pattern by RE2."""
    if not here(GO):
        return
    with tempfile.TemporaryDirectory() as room:
        how = {**os.environ, "GO111MODULE": "off", "GOPATH": "/usr/share/gocode", "GOCACHE": room, "GOFLAGS": ""}
        run("Go", "go", "run", os.path.join(CLIENTS, "validate.go"), OLDER, env=how)


def python_finds_it_valid():
    """By the schemas of OpenAPI itself."""
    if not here(PYTHON):
        return
    asks = "import json, sys, jsonschema; it = [json.load(open(path)) for path in sys.argv[1:]]; " \
        "jsonschema.validators.validator_for(it[0])(it[0]).validate(it[1])"
    run("Python", "/usr/bin/python3", "-c", asks, "/usr/share/openapi-specification/schemas/v3.0/schema.json", OLDER)


def a_ready_client_of_perl_works_through_a_pledge():
    if here(PERL):
        with Server() as server:
            words = ["perl", os.path.join(CLIENTS, "whole_pledge.pl"), OLDER, str(server.port), OPERATOR]
            told = run("the client", *words).splitlines()
        expect("how many steps it made", len(told), 13)
        expect("its last step", told[-1].startswith("exportBook: row,c1"), True)


main(
    each_pattern_is_taken_by_each_engine, perl_finds_it_valid, go_finds_it_valid, python_finds_it_valid,
    a_ready_client_of_perl_works_through_a_pledge,
)
