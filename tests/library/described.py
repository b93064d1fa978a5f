"""The description of the service, and a run of the program in which each reply is held against it."""
import contextlib
import datetime
import json
import os
import re
import shutil
import subprocess
from collections import defaultdict

from tests.library.checks import Failed, expect
from tests.library.keys import BROKER, OPERATOR
from tests.library.paths import PROGRAM, TOP

PATH = os.path.join(TOP, "docs/openapi.json")
IMPORT = "33333333-3333-3333-3333-333333333333"
NOBODY = "9-99999999-9999-9999-9999-999999999999"
DAY = "2024-01-31"
# The faults after which a stream ends.
FAULTS = (701, 703, 704, 705)
JSON = "application/json"

with open(PATH, encoding="utf-8") as file:
    DESCRIPTION = json.load(file)


def validators():
    """The module jsonschema, which is installed where that may be done; None without it."""
    with contextlib.suppress(ImportError):
        import jsonschema
        return jsonschema
    if os.geteuid() == 0 and shutil.which("apt-get"):
        subprocess.run(
            ["apt-get", "install", "-y", "-q", "python3-jsonschema"], stdin=subprocess.DEVNULL, capture_output=True,
            timeout=300,
        )
    with contextlib.suppress(ImportError):
        import jsonschema
        return jsonschema
    return None


VALIDATORS = validators()


def exact(value):
    """A schema that allows no more than this release writes: no further member of an object, no further line."""
    if isinstance(value, list):
        return [exact(it) for it in value]
    if not isinstance(value, dict):
        return value
    made = {name: exact(it) for name, it in value.items()}
    if "x-pattern" in made:
        made["pattern"] = made["x-pattern"]
    return {**made, "additionalProperties": False} if "properties" in made else made


def exact_components():
    """The components of the description, with exact schemas of replies. In a body further members are ignored."""
    bodies = {
        it["schema"]["$ref"].rpartition("/")[2]
        for path in DESCRIPTION["paths"].values() for operation in path.values()
        if isinstance(operation, dict) and "requestBody" in operation
        for it in operation["requestBody"]["content"].values()
    }
    schemas = DESCRIPTION["components"]["schemas"]
    made = {name: it if name in bodies else exact(it) for name, it in schemas.items()}
    return {**DESCRIPTION["components"], "schemas": made}


COMPONENTS = exact_components()


def resolved(value):
    """What a reference within the description names, or else the value."""
    while "$ref" in value:
        found = DESCRIPTION
        for part in value["$ref"].removeprefix("#/").split("/"):
            found = found[part]
        value = found
    return value


def compact(value):
    """JSON as the program writes it; a text as it is."""
    return value if isinstance(value, str) else json.dumps(value, separators=(",", ":"), ensure_ascii=False)


class Schema:
    """A schema of the description, with the limits in bytes that only it knows."""

    def __init__(self, schema):
        self.schema = resolved(schema)
        self.validator = VALIDATORS and VALIDATORS.Draft202012Validator(
            {**schema, "components": COMPONENTS}
        )

    def fault(self, value):
        """Why a value is not of the schema, if it is not."""
        for error in self.validator.iter_errors(value) if self.validator else ():
            return error.message[:200]
        for name, member in self.schema.get("properties", {}).items():
            most = resolved(member).get("x-max-bytes")
            if most and isinstance(value, dict) and len(value[name].encode()) > most:
                return f"{name} has more than {most} bytes"
        return None


class Operation:
    """An operation of the description."""

    def __init__(self, path, method, said):
        self.path, self.method, self.said, self.name = path, method.upper(), said, said["operationId"]
        self.caller = next(iter(said["security"][0]))
        self.pattern = re.compile(re.sub(r"\{\w+\}", "[^/?%]+", path))
        self.responses = {int(status): resolved(it) for status, it in said["responses"].items() if status != "default"}
        self.codes = said["x-refusals-in-order"]
        sent = said.get("requestBody", {}).get("content", {})
        self.body_kind = next(iter(sent), None)
        self.body = Schema(sent[self.body_kind]["schema"]) if sent else None
        examples = sent[self.body_kind]["examples"] if sent else {}
        self.bodies = {name: it["value"] for name, it in examples.items()}
        self.refused = {name: it["x-refused"] for name, it in examples.items() if "x-refused" in it}
        self.schemas = {
            (status, kind): Schema(content["schema"])
            for status, it in self.responses.items() for kind, content in it["content"].items()
        }

    def examples(self):
        """Each example of a reply, by its status and name."""
        return {
            (status, name): resolved(it)["value"]
            for status, response in self.responses.items() for content in response["content"].values()
            for name, it in content["examples"].items()
        }

    def fields(self):
        """The fields of whom the operation is for."""
        if self.caller == "bearer":
            return [["Pledge-Receipt", NOBODY]]
        key = [["Pledge-Key", OPERATOR if self.caller == "operator" else BROKER]]
        return key + [["Import-Key", IMPORT]] if "parameters" in self.said else key

    def first_body(self):
        return next(iter(self.bodies.values()), None)


OPERATIONS = {said["operationId"]: Operation(path, method, said) for path, methods in DESCRIPTION["paths"].items()
              for method, said in methods.items() if method in ("get", "post")}
CODES = {
    it["properties"]["code"]["const"]: name
    for name, it in DESCRIPTION["components"]["schemas"].items() if "code" in it.get("properties", {})
}


def operation_of(method, target):
    """The operation that a request is for; None where the description has none."""
    return next((it for it in OPERATIONS.values() if it.method == method and it.pattern.fullmatch(target)), None)


class Run:
    """The program over a file, a stream for each day, and what it was seen to answer."""

    def __init__(self, path):
        self.path, self.program, self.day, self.seed, self.left, self.asked = path, None, None, 1_000, 0, 0
        self.codes, self.replies = defaultdict(set), defaultdict(set)

    def open(self, day, seed):
        if self.program is None or day != self.day or seed is not None or self.left == 0:
            self.close()
            self.seed += 1
            words = [PROGRAM, "answer", self.path, day, f"{self.seed if seed is None else seed:064x}", OPERATOR]
            self.program = subprocess.Popen(words, stdin=subprocess.PIPE, stdout=subprocess.PIPE)
            self.day, self.left = day, 1_000
        self.left -= 1

    def close(self):
        if self.program:
            self.program.stdin.close()
            expect("how a stream ended", self.program.wait(timeout=60), 0)
            self.program.stdout.close()
            self.program = None

    def reply(self):
        """The status, the type, and the body of the next reply."""
        status, fields = self.program.stdout.readline().decode(), {}
        while line := self.program.stdout.readline().decode().strip():
            name, _, value = line.partition(": ")
            fields[name] = value
        expect("the fields of a reply", list(fields), ["Content-Length", "Content-Type"])
        body = self.program.stdout.read(int(fields["Content-Length"])).decode()
        return int(status.split()[1]), fields["Content-Type"], body

    def ask(self, method, target, fields, body=b"", day=DAY, seed=None, head=None):
        """What a request is answered, once it was held against the description: its code, which is 0 where it is
        done, and what it says."""
        self.open(day, seed)
        self.asked += 1
        heads = "".join(f"{name}: {value}\r\n" for name, value in fields)
        heads += head if head is not None else f"Content-Length: {len(body)}\r\n"
        self.program.stdin.write(f"{method} {target} HTTP/1.1\r\n{heads}\r\n".encode() + body)
        self.program.stdin.flush()
        status, kind, text = self.reply()
        said = json.loads(text) if kind == JSON else text
        code = said.get("code", 0) if kind == JSON else 0
        if code in FAULTS:
            self.close()
        self.compare(method, target, status, kind, text, code)
        return code, said

    def compare(self, method, target, status, kind, text, code):
        """Whether the description has this reply to such a request."""
        operation = operation_of(method, target)
        said = json.loads(text) if kind == JSON else text
        if operation is None:
            known = any(it.pattern.fullmatch(target) for it in OPERATIONS.values())
            others = (it["x-other-methods"] for it in DESCRIPTION["paths"].values() if it["x-other-methods"])
            response = resolved(next(others) if known else DESCRIPTION["x-other-targets"])
            schema = Schema(response["content"][kind]["schema"])
        else:
            if text in self.replies[operation.name, status]:
                return
            self.codes[operation.name].add(code)
            self.replies[operation.name, status].add(text)
            schema = operation.schemas.get((status, kind))
            if schema is None or (code and code not in operation.codes):
                raise Failed(f"{operation.name} does not have {status} {kind} {text:.100}")
        why = schema.fault(said)
        if why:
            raise Failed(f"{method} {target}: {text:.200}: {why}")

    def send(
        self, name, wanted=0, body=None, fields=None, day=DAY, seed=None, receipt=None, book=7, number=1,
        shown="2024-03-04",
    ):
        """Sends an operation with the fields of its caller, unless the arguments have others, and returns the reply,
        which has to be of that code."""
        operation = OPERATIONS[name]
        if receipt:
            fields = [["Pledge-Receipt", receipt]]
        body = body if isinstance(body, bytes) else b"" if body is None else compact(body).encode()
        target = operation.path.format(book=book, number=number, day=shown)
        code, said = self.ask(
            operation.method, target, operation.fields() if fields is None else fields, body, day, seed,
        )
        if wanted is not None:
            expect(
                f"{name} of {target} on {day} with {body[:80]}", (code, compact(said)[:100] if code != wanted else ""),
                (wanted, ""),
            )
        return said


def chosen(chance, seqs, day):
    """A request at random: its operation, its body, and the number of the pledge."""
    number = chance.randint(1, 12)
    near = day + datetime.timedelta(chance.randint(-3, 40))
    bodies = {
        "draw": {"pence": chance.randint(1, 9000), "seq": seqs[number]},
        "repay": {"pence": chance.randint(1, 4000), "seq": seqs[number]}, "hold": None, "release": None,
        "declareLost": {"paper": chance.choice(["sworn", "written"])}, "decideBooking": {"yes": chance.random() < 0.7},
        "sell": {"net": chance.randint(0, 20000)},
        "extend": {"until": str(day + datetime.timedelta(chance.randint(0, 300)))}, "showPledge": None, "showDay": None,
        "showHeld": None, "repayHeld": {"pence": chance.randint(1, 4000), "seq": seqs[number]},
        "askBooking": {"day": str(near), "window": chance.randint(0, 16)}, "cancelBooking": None,
        "redeem": {"paid": chance.randint(1, 9999)},
    }
    name = chance.choice(list(bodies))
    return name, bodies[name], number, near
