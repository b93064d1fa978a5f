"""The commands of the documents, as they are written there."""
import os
import re

from tests.library.checks import Failed
from tests.library.paths import TOP

DEPLOYING, OPERATING = "docs/DEPLOYING.md", "docs/OPERATING.md"


def section_of(path, heading):
    """A section of a document, with those below it."""
    with open(os.path.join(TOP, path)) as it:
        text = it.read()
    found = re.search(rf"^(#+) {re.escape(heading)}\n(.*?)(?=^#{{1,2}} |\Z)", text, re.M | re.S)
    if not found:
        raise Failed(f"{path} has no section {heading!r}")
    level, rest = len(found[1]), text[found.start(2):]
    end = re.search(rf"^#{{1,{level}}} ", rest, re.M)
    return rest[: end.start()] if end else rest


def commands(path, heading):
    """The blocks of commands of a section: the lines of each."""
    blocks = re.findall(r"(?:^ {4,}\S.*\n)+", section_of(path, heading), re.M)
    return ["".join(line.strip() + "\n" for line in block.splitlines()) for block in blocks]


def command(path, heading, *words):
    """The one block of a section that has these words."""
    found = [block for block in commands(path, heading) if all(word in block for word in words)]
    if len(found) != 1:
        raise Failed(f"{path}, {heading}: {len(found)} blocks have {words}")
    return found[0]
