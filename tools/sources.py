"""The sources that a build of the program reads, and their sum."""
import contextlib
import hashlib
import os
import subprocess

TOP = os.path.dirname(os.path.dirname(os.path.abspath(__file__)))
PROGRAM = "pawnd"
# What is next to a program's sources: what it is run on once it is built.
RUN_ON = ("stdin", "stdout", "args", "status")


def crates():
    """The crates that the program depends on, itself the last, by their lines of crates.txt."""
    with open(os.path.join(TOP, "crates.txt")) as it:
        lines = {line.split(":")[0]: line for line in it if ":" in line and not line.startswith("#")}
    found = {}

    def take(name):
        for below in lines[name].split(":")[1].split():
            if below in lines and below not in found:
                take(below)
        found[name] = lines[name]

    take(PROGRAM)
    return found


def files_of(names):
    """The files that a build of these crates reads, by their paths in the repository."""
    for name in names:
        for part in ("src", "specs", "proofs"):
            for at, folders, files in os.walk(os.path.join(TOP, "crates", name, part)):
                folders.sort()
                yield from (os.path.relpath(os.path.join(at, it), TOP) for it in sorted(files))
        yield from (f"crates/{name}/{it}" for it in RUN_ON if os.path.isfile(os.path.join(TOP, "crates", name, it)))


def text_of(path):
    with contextlib.suppress(OSError), open(path, "rb") as it:
        return it.read()
    return b""


def sum_of(lines, files, kit):
    sum = hashlib.sha256(repr((kit, lines, text_of(os.path.join(TOP, "HANDLES")))).encode())
    for path in files:
        sum.update(repr((path, text_of(os.path.join(TOP, path)))).encode())
    return sum.hexdigest()


def kit():
    """The version of the kit that builds."""
    return subprocess.run(["rt", "version"], capture_output=True, text=True).stdout
