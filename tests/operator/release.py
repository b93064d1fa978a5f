"""`make release`: the package that it makes, that lintian finds no error in it, what it says of itself, and that the
program starts where the kit is not, with the system's libraries alone."""
import contextlib
import os
import re
import shutil
import subprocess
import tempfile

from tests.library.checks import Failed, expect, main, not_tried
from tests.library.packages import provide
from tests.library.paths import TOP

LIBRARIES = "libc.so.6"


def text(path):
    with open(path) as it:
        return it.read()


VERSION = text(os.path.join(TOP, "VERSION")).strip()
PACKAGE = os.path.join(TOP, f"dist/pawnd_{VERSION}_amd64.deb")


def said_by(*words):
    return subprocess.run(words, capture_output=True, text=True, check=True, timeout=120).stdout


def unpacked(room):
    """A folder with the package's files."""
    said_by("dpkg-deb", "-x", PACKAGE, room)
    return room


@contextlib.contextmanager
def left_by_a_run():
    """What a run of the examples leaves beside them, which is no part of a release."""
    folder = os.path.join(TOP, "examples/__pycache__")
    os.makedirs(folder, exist_ok=True)
    path = os.path.join(folder, "left.pyc")
    with open(path, "wb"):
        pass
    try:
        yield
    finally:
        os.remove(path)


def a_release_is_packed():
    with left_by_a_run():
        made = subprocess.run(
            ["make", "-s", "-C", TOP, "release"], capture_output=True, text=True, timeout=10_000, umask=0o077,
        )
    if made.returncode:
        raise Failed(f"make release ended with {made.returncode}: {made.stdout[-300:]} {made.stderr[-300:]}")
    expect("it is all that there is", os.listdir(os.path.join(TOP, "dist")), [os.path.basename(PACKAGE)])
    listed = [line.split(None, 5) for line in said_by("dpkg-deb", "-c", PACKAGE).splitlines()]
    expect("owners", {line[1] for line in listed}, {"root/root"})
    expect("what not everybody can read", [line for line in listed if line[0][7] != "r" or line[0][8] == "w"], [])
    paths = {line[5].lstrip(".") for line in listed}
    for path in (
        "/usr/bin/pawnd", "/usr/bin/pawnd-admin", "/usr/share/pawnd/admin/settings.py", "/usr/share/pawnd/web/index.html",
        "/usr/share/doc/pawnd/DEPLOYING.md", "/usr/share/doc/pawnd/openapi.json", "/usr/share/doc/pawnd/examples/README.md",
        "/usr/share/doc/pawnd/RELEASE", "/lib/systemd/system/pawnd@.service", "/usr/lib/sysusers.d/pawnd.conf",
        "/etc/nginx/sites-available/pawnd", "/etc/nginx/snippets/pawnd-http.conf", "/etc/pawnd/name.conf",
    ):
        expect(f"{path} is there", path in paths, True)
    settings = {path for path in paths if path.startswith("/etc/") and not path.endswith("/")}
    expect("what the operator may edit", set(said_by("dpkg-deb", "-I", PACKAGE, "conffiles").split()), settings)
    expect("no compiled Python", [path for path in paths if "__pycache__" in path], [])


def lintian_finds_no_error():
    if provide({"lintian": "lintian"}):
        not_tried("the package by lintian", "it is not installed")
        return
    ran = subprocess.run(
        ["lintian", "--allow-root", "--fail-on", "error", PACKAGE], capture_output=True, text=True, timeout=300
    )
    expect("its errors", [line for line in ran.stdout.splitlines() if line.startswith("E:")], [])
    expect(f"lintian {ran.stderr[-200:]}", ran.returncode, 0)


def it_says_what_it_is():
    commit = said_by("git", "-C", TOP, "rev-parse", "HEAD").strip()
    kit = said_by("rt", "version").strip()
    with tempfile.TemporaryDirectory() as room:
        said = text(os.path.join(unpacked(room), "usr/share/doc/pawnd/RELEASE"))
    for line in (f"pawnd {VERSION}", f"Commit         {commit}", f"Proved with    {kit}", f"Libraries      {LIBRARIES} GLIBC_"):
        expect(f"it says {line}", line in said, True)
    gate = re.search(r"The gate       (\d+ passed, \d+ failed|not run on this commit)\n", said)
    expect("what it says of the gate", bool(gate), True)
    expect("its version", said_by("dpkg-deb", "-f", PACKAGE, "Version").strip(), VERSION)


def the_systems_libraries_are_enough():
    if os.geteuid():
        not_tried("a root of its own for the program", "it needs the rights of root")
        return
    with tempfile.TemporaryDirectory() as room:
        program = os.path.join(unpacked(room), "usr/bin/pawnd")
        libraries = re.findall(r"(/\S+) \(0x", said_by("ldd", program))
        others = [it for it in libraries if not it.startswith(("/lib/", "/lib64/", "/usr/lib/"))]
        expect("no library of the kit", others, [])
        asked = said_by("dpkg-deb", "-f", PACKAGE, "Depends")
        expect("the C library is asked for", bool(re.match(r"libc6 \(>= 2\.\d+\),", asked)), True)
        root = os.path.join(room, "root")
        for path in libraries:
            os.makedirs(root + os.path.dirname(path), exist_ok=True)
            shutil.copyfile(path, root + path)
            os.chmod(root + path, 0o755)
        shutil.copy(program, root)
        ran = subprocess.run(
            ["chroot", root, "/pawnd", "check", ":memory:"], capture_output=True, text=True, timeout=60,
        )
        expect("it starts", (ran.returncode, ran.stdout, ran.stderr), (0, "books 0 pledges 0 rows 0\n", ""))


main(a_release_is_packed, lintian_finds_no_error, it_says_what_it_is, the_systems_libraries_are_enough)
