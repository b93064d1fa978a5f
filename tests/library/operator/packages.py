"""The Debian package of this repository's files and of the program that is tried."""
import os
import shutil
import subprocess

from tests.library.checks import Failed
from tests.library.paths import PROGRAM, TOP

PARTS = ("deploy", "docs", "examples", "web", "tools", "README.md", "CHANGELOG.md", "SECURITY.md")


def make_package(target, version="0.0.1", changes=(), top=TOP):
    """The package's path. `changes` are files with a text each that is added at the end of the file, or in the place of
    another text that is named third: they are made in a copy of the repository's files."""
    os.makedirs(target, exist_ok=True)
    if changes:
        top = os.path.join(target, f"files-{version}")
        for part in PARTS:
            source, copy = os.path.join(TOP, part), os.path.join(top, part)
            os.makedirs(os.path.dirname(copy), exist_ok=True)
            (shutil.copytree if os.path.isdir(source) else shutil.copy)(source, copy)
        for path, text, *instead in changes:
            with open(os.path.join(top, path), "r+") as it:
                old = it.read()
                it.seek(0)
                it.truncate()
                it.write(old.replace(instead[0], text) if instead else old + text)
    ran = subprocess.run(
        [os.path.join(top, "deploy/debian/build"), PROGRAM, version, target],
        capture_output=True, text=True, stdin=subprocess.DEVNULL, timeout=300,
        env={**os.environ, "SOURCE_DATE_EPOCH": "1700000000"},
    )
    if ran.returncode:
        raise Failed(f"the package is not made: {ran.stderr[-600:]}")
    return os.path.join(target, f"pawnd_{version}_amd64.deb")


def make_folder(room):
    """A folder with the package alone."""
    make_package(os.path.join(room, "packages"))
    return os.path.join(room, "packages")
