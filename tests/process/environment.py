"""What tests/run gives the tests, no matter who called it: an environment of few variables, a folder for temporary
files whose name has no blank, a home that can be written to, and signals that are not ignored."""
import os
import re
import signal
import subprocess
import tempfile

from tests.library.checks import expect, main, not_tried
from tests.library.paths import PROGRAM, TOP

GIVEN = {"PATH", "HOME", "TMPDIR", "LC_ALL", "TZ", "TERM", "CI", "PAWND", "TESTS_ENVIRONMENT"}
# What a machine needs to reach Debian's packages.
NETWORK = {"http_proxy", "https_proxy", "no_proxy", "SSL_CERT_FILE", "SSL_CERT_DIR"}
# bash, Python and pyenv set these themselves.
THEIR_OWN = re.compile(r"PWD|OLDPWD|SHLVL|_|LC_CTYPE|_?PYENV_\w+")


def the_variables_are_those_of_tests_run():
    further = {name for name in set(os.environ) - GIVEN - NETWORK if not THEIR_OWN.fullmatch(name)}
    expect("further variables", sorted(further), [])
    expect("missing variables", sorted(GIVEN - set(os.environ)), [])
    expect("the language and the time zone", (os.environ["LC_ALL"], os.environ["TZ"]), ("C.UTF-8", "UTC"))


def files_can_be_made():
    for name in ("TMPDIR", "HOME"):
        folder = os.environ[name]
        expect(f"{name} is absolute and has no blank", (os.path.isabs(folder), len(folder.split())), (True, 1))
        with tempfile.NamedTemporaryFile(dir=folder) as it:
            expect(f"the mode of what is made in {name}", os.stat(it.name).st_mode & 0o777, 0o600)
    with tempfile.TemporaryDirectory() as room:
        path = os.path.join(room, "made")
        os.close(os.open(path, os.O_CREAT | os.O_WRONLY, 0o666))
        expect("the mode that the umask leaves", os.stat(path).st_mode & 0o777, 0o644)


def no_signal_is_ignored():
    """Python itself ignores two, and restores them in what it starts. It cannot see those of the C library."""
    asks = ["grep", "SigIgn", "/proc/self/status"]
    told = subprocess.run(asks, capture_output=True, check=True, timeout=60).stdout.split()[1]
    ignored = {number for number in signal.valid_signals() if int(told, 16) >> (number - 1) & 1}
    expect("the signals that are ignored", ignored, set())


def make_says_nothing_of_its_own():
    """Its first line is that of the command, also where another make started the tests."""
    ran = subprocess.run(["make", "help"], cwd=TOP, capture_output=True, text=True, timeout=60)
    expect("the first words of make help", ran.stdout.split()[:2], ["make", "proves"])


def the_program_is_named_whole():
    expect("the program's path is absolute", os.path.isabs(PROGRAM), True)


if os.environ.get("TESTS_ENVIRONMENT") != "set":
    not_tried("all of it", "tests/run did not start it")
    main()
main(
    the_variables_are_those_of_tests_run, files_can_be_made, no_signal_is_ignored, make_says_nothing_of_its_own,
    the_program_is_named_whole,
)
