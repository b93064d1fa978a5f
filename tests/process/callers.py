"""tests/run gives the tests the same environment, no matter what starts it: another make, nohup, a shell with
settings of its own, and in a folder whose name has a blank. Each caller starts a small part of the tests."""
import os
import resource
import signal
import subprocess
import tempfile

from tests.library.checks import expect, main
from tests.library.paths import TOP

PART = "environment"
PASSED = "5 passed, 0 failed"
# What a caller may have in its environment, beside what it needs itself.
STRANGE = {
    "MAKELEVEL": "1", "MAKEFLAGS": "w -j2 --jobserver-auth=3,4", "MFLAGS": "-w", "MAKEOVERRIDES": "PORT=1",
    "CDPATH": "/tmp:/", "PYTHONDONTWRITEBYTECODE": "1", "PYTHONPATH": "/nowhere", "PYTHONOPTIMIZE": "2",
    "LC_ALL": "de_DE.UTF-8", "LANG": "tr_TR.UTF-8", "TZ": "Pacific/Auckland", "BASH_ENV": "/nowhere",
    "GIT_DIR": "/nowhere", "PORT": "1", "DATA": "/nowhere", "RT_JOBS": "x",
}


def start(words, folder, **how):
    environment = {**os.environ, **STRANGE, **how.pop("environment", {})}
    for name in ("TESTS_ENVIRONMENT", "PAWND"):
        if name not in how.get("keeps", ()):
            environment.pop(name, None)
    return subprocess.run(
        words, cwd=folder, env=environment, capture_output=True, text=True, stdin=subprocess.DEVNULL, timeout=120,
        **{name: it for name, it in how.items() if name != "keeps"},
    )


def expect_passed(caller, ran):
    lines = [line for line in ran.stdout.strip().split("\n") if not line.startswith("make")]
    expect(f"the last line for {caller}: {ran.stdout[-1500:]} {ran.stderr[-500:]}", lines[-1], PASSED)
    expect(f"the exit status for {caller}", ran.returncode, 0)


def cut_short():
    """What a caller does to the process itself: signals that are ignored, a narrow umask, few open files."""
    for number in (signal.SIGHUP, signal.SIGINT, signal.SIGQUIT, signal.SIGTERM, signal.SIGPIPE, signal.SIGCHLD):
        signal.signal(number, signal.SIG_IGN)
    os.umask(0o077)
    resource.setrlimit(resource.RLIMIT_CORE, (0, 0))


def a_strange_caller():
    with tempfile.TemporaryDirectory() as room:
        blank = os.path.join(room, "a blank")
        os.mkdir(blank)
        strange = {"TMPDIR": blank, "HOME": "/proc"}
        expect_passed("a strange caller", start(["tests/run", PART], TOP, environment=strange, preexec_fn=cut_short))


def a_caller_in_another_folder():
    expect_passed("a caller in another folder", start([os.path.join(TOP, "tests/run"), PART], "/"))


def another_make():
    with tempfile.TemporaryDirectory() as room:
        with open(os.path.join(room, "Makefile"), "w") as it:
            it.write(f"all:\n\t+@cd '{TOP}' && tests/run {PART}\n")
        expect_passed("another make", start(["make", "-w", "--no-print-directory"], room))


def nohup():
    with tempfile.TemporaryDirectory() as room:
        expect_passed("nohup", start(["nohup", os.path.join(TOP, "tests/run"), PART], room))


def a_folder_with_a_blank():
    with tempfile.TemporaryDirectory() as room:
        folder = os.path.join(room, "pledge books")
        words = ["git", "clone", "-q", TOP, folder]
        if not os.path.isdir(os.path.join(TOP, ".git")):
            words = ["cp", "-r", TOP, folder]
        environment = {name: it for name, it in os.environ.items() if not name.startswith("GIT_")}
        subprocess.run(words, check=True, env=environment, timeout=120)
        # What is not committed yet is tried too.
        subprocess.run(["cp", "-r", os.path.join(TOP, "tests"), os.path.join(TOP, "Makefile"), folder], check=True)
        expect_passed("a folder with a blank", start(["tests/run", PART], folder))


def a_program_that_is_not_there():
    ran = start(["tests/run", PART], TOP, environment={"PAWND": "nowhere/pawnd"}, keeps=("PAWND",))
    expect("it is refused", (ran.returncode, "nowhere/pawnd" in ran.stderr), (2, True))


def what_failed_is_listed_at_the_end():
    ran = start(["tests/run", "turns", PART], TOP, environment={"PAWND": "/bin/false"}, keeps=("PAWND",))
    _, _, listed = ran.stdout.partition("== what failed\n")
    script, first, *_, counts = listed.strip().split("\n")
    expect("the script", script, "tests/answers/turns.py")
    expect("what it failed", first.startswith("FAILED  a day: "), True)
    expect("the end", (ran.returncode, counts.startswith("5 passed, ")), (1, True))


main(
    a_strange_caller, a_caller_in_another_folder, another_make, nohup, a_folder_with_a_blank,
    a_program_that_is_not_there, what_failed_is_listed_at_the_end,
)
