"""Checks that say which step failed, and the run of a script's tests."""
import http.client
import signal
import sqlite3
import subprocess
import sys
import time

# Under nohup, or in the background of a shell, a script ignores some signals, and what it starts would inherit that. A
# signal with a handler has its default in what is started. (Python itself ignores two more, and restores those.)
for number in signal.valid_signals() - {signal.SIGPIPE, signal.SIGXFSZ}:
    if signal.getsignal(number) == signal.SIG_IGN:
        signal.signal(number, lambda *_: None)


class Failed(Exception):
    """A step that did not go as it should."""


def expect(step, found, wanted):
    if found != wanted:
        raise Failed(f"{step}: {found!r:.400} in place of {wanted!r:.400}")


def not_tried(what, why):
    print(f"not tried: {what}, since {why}", flush=True)


def named(tests):
    """Those of these functions that the command line names, or all where it names none. A number is no name."""
    names = [word for word in sys.argv[1:] if not word.isdigit()]
    of_name = {test.__name__: test for test in tests}
    for name in names:
        if tests and name not in of_name:
            sys.exit(f"{sys.argv[0]}: there is no test {name}; there are {' '.join(of_name)}")
    return [test for test in tests if not names or test.__name__ in names]


def main(*tests):
    """Runs these functions in turn, or those that the command line names; the last line counts them."""
    tests, failed = named(tests), 0
    for test in tests:
        begun = time.monotonic()
        name = test.__name__.replace("_", " ")
        try:
            test()
            print(f"ok      {name} ({time.monotonic() - begun:.1f} s)", flush=True)
        except (Failed, OSError, http.client.HTTPException, sqlite3.Error, subprocess.SubprocessError) as why:
            failed += 1
            print(f"FAILED  {name}: {why}", flush=True)
    print(f"{len(tests) - failed} passed, {failed} failed")
    sys.exit(1 if failed else 0)
