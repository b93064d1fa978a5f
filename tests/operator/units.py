"""The units of deploy/systemd: that systemd reads them, that the program makes no call of the system that they bar, and
that the daily run on a receiving machine removes nothing by a wrong clock."""
import datetime
import os
import re
import shutil
import signal
import subprocess
import tempfile

from tests.library.checks import expect, main, not_tried
from tests.library.keys import OPERATOR
from tests.library.packages import provide
from tests.library.paths import PROGRAM, TOP
from tests.library.program import Server, free_port
from tests.library.sessions import Session


def the_units_are_as_systemd_reads_them():
    if not shutil.which("systemd-analyze"):
        not_tried("the units by systemd-analyze verify", "systemd is not installed")
        return
    # What they start need not be installed here.
    started = ("/usr/bin/pawnd-admin", "/usr/bin/pawnd", "/usr/share/pawnd/", "/etc/pawnd/on-failure")
    with tempfile.TemporaryDirectory() as room:
        units = []
        for name in os.listdir(os.path.join(TOP, "deploy/systemd")):
            if name == "port-rule":
                continue
            with open(os.path.join(TOP, "deploy/systemd", name)) as it:
                text = it.read()
            for path in started:
                text = re.sub(rf"^(Exec\w+=\S*?|ConditionFileIsExecutable=){path}\S*", r"\1/bin/true", text, flags=re.M)
            with open(os.path.join(room, name), "w") as it:
                it.write(text)
            if not name.endswith(".sysusers"):
                units.append(os.path.join(room, name.replace("@.", "@main.")))
        ran = subprocess.run(
            ["systemd-analyze", "verify", "--man=no", *units], capture_output=True, text=True, timeout=60
        )
        expect("systemd-analyze verify", (ran.returncode, ran.stdout, ran.stderr), (0, "", ""))
        expect("how many there are", len(units), 12)


def allowed_calls(unit):
    """The calls of the system that a unit lets through."""
    sets, name = {}, None
    for line in subprocess.run(
        ["systemd-analyze", "--no-pager", "syscall-filter"], capture_output=True, text=True, check=True, timeout=60
    ).stdout.splitlines():
        if line.startswith("@"):
            name = line.strip()
            sets[name] = set()
        elif name and line.startswith("    ") and not line.strip().startswith("#"):
            sets[name].add(line.strip())

    def whole(name):
        return set().union(*(whole(it) if it.startswith("@") else {it} for it in sets[name]))

    allowed = set()
    with open(os.path.join(TOP, "deploy/systemd", unit)) as it:
        for barred, names in re.findall(r"^SystemCallFilter=(~?)(.*)$", it.read(), re.M):
            named = set().union(*(whole(name) if name.startswith("@") else {name} for name in names.split()))
            allowed = allowed - named if barred else allowed | named
    return allowed


def the_program_makes_no_call_that_its_unit_bars():
    """A store that is opened, written to, read and opened again, and what it asked of the system."""
    if not shutil.which("systemd-analyze") or provide({"strace": "strace"}):
        not_tried("the calls of the system against the unit's filter", "there is no systemd or no strace")
        return
    with tempfile.TemporaryDirectory() as room:
        path, port, trace = os.path.join(room, "books.db"), free_port(), os.path.join(room, "trace")
        for number in range(2):
            traced = subprocess.Popen(
                ["strace", "-f", "-qq", "-o", f"{trace}{number}", PROGRAM, "serve", path, str(port), OPERATOR],
                stdin=subprocess.DEVNULL,
                stdout=subprocess.PIPE,
                stderr=subprocess.DEVNULL,
            )
            expect("it listens", traced.stdout.readline(), f"listening {port}\n".encode())
            if number == 0:
                session = Session(port)
                session.open_book()
                receipt = session.open_pledge(1)
                session.bearer(receipt, "POST", "/books/7/held/repay", {"pence": 1, "seq": 1})
                expect("a view", session.bearer(receipt, "GET", "/books/7/held")[0], 200)
                session.close()
            with open(f"/proc/{traced.pid}/task/{traced.pid}/children") as it:
                os.kill(int(it.read().split()[0]), signal.SIGTERM)
            traced.communicate(timeout=30)
        made = set()
        for number in range(2):
            with open(f"{trace}{number}") as it:
                made |= {found[1] for line in it if (found := re.match(r"(?:\d+ +)?(\w+)\(", line))}
    # The program is started by execve, which systemd does before the filter holds.
    expect("calls that the unit bars", sorted(made - allowed_calls("pawnd@.service") - {"execve"}), [])
    expect("it was seen at work", {"accept4", "flock"} & made != set() and "read" in made, True)


def a_copy_makes_no_call_that_its_unit_bars():
    """The same of a copy of a store that is served, with its check."""
    if not shutil.which("systemd-analyze") or provide({"strace": "strace"}):
        not_tried("the calls of a copy against the unit's filter", "there is no systemd or no strace")
        return
    with tempfile.TemporaryDirectory() as room:
        folders = {name: os.path.join(room, name.lower()) for name in ("SETTINGS", "STORES", "COPIES")}
        os.makedirs(os.path.join(folders["SETTINGS"], "stores"))
        os.makedirs(os.path.join(folders["STORES"], "main"))
        os.makedirs(folders["COPIES"])
        with Server(os.path.join(folders["STORES"], "main/books.db")) as server:
            with open(os.path.join(folders["SETTINGS"], "stores/main.conf"), "w") as it:
                it.write(f"PORT={server.port}\n")
            server.session().open_book()
            trace = os.path.join(room, "trace")
            words = ["strace", "-f", "-qq", "-o", trace, "/usr/bin/python3", os.path.join(TOP, "deploy/admin/pawnd-admin")]
            ran = subprocess.run(
                [*words, "copy", "main"], capture_output=True, text=True, timeout=120,
                env={**os.environ, **folders, "PAWND": PROGRAM},
            )
            expect(f"the copy {ran.stderr}", ran.returncode, 0)
        with open(trace) as it:
            made = {found[1] for line in it if (found := re.match(r"(?:\d+ +)?(\w+)\(", line))}
        expect("calls that the unit bars", sorted(made - allowed_calls("pawnd-copy@.service") - {"execve"}), [])
        expect("it was seen at work", {"flock", "fsync"} <= made, True)


class Receiver:
    """A repository in a folder, and the daily run of the machine that receives copies."""

    def __init__(self, room):
        self.repository, self.passphrase = os.path.join(room, "received/copies"), os.path.join(room, "passphrase")
        self.now = datetime.datetime.now(datetime.timezone.utc)
        os.mkdir(os.path.dirname(self.repository))
        with open(self.passphrase, "w") as it:
            it.write("of-the-test\n")
        self.environment = {
            **os.environ, "FOLDER": os.path.dirname(self.repository), "PASSPHRASE": self.passphrase, "TZ": "UTC",
            "BORG_PASSPHRASE": "of-the-test", "BORG_BASE_DIR": os.path.join(room, "of-the-test"),
        }
        self.run("borg", "init", "--encryption", "repokey-blake2", self.repository)

    def run(self, *words, wanted=0):
        ran = subprocess.run(
            words, capture_output=True, text=True, stdin=subprocess.DEVNULL, env=self.environment, timeout=300
        )
        expect(f"{words}: {ran.stdout}{ran.stderr}", ran.returncode, wanted)
        return ran.stdout + ran.stderr

    def send(self, when, store="main"):
        name = f"{store}.{when:%Y%m%dT%H%M%SZ}.{when:%Y%m%dT%H%M%SZ}"
        self.run("borg", "create", "--timestamp", f"{when:%Y-%m-%dT%H:%M:%S}", f"{self.repository}::{name}", self.passphrase)
        return name

    def days_ago(self, days):
        return self.now - datetime.timedelta(days=days)

    def prune(self, wanted=0):
        return self.run(os.path.join(TOP, "deploy/offsite/prune"), wanted=wanted)

    def archives(self):
        return sorted(self.run("borg", "list", "--short", self.repository).split())


def with_receiver(test):
    """The same test, on a receiver of its own."""

    def tried():
        if os.geteuid() or provide({"borg": "borgbackup"}):
            not_tried(test.__name__.replace("_", " "), "it needs root and borg")
            return
        with tempfile.TemporaryDirectory() as room:
            test(Receiver(room))

    tried.__name__ = test.__name__
    return tried


@with_receiver
def nothing_is_removed_by_a_clock_that_is_ahead(it):
    """By the clock of the receiving machine all archives are old ones. None is removed until there is a new one."""
    month = it.days_ago(90).replace(hour=4, minute=0, second=0)
    names = [it.send(month.replace(day=day)) for day in (10, 11, 12)]
    told = it.prune(wanted=1)
    expect(f"why: {told}", "nothing is removed" in told and "clock" in told, True)
    expect("what is there", it.archives(), names)
    newest = it.send(it.now)
    it.prune()
    expect("what is there then", it.archives(), [names[0], names[2], newest])


@with_receiver
def a_store_that_is_not_sent_any_more(it):
    """It is noticed here, even if its machine is silent about it and other stores are still sent; until the operator
    says that it is to be so. Then its archives stay as they are, and an archive of it that is gone is noticed."""
    month = it.days_ago(90).replace(hour=4, minute=0, second=0)
    of_east = [it.send(month.replace(day=day), "east") for day in (10, 11, 12)]
    old = [it.send(month.replace(day=day)) for day in (10, 11, 12)]
    new = it.send(it.days_ago(6)), it.send(it.days_ago(6), "east")
    it.prune()
    expect("both are sent", it.archives(), sorted([of_east[0], of_east[2], old[0], old[2], *new]))
    it.run("borg", "delete", f"{it.repository}::{new[1]}")
    os.unlink(it.environment["FOLDER"] + ".known")
    before = it.archives()
    told = it.prune(wanted=1)
    expect(f"why: {told}", "of the store east nothing was sent for seven days" in told and "nothing is removed" in told, True)
    expect("of main it says nothing", "main" in told, False)
    expect("what is there", it.archives(), before)
    it.run("sh", "-c", re.search("echo .*", told)[0])
    it.prune()
    expect("what stays", it.archives(), before)
    it.run("borg", "delete", f"{it.repository}::{of_east[0]}")
    expect("one that is gone", of_east[0] in it.prune(wanted=1), True)
    os.unlink(it.environment["FOLDER"] + ".known")
    it.send(it.days_ago(8), "east")
    expect("a later one, after which nothing came", "of the store east nothing" in it.prune(wanted=1), True)


main(
    the_units_are_as_systemd_reads_them,
    the_program_makes_no_call_that_its_unit_bars,
    a_copy_makes_no_call_that_its_unit_bars,
    nothing_is_removed_by_a_clock_that_is_ahead,
    a_store_that_is_not_sent_any_more,
)
