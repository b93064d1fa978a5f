"""Debian machines that run systemd: a small Debian is made once by debootstrap, with the packages that pawnd asks for
waiting in apt's own folder, and each machine is booted from it by systemd-nspawn, with changes and a network of its own."""
import contextlib
import itertools
import os
import re
import signal
import subprocess
import tempfile
import time
import zlib

from tests.library.checks import Failed, main, not_tried
from tests.library.packages import BUILDING, provide

NEEDED = {"debootstrap": "debootstrap", "systemd-nspawn": "systemd-container", **BUILDING}
# A bare Debian, and the packages that an installation of pawnd may fetch. They wait beside it, since a machine has no
# way to the world.
PARTS = "systemd,systemd-sysv,dbus,ca-certificates,iproute2"
FETCHED = "nginx-light python3 openssl ssl-cert nftables curl certbot borgbackup openssh-client openssh-server rsync"
SOURCES = """deb http://deb.debian.org/debian bookworm main
deb http://deb.debian.org/debian bookworm-updates main
deb http://deb.debian.org/debian-security bookworm-security main
"""
# They are made once for all checkouts, outside of them: the bare one, and one where those packages are installed, on
# which an installation of pawnd takes seconds.
CACHE = os.path.expanduser("~/.cache/pledge-books")
OF_PARTS = f"{zlib.crc32((PARTS + FETCHED + SOURCES).encode()):08x}"
BARE, READY = os.path.join(CACHE, f"debian-{OF_PARTS}"), os.path.join(CACHE, f"debian-{OF_PARTS}-ready")
QUIET = "DEBIAN_FRONTEND=noninteractive RUNLEVEL=1"


def why_not():
    """Why no machine can be booted here, or None."""
    if os.geteuid():
        return "it needs root"
    if provide(NEEDED):
        return "there is no debootstrap, no systemd-nspawn, or not what builds the pages"
    bare = (
        "debootstrap --variant=minbase --include={PARTS} bookworm {root} http://deb.debian.org/debian && "
        "cp /etc/resolv.conf {root}/etc/ && printf '%s' '{SOURCES}' >{root}/etc/apt/sources.list && "
        "chroot {root} apt-get update && chroot {root} apt-get -y install --download-only {FETCHED}"
    )
    ready = f"cp -a {BARE} {{root}} && {QUIET} chroot {{root}} apt-get -y install {{FETCHED}}"
    return make(BARE, bare) or make(READY, ready)


def make(place, text):
    """Makes a Debian by these commands, beside its place until it is whole. Why it can't, or None."""
    if os.path.exists(place):
        return None
    os.makedirs(CACHE, exist_ok=True)
    with tempfile.TemporaryDirectory(dir=CACHE, ignore_cleanup_errors=True) as room:
        root = os.path.join(room, "debian")
        text = text.format(root=root, PARTS=PARTS, FETCHED=FETCHED, SOURCES=SOURCES)
        try:
            ran = subprocess.run(
                ["bash", "-c", text], capture_output=True, text=True, stdin=subprocess.DEVNULL, timeout=900
            )
        except subprocess.TimeoutExpired:
            return "a Debian was not made within fifteen minutes"
        if ran.returncode:
            return f"no Debian can be made: {(ran.stdout + ran.stderr).strip()[-300:]}"
        # Another checkout may have been faster.
        with contextlib.suppress(OSError):
            os.rename(root, place)
    return None if os.path.exists(place) else "the Debian can't be put into its place"


def main_booted(*tests):
    """Runs a script's tests if machines can be booted here, and else says why not."""
    if why := why_not():
        not_tried("all of it", why)
        main()
    main(*tests)


def steps(machines, *tests):
    """Runs these in turn on the same machines."""
    for test in tests:
        begun = time.monotonic()
        test(*machines)
        print(f"        {test.__name__.replace('_', ' ')}: {time.monotonic() - begun:.1f} s", flush=True)


BOOTS = itertools.count(1)


def own_groups():
    """The control groups of this process that systemd uses. Each machine gets groups of its own below them. If machines
    shared them, each machine's systemd would remove groups into which another one is just putting a service."""
    with open("/proc/self/cgroup") as file:
        paths = dict(line.rstrip("\n").split(":", 2)[1:] for line in file)
    with open("/proc/mounts") as file:
        for _, folder, kind, options, *_ in map(str.split, file):
            name = "" if kind == "cgroup2" else "name=systemd" if "name=systemd" in options.split(",") else None
            if name in paths:
                yield folder + paths[name].rstrip("/")


def remove_group(group):
    """Removes what a machine left of its groups. No process is left in them."""
    for folder, *_ in os.walk(group, topdown=False):
        with contextlib.suppress(OSError):
            os.rmdir(folder)


class Booted:
    """A machine that runs, until the block is left. The folder `packages` is its /root/packages. `words` are
    systemd-nspawn's options for its network and its disks."""

    def __init__(self, packages, name="one", debian=READY, words=("--private-network",)):
        self.packages, self.name, self.debian, self.words = packages, name, debian, words

    def __enter__(self):
        self.stack = contextlib.ExitStack()
        try:
            self.room = self.stack.enter_context(tempfile.TemporaryDirectory(prefix=f"pawnd-{self.name}-"))
            self.mount()
            self.boot()
        except BaseException:
            self.stack.close()
            raise
        return self

    def __exit__(self, *_):
        self.stack.close()

    def mount(self):
        """Its disk: what was made once, and what is changed here, which is in memory."""
        self.root, changed = os.path.join(self.room, "root"), os.path.join(self.room, "changed")
        for folder in (self.root, changed):
            os.mkdir(folder)
        at = f"lowerdir={self.debian},upperdir={changed}/u,workdir={changed}/w"
        for words in (
            ["mount", "-t", "tmpfs", "none", changed],
            ["mkdir", f"{changed}/u", f"{changed}/w"],
            ["mount", "-t", "overlay", "o", "-o", at, self.root],
        ):
            subprocess.run(words, check=True, capture_output=True, timeout=30)
            if words[0] == "mount":
                self.stack.callback(subprocess.run, ["umount", "-l", words[-1]], timeout=30)
        with open(os.path.join(self.root, "etc/hostname"), "w") as it:
            it.write(self.name + "\n")
        self.put_off_timers()

    def put_off_timers(self):
        """What the package's timers do once a day is due in half a day, and not while the machine is tried."""
        hour = time.strftime("%H", time.gmtime(time.time() + 43_200))
        for name in ("pawnd-copy@", "pawnd-offsite@", "pawnd-received"):
            folder = os.path.join(self.root, f"etc/systemd/system/{name}.timer.d")
            os.makedirs(folder)
            with open(os.path.join(folder, "later.conf"), "w") as it:
                it.write(f"[Timer]\nOnCalendar=\nOnCalendar=*-*-* {hour}:00:00 UTC\n")

    def boot(self):
        name = f"pawnd-{self.name}-{os.getpid()}-{next(BOOTS)}"
        groups = [os.path.join(it, name) for it in own_groups()]
        for it in groups:
            os.mkdir(it)
            self.stack.callback(remove_group, it)
        words = ["systemd-nspawn", "-q", "-D", self.root, "--register=no", "--keep-unit", "-b", *self.words,
                 f"--machine=pawnd-{self.name}-{os.getpid()}"]
        # A shell puts itself into the groups first.
        enter = 'for it in $1; do echo 0 >"$it/cgroup.procs"; done; shift; exec "$@"'
        self.nspawn = subprocess.Popen(
            ["sh", "-e", "-c", enter, "sh", " ".join(groups), *words, f"--bind-ro={self.packages}:/root/packages",
             "--kill-signal=SIGRTMIN+3"],
            stdin=subprocess.DEVNULL,
            stdout=subprocess.DEVNULL,
            stderr=subprocess.PIPE,
        )
        self.stack.callback(self.cut, self.nspawn)
        self.first = self.begun()
        self.run("until systemctl is-system-running | grep -qE 'running|degraded'; do sleep 0.2; done")

    def cut(self, nspawn=None):
        """All its processes are killed at once, as by the loss of its power."""
        nspawn = nspawn or self.nspawn
        if nspawn.poll() is None:
            os.kill(self.first, signal.SIGKILL)
            try:
                nspawn.communicate(timeout=30)
            except subprocess.TimeoutExpired:
                nspawn.kill()
                nspawn.communicate()

    def begun(self):
        """The number of its first process."""
        for _ in range(300):
            if self.nspawn.poll() is not None:
                raise Failed(f"no boot: {self.nspawn.stderr.read().decode()[-300:]}")
            with contextlib.suppress(OSError, IndexError):
                with open(f"/proc/{self.nspawn.pid}/task/{self.nspawn.pid}/children") as it:
                    pid = int(it.read().split()[-1])
                with open(f"/proc/{pid}/comm") as it:
                    if it.read() == "systemd\n":
                        return pid
            time.sleep(0.1)
        raise Failed("systemd did not begin within 30 seconds")

    def run(self, text, wanted=0, within=600, folder="/root"):
        """What these lines of a shell print. They end at the first that fails."""
        home = {"HOME": "/root", "PATH": "/usr/local/bin:/usr/sbin:/usr/bin:/sbin:/bin", "LANG": "C.UTF-8"}
        ran = subprocess.run(
            ["nsenter", "-t", str(self.first), "-a", "bash", "-e", "-c", f"cd {folder}\n{text}"],
            stdin=subprocess.DEVNULL,
            stdout=subprocess.PIPE,
            stderr=subprocess.STDOUT,
            text=True,
            errors="replace",
            env={**home, "DEBIAN_FRONTEND": "noninteractive"},
            cwd="/",
            timeout=within,
        )
        if wanted is not None and ran.returncode != wanted:
            raise Failed(f"on {self.name}, {text[:300]!r} ended with {ran.returncode}: {ran.stdout[-1200:]}")
        return ran.stdout

    def start(self, unit, within=600):
        """Starts a unit, and waits until it has started, or has ended if it runs once."""
        self.run(f"systemctl start {unit} || {{ journalctl -u {unit} -n 25 -o cat --no-pager; exit 1; }}", within=within)

    def until(self, condition, within=60):
        """Waits until a condition of the shell holds."""
        self.run(f"end=$((SECONDS + {within})); until {condition}; do [ $SECONDS -lt $end ]; sleep 0.2; done")

    def journal(self, unit):
        """All that a unit has written so far."""
        return self.run(f"journalctl --sync; journalctl -u {unit} -o cat --no-pager")

    def state(self, unit, *names):
        """What systemd says of a unit."""
        told = self.run(f"systemctl show -p {','.join(names)} {unit}")
        said = dict(line.split("=", 1) for line in told.splitlines())
        return tuple(said[name] for name in names)

    def complaints(self):
        """What systemd could not read in a unit of ours, or could not do of it."""
        told = self.run("journalctl --no-pager -o cat -t systemd | grep -i pawnd || true").splitlines()
        return [line for line in told if re.search("unknown|invalid|ignoring|unsupported|failed to parse", line, re.I)]

    def line_to(self, other, own, others):
        """A line between two machines, with an address at each end."""
        subprocess.run(
            ["ip", "link", "add", f"to-{other.name}", "netns", str(self.first), "type", "veth",
             "peer", "name", f"to-{self.name}", "netns", str(other.first)],
            check=True, capture_output=True, timeout=20,
        )
        for machine, peer, at in ((self, other, own), (other, self, others)):
            machine.run(f"ip address add {at}/24 dev to-{peer.name}; ip link set to-{peer.name} up")
