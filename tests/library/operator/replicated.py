"""Three machines that run systemd, with a store in a replicated folder, as docs/REPLICATED.md sets it up; and the ways in
which a machine is lost. The script's own process is in the network that connects them, and is the callers' machine."""
import contextlib
import ctypes
import fcntl
import http.client
import json
import os
import re
import shutil
import ssl
import struct
import subprocess
import tempfile
import threading
import time
import uuid

from tests.library.checks import Failed, expect
from tests.library.operator import booted
from tests.library.operator.booted import Booted
from tests.library.operator.documented import commands
from tests.library.operator.first_day import NAME, first_day, put_certbot
from tests.library.packages import provide

REPLICATED = "docs/REPLICATED.md"
NEEDED = {"mkfs.xfs": "xfsprogs", "ip": "iproute2", "bridge": "iproute2"}
MORE = "glusterfs-server keepalived"
READY = f"{booted.READY}-replicated"
ADDRESS, OURS, LINE = "10.0.0.100", "10.0.0.9", "10.0.0"
CLONE_NEWNS, CLONE_NEWNET = 0x20000, 0x40000000
# linux/xfs: shut the file system without writing its log, as a power cut does.
XFS_IOC_GOINGDOWN, NO_LOG = 0x8004587D, 2


def why_not():
    """Why these machines can't be made here, or None. After it this process has mounts and a network of its own, which
    no other process sees and which are gone with it."""
    if why := booted.why_not():
        return why
    if provide(NEEDED):
        return "there is no mkfs.xfs or no ip"
    if not os.path.exists("/dev/fuse") or not os.path.exists("/dev/loop-control"):
        return "there is no /dev/fuse or no loop device"
    text = f"cp -a {booted.READY} {{root}} && {booted.QUIET} chroot {{root}} apt-get -y install {MORE}"
    if why := booted.make(READY, text):
        return why
    if ctypes.CDLL(None, use_errno=True).unshare(CLONE_NEWNS | CLONE_NEWNET):
        return "no namespace can be made"
    shell("mount --make-rprivate /; ip link set lo up; ip link add line type bridge forward_delay 0; ip link set line up; "
          f"ip address add {OURS}/24 dev line")
    with tempfile.TemporaryDirectory() as room:
        try:
            make_disk(room)
        except Failed as why:
            return f"no disk with XFS can be mounted: {why}"
        shell(f"umount {room}/disk")
    return None


def shell(text):
    ran = subprocess.run(["bash", "-e", "-c", text], capture_output=True, text=True, stdin=subprocess.DEVNULL, timeout=60)
    if ran.returncode:
        raise Failed(f"{text}: {ran.stdout[-300:]} {ran.stderr[-300:]}")
    return ran.stdout


def make_disk(room):
    shell(f"truncate -s 600M {room}/image; mkfs.xfs -q -i size=512 {room}/image; mkdir {room}/disk")
    mount_disk(room)


def mount_disk(room):
    """By a loop device of its own each time: the one of before may be in use until all processes of the machine are gone."""
    shell(f"loop=$(losetup -f --show {room}/image); mount -o noatime,nouuid $loop {room}/disk; losetup -d $loop")


class Machine(Booted):
    """One of the three. Its disk has the copy and GlusterFS's own files, and its network outlives it."""

    def __init__(self, number, packages, stack):
        self.number, self.address, self.port = number, f"{LINE}.{number}", f"port{number}"
        self.disk_room = stack.enter_context(tempfile.TemporaryDirectory(prefix="pawnd-disk-"))
        make_disk(self.disk_room)
        stack.callback(subprocess.run, ["umount", "-l", f"{self.disk_room}/disk"], capture_output=True)
        shell(f"mkdir {self.disk_room}/disk/brick; cp -a {READY}/var/lib/glusterd {self.disk_room}/disk/glusterd")
        holder = subprocess.Popen(["unshare", "-n", "sleep", "infinity"], stdin=subprocess.DEVNULL)
        stack.callback(holder.wait)
        stack.callback(holder.kill)
        self.connect(holder.pid)
        disk = f"{self.disk_room}/disk"
        words = (f"--network-namespace-path=/proc/{holder.pid}/ns/net", "--bind=/dev/fuse", f"--bind={disk}/brick:/srv/brick",
                 f"--bind={disk}/glusterd:/var/lib/glusterd",
                 "--capability=CAP_NET_ADMIN,CAP_NET_RAW")
        super().__init__(packages, f"machine{number}", READY, words)

    def connect(self, holder):
        inside = f"nsenter -t {holder} -n ip"
        end = time.monotonic() + 10
        while os.readlink(f"/proc/{holder}/ns/net") == os.readlink("/proc/self/ns/net") and time.monotonic() < end:
            time.sleep(0.02)
        shell(f"ip link add {self.port} type veth peer name eth0 netns {holder}; ip link set {self.port} master line up; "
              f"{inside} address add {self.address}/24 dev eth0; {inside} link set eth0 up; {inside} link set lo up")

    def line(self, whole):
        """Its line is cut, without a sign of it at either end, or whole again."""
        shell(f"bridge link set dev {self.port} state {3 if whole else 0}")

    def lose_power(self):
        """Without a message: the line is dead, what the disk was not made to keep is gone, and all processes end."""
        self.line(False)
        disk = os.open(f"{self.disk_room}/disk", os.O_RDONLY)
        fcntl.ioctl(disk, XFS_IOC_GOINGDOWN, struct.pack("I", NO_LOG))
        os.close(disk)
        self.cut()

    def get_power(self):
        shell(f"umount {self.disk_room}/disk")
        mount_disk(self.disk_room)
        self.line(True)
        self.boot()

    def serves(self):
        """The process that serves the store here, if one does."""
        if self.nspawn.poll() is None and "LISTEN" in self.run("ss -Hltn 'sport = :8101'"):
            return self.state("pawnd@main", "MainPID")[0]
        return None


@contextlib.contextmanager
def three_machines(packages):
    """The three, as the page sets them up, with the book 7."""
    with contextlib.ExitStack() as stack:
        machines = [Machine(number, packages, stack) for number in (1, 2, 3)]
        at_once(stack.enter_context, *((machine,) for machine in machines))
        set_up(machines, os.listdir(packages)[0])
        yield machines


def at_once(do, *words):
    """The same on several machines at the same time."""
    wrong = []

    def one(*these):
        try:
            do(*these)
        except Exception as why:
            wrong.append(why)

    threads = [threading.Thread(target=one, args=these) for these in words]
    for thread in threads:
        thread.start()
    for thread in threads:
        thread.join()
    if wrong:
        raise wrong[0]


def set_up(machines, package):
    """The commands of the page, in its order."""
    first, *others = machines
    (others_prepared, *renumbered, disk, programs, volume, kept, moved, brought, served, address,
     looked) = commands(REPLICATED, "Set it up")
    expect("the disk's commands are the only ones that are not run", "mkfs.xfs" in disk, True)
    put_certbot(first)
    first_day(first, f"/root/packages/{package}")
    first.run(f"cp /root/packages/{package} /root/")
    let_in(first, *others)
    the_number_is_taken(first, others[0], others_prepared, renumbered)
    at_once(lambda it: it.run(others_prepared), *((it,) for it in others))
    numbers = {it.run("id -u pawnd-main") for it in machines}
    expect("the numbers of the store's user", len(numbers), 1)
    at_once(lambda it: it.run(programs), *((it,) for it in machines))
    first.run(volume)
    for it in machines:
        it.run(kept)
    first.run(moved)
    for it in others:
        it.run(brought)
    for it in machines:
        it.run(served)
        it.run(address.replace("me=10.0.0.1", f"me={it.address}"))
    expect_well(machines, looked)


def the_number_is_taken(first, other, prepare, renumber):
    """Another user of a machine has the number of the store's user. The page's commands say so, and what to do."""
    other.run(f"useradd --system --uid {first.run('id -u pawnd-main').strip()} taken")
    told = other.run(prepare, wanted=None)
    expect(f"what the commands say: {told[-300:]}", "is not unique" in told, True)
    for block in renumber:
        first.run(block)


def let_in(first, *others):
    first.run("mkdir -p -m 700 /root/.ssh; ssh-keygen -q -t ed25519 -N '' -f /root/.ssh/id_ed25519; systemctl start ssh; "
              "cp /root/.ssh/id_ed25519.pub /root/.ssh/authorized_keys")
    key = first.run("cat /root/.ssh/id_ed25519")
    for it in others:
        it.run(f"mkdir -p -m 700 /root/.ssh; (umask 077; cat >/root/.ssh/id_ed25519 <<'KEY'\n{key}KEY\n)\n"
               "printf 'Host *\\nStrictHostKeyChecking accept-new\\n' >/root/.ssh/config")


def put_store(machines, path):
    """Another store in the place of the one in the folder, while no machine serves it."""
    at_once(lambda it: it.run("systemctl stop pawnd-replicated@main"), *((it,) for it in machines))
    shutil.copy(path, f"{machines[0].root}/root/books.db")
    machines[0].run("mount -t glusterfs localhost:/books /mnt; rm /mnt/books.db*; cp /root/books.db /mnt/; "
                    "chown pawnd-main: /mnt/books.db; chmod 600 /mnt/books.db; sync /mnt/books.db; umount /mnt")
    at_once(lambda it: it.run("systemctl start pawnd-replicated@main"), *((it,) for it in machines))


def expect_well(machines, look="pawnd-admin status", within=60):
    """Each machine says that all is well, and one of them serves."""
    end = time.monotonic() + within
    while True:
        told = [it.run(look, wanted=None) for it in machines]
        wrong = [line for text in told for line in text.splitlines() if line.startswith("WRONG")]
        elsewhere = sum("served by another machine;" in text for text in told)
        if not wrong and elsewhere == 2:
            return
        if time.monotonic() > end:
            raise Failed(f"{wrong} {elsewhere} {told}")
        time.sleep(1)


def serving(machines):
    """The machine that serves, and the process."""
    found = [(it, pid) for it in machines if (pid := it.serves())]
    expect("no more than one serves", len(found) < 2, True)
    return found[0] if found else (None, None)


def await_serving(machines, within=60):
    """The machine that serves, which may be about to start the store anew."""
    end = time.monotonic() + within
    while not (found := serving(machines))[0]:
        if time.monotonic() > end:
            raise Failed(f"no machine serves after {within} seconds")
        time.sleep(0.3)
    return found


@contextlib.contextmanager
def coming_back(machines, load):
    """A machine comes back within the block, in every way: the machine that serves starts the store anew with all copies,
    and each copy has everything."""
    before = serving(machines)
    yield
    end = time.monotonic() + 90
    while serving(machines) in (before, (None, None)):
        if time.monotonic() > end:
            raise Failed("the store was not started anew when all copies were back")
        time.sleep(0.3)
    with load.quiet():
        await_healed(machines)


def await_healed(machines, within=150):
    end = time.monotonic() + within
    while (told := machines[0].run("gluster volume heal books info | grep entries", wanted=None)) != "Number of entries: 0\n" * 3:
        if time.monotonic() > end:
            raise Failed(f"what waits to be healed: {told}")
        time.sleep(0.5)


# ---- callers


class Till(threading.Thread):
    """A broker's till, which knows the address alone: it takes pledges and repayments, and keeps account of what was
    acknowledged. What was not answered it sends again, word for word."""

    def __init__(self, name, book, key):
        super().__init__(daemon=True)
        self.name, self.book, self.key, self.ended, self.held = name, book, key, False, False
        self.times, self.pledges, self.entries, self.sent, self.wrong = [], {}, {}, set(), []
        self.context = ssl.SSLContext(ssl.PROTOCOL_TLS_CLIENT)
        self.context.check_hostname, self.context.verify_mode = False, ssl.CERT_NONE

    def ask(self, method, path, body=None, patience=2):
        """The status and the body, or nothing."""
        connection = http.client.HTTPSConnection(ADDRESS, timeout=patience, context=self.context)
        with contextlib.closing(connection), contextlib.suppress(OSError, http.client.HTTPException):
            connection.request(method, f"/books/{self.book}{path}", body and json.dumps(body), {"Host": NAME, "Pledge-Key": self.key})
            reply = connection.getresponse()
            return reply.status, reply.read()
        return None, b""

    def insist(self, path, body):
        """Asks until it is done."""
        while not self.ended:
            status, said = self.ask("POST", path, body)
            if status == 200:
                self.times.append(time.monotonic())
                return json.loads(said)
            if status not in (None, 429, 502, 503, 504):
                self.wrong.append((status, path, body, said[:200]))
                return None
            time.sleep(0.2)
        return None

    def run(self):
        while not self.ended and not self.wrong:
            number = next(reversed(self.pledges), 0)
            if not number or self.entries[number] >= 9:
                ref = f"{self.name}-{uuid.uuid4().hex[:12]}"
                self.sent.add(ref)
                body = {"article": "Ring", "five_days": False, "kind": "fixed", "pence": 100_000, "ref": ref}
                if said := self.insist("/pledges", body):
                    self.pledges[said["number"]], self.entries[said["number"]] = (ref, said["receipt"]), 0
            else:
                seq = self.entries[number] + 1
                self.sent.add((number, seq))
                if self.insist(f"/pledges/{number}/repay", {"pence": seq, "seq": seq}):
                    self.entries[number] = seq
            time.sleep(0.05)
            while self.held and not self.ended:
                time.sleep(0.05)


class Load:
    """Tills that work until the block is left."""

    def __init__(self, book, key, count=2):
        self.tills = [Till(f"t{number}", book, key) for number in range(count)]

    def __enter__(self):
        for till in self.tills:
            till.start()
        return self

    def __exit__(self, *_):
        for till in self.tills:
            till.ended = True
        for till in self.tills:
            till.join(30)

    @contextlib.contextmanager
    def quiet(self):
        """No till asks for anything within the block, once what it asked for is done."""
        for till in self.tills:
            till.held = True
        try:
            yield
        finally:
            for till in self.tills:
                till.held = False

    def acknowledged(self):
        return sum(len(till.times) for till in self.tills)

    def await_more(self, count=10, within=60):
        """Waits until so many more changes are acknowledged to each."""
        wanted, end = [len(till.times) + count for till in self.tills], time.monotonic() + within
        while any(len(till.times) < least for till, least in zip(self.tills, wanted)):
            if time.monotonic() > end or any(till.wrong for till in self.tills):
                raise Failed(f"{[len(till.times) for till in self.tills]} of {wanted} after {within} seconds: "
                             f"{[till.wrong for till in self.tills]}")
            time.sleep(0.05)

    def longest_pause(self, since):
        """The longest time without an acknowledged change, of either till, since then."""
        times = [since, *sorted(at for till in self.tills for at in till.times if at > since)]
        return max((later - earlier for earlier, later in zip(times, times[1:])), default=0)

    def look_up(self):
        """Everything that was acknowledged is in the book's export once, and nothing that was not sent."""
        said = self.export()
        pledges, entries = {}, {}
        for line in said.splitlines():
            cells = line.split(",")
            if cells[0] == "P":
                expect(f"pledge {cells[2]} twice", cells[2] in pledges, False)
                pledges[cells[2]] = int(cells[1])
            elif cells[0] == "E":
                expect(f"entry {cells[1:3]} twice", (int(cells[1]), int(cells[2])) in entries, False)
                entries[int(cells[1]), int(cells[2])] = int(cells[5])
        secrets = {int(number): secret for number, secret in re.findall(r"^S,(\d+),.*?,([0-9a-f-]{36})", said, re.M)}
        sent = set().union(*(till.sent for till in self.tills))
        for till in self.tills:
            expect("what was refused", till.wrong, [])
            for number, (ref, receipt) in till.pledges.items():
                expect(f"pledge {ref}", pledges.get(ref), number)
                expect(f"its receipt {receipt}", secrets.get(number, "?") in receipt, True)
                for seq in range(1, till.entries[number] + 1):
                    expect(f"entry {seq} of pledge {number}", entries.get((number, seq)), seq)
        strange = [it for it in pledges if it[0] == "t" and it not in sent] + [
            it for it in entries if it not in sent and any(it[0] in till.pledges for till in self.tills)]
        expect("what was not sent", strange, [])

    def export(self):
        for _ in range(60):
            status, said = self.tills[0].ask("GET", "/export", patience=60)
            if status == 200:
                return said.decode()
            time.sleep(1)
        raise Failed(f"no export: {status} {said[:200]}")
