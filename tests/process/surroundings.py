"""What the machine around the program does to it: accepts that fail, standard streams that are closed or not
read, signals, limits of the shell, and paths that are no plain file of the caller's own. Each with the line that
the program says, its exit status, and all that it acknowledged."""
import errno
import fcntl
import os
import resource
import signal
import socket
import stat
import subprocess
import sys
import tempfile
import time

from tests.library import refusing
from tests.library.checks import Failed, expect, main
from tests.library.keys import OPERATOR, SEED
from tests.library.paths import PROGRAM, TOP
from tests.library.program import DAY, Server, check, fault, free_port, how_it_ends
from tests.library.requests import refusal, request
from tests.library.sessions import read_all
from tests.library.small_disks import small_disk
from tests.library.waiting import listens, wait_for

NONE = refusal(712, "NoReceipt", "400 Bad Request")
LAST = request("GET", "/books/7/held", "Connection: close")
IO = (3, "fault io\n")
# A user who is not root and owns nothing.
NOBODY = 65534


def make_books(server, pledges=2):
    """The receipts of a book's first pledges."""
    session = server.session()
    session.open_book()
    receipts = [session.open_pledge(number) for number in range(1, pledges + 1)]
    session.close()
    return receipts


def is_answered(server, step):
    with server.connect() as peer:
        peer.sendall(LAST)
        expect(step, read_all(peer), NONE)


def is_all_there(path, receipts):
    """A start under no strain serves these."""
    expect("the check", check(path), (0, f"books 1 pledges {len(receipts)} rows {2 + 2 * len(receipts)}\n", ""))
    with Server(path) as server:
        session = server.session()
        for number, receipt in enumerate(receipts, 1):
            status, text = session.bearer(receipt, "GET", "/books/7/held")
            expect(f"pledge {number}", (status, text.splitlines()[0]), (200, f"Pledge {number}"))
        session.close()


def ending(server, within=60):
    """How a service ends by itself, and what it says."""
    status = server.program.wait(timeout=within)
    return status, server.program.stderr.read().decode()


# ---- accepts


def one_accept_that_fails_costs_nothing():
    for error in (
        errno.EMFILE, errno.ENFILE, errno.ENOBUFS, errno.ENOMEM, errno.ECONNABORTED, errno.EINTR, errno.EPERM,
        errno.EPROTO,
    ):
        with Server(env=refusing.refusing("a", at=1, error=error)) as server:
            for turn in (1, 2):
                is_answered(server, f"connection {turn} after {errno.errorcode[error]}")


def accepts_that_all_fail_end_the_service():
    """Each counts as a connection, and the last of a million ends the program as if it had been answered."""
    with tempfile.TemporaryDirectory() as room:
        path = os.path.join(room, "books")
        during, counted = os.path.join(room, "during"), os.path.join(room, "counted")
        how = refusing.refusing("a", at=1, mode="on", error=errno.EMFILE, during=during, count=counted)
        with Server(path, env=how) as server:
            receipts = make_books(server)
            with open(during, "w"):
                pass
            with server.connect() as peer:
                peer.sendall(LAST)
                expect("how it ended", ending(server), (0, ""))
        with open(counted) as it:
            refused = int(it.read())
        expect("the connections that failed, all of a million but a few before", 1_000_000 - 20 < refused < 1_000_000, True)
        is_all_there(path, receipts)


def no_descriptor_is_left_for_a_connection():
    """With few descriptors it says so at the start, or ends as after its last connection; with eight it serves."""
    seen = set()
    for most in range(4, 12):
        with tempfile.TemporaryDirectory() as room:
            path = os.path.join(room, "books")
            port = free_port()
            program = subprocess.Popen(
                [PROGRAM, "serve", path, str(port), OPERATOR], stdin=subprocess.DEVNULL, stdout=subprocess.PIPE,
                stderr=subprocess.PIPE, preexec_fn=lambda: resource.setrlimit(resource.RLIMIT_NOFILE, (most, most)),
            )
            try:
                line = program.stdout.readline()
                if not line:
                    seen.add((program.wait(timeout=10), program.stderr.read().decode()))
                    continue
                with socket.create_connection(("127.0.0.1", port), timeout=30) as peer:
                    peer.sendall(LAST)
                    said = read_all(peer)
                seen.add("answered" if said == NONE else (program.wait(timeout=60), program.stderr.read().decode()))
            finally:
                program.kill()
                program.communicate()
    expect("what was seen", seen <= {fault(503, "Store"), IO, (0, ""), "answered"}, True)
    expect("eleven are enough", said, NONE)


# ---- standard streams


def with_closed(*streams):
    def close():
        for it in streams:
            os.close(it)
    return close


def standard_streams_that_are_closed():
    """None of them is taken by a file of the store, so no line is written into the books. Without a standard output
    a service does not start."""
    for streams in ((0,), (1,), (2,), (0, 1), (0, 2), (1, 2), (0, 1, 2)):
        with tempfile.TemporaryDirectory() as room:
            path = os.path.join(room, "books")
            with Server(path) as server:
                receipts = make_books(server)
            before = check(path)
            for words in (
                ("check", path), ("answer", path, DAY, SEED, OPERATOR), ("migrate", path),
                ("check", os.path.join(room, "none", "books")), ("nonsense",),
            ):
                ran = subprocess.run(
                    [PROGRAM, *words], capture_output=True, timeout=30, preexec_fn=with_closed(*streams), input=b"",
                )
                expect(f"{words[0]} without {streams}: a status", ran.returncode in (0, 1, 2, 3), True)
                expect(f"{words[0]} without {streams}: the books", check(path), before)
            port = free_port()
            program = subprocess.Popen(
                [PROGRAM, "serve", path, str(port), OPERATOR], stdout=subprocess.DEVNULL, stderr=subprocess.DEVNULL,
                preexec_fn=with_closed(*streams),
            )
            try:
                if 1 in streams:
                    expect(f"serve without {streams}: its status", program.wait(timeout=60), 3)
                else:
                    wait_for(lambda: program.poll() is not None or listens(port), f"serve without {streams}", 60)
                    expect(f"serve without {streams}: its status", program.poll(), None)
            finally:
                program.kill()
                program.wait()
            is_all_there(path, receipts)


def output_that_nobody_reads():
    """A pipe that is full holds the program up before it answers anybody; one whose reader is gone ends it; one that
    is left after the first line is no matter."""
    out, into = os.pipe()
    fcntl.fcntl(into, fcntl.F_SETPIPE_SZ, 4096)
    os.write(into, b"x" * 4096)
    port = free_port()
    program = subprocess.Popen(
        [PROGRAM, "serve", ":memory:", str(port), OPERATOR], stdin=subprocess.DEVNULL, stdout=into,
        stderr=subprocess.PIPE,
    )
    os.close(into)
    try:
        wait_for(lambda: listens(port), "a service whose first line waits", 60)
        with socket.create_connection(("127.0.0.1", port), timeout=10) as peer:
            peer.sendall(LAST)
            says_nothing(peer, "its first line waits")
            os.read(out, 8192)
            peer.settimeout(10)
            expect("once it was read", read_all(peer), NONE)
    finally:
        program.kill()
        program.communicate()
        os.close(out)
    out, into = os.pipe()
    os.close(out)
    expect("serve, without a reader", how_it_ends("serve", ":memory:", str(free_port()), OPERATOR, stdout=into), IO)
    with tempfile.TemporaryFile() as asked:
        asked.write(LAST)
        asked.seek(0)
        ended = how_it_ends("answer", ":memory:", DAY, SEED, OPERATOR, stdin=asked, stdout=into)
        expect("answer, without a reader", ended, IO)
    expect("check, without a reader", how_it_ends("check", ":memory:", stdout=into), IO)
    os.close(into)
    with Server() as server:
        server.program.stdout.close()
        server.program.stderr.close()
        is_answered(server, "whose reader left after the first line")
        server.program.stdout = server.program.stderr = None


# ---- signals


def what_tests_start_ignores_no_signal():
    """A script that ignores signals, as in the background of a shell or under nohup, starts programs that do not. Two
    signals are the C library's own: no program can set them, so what a caller made of them does not count."""
    asks = "import subprocess, tests.library.checks; subprocess.run(['grep', 'SigIgn', '/proc/self/status'])"
    ignored = (signal.SIGHUP, signal.SIGINT, signal.SIGQUIT)
    ran = subprocess.run(
        [sys.executable, "-c", asks], cwd=TOP, stdout=subprocess.PIPE,
        timeout=60, preexec_fn=lambda: [signal.signal(number, signal.SIG_IGN) for number in ignored],
    )
    expect("how it ended", ran.returncode, 0)
    told = int(ran.stdout.split()[1], 16)
    expect("what is ignored", [it for it in sorted(signal.valid_signals()) if told >> (it - 1) & 1], [])


def signals_that_end_it_lose_nothing():
    for number in (
        signal.SIGHUP, signal.SIGINT, signal.SIGQUIT, signal.SIGUSR1, signal.SIGUSR2, signal.SIGALRM, signal.SIGTERM,
        signal.SIGABRT, signal.SIGSEGV, signal.SIGXCPU,
    ):
        with tempfile.TemporaryDirectory() as room:
            path = os.path.join(room, "books")
            with Server(path, preexec_fn=lambda: resource.setrlimit(resource.RLIMIT_CORE, (0, 0))) as server:
                receipts = make_books(server)
                server.program.send_signal(number)
                expect(f"how {number.name} ends it", ending(server), (-number, ""))
            is_all_there(path, receipts)


def signals_that_it_does_not_mind():
    with Server() as server:
        for number in (signal.SIGCHLD, signal.SIGWINCH, signal.SIGURG, signal.SIGCONT):
            server.program.send_signal(number)
            is_answered(server, f"after {number.name}")


def says_nothing(peer, why):
    """Nothing comes from a peer within half a second."""
    peer.settimeout(0.5)
    try:
        raise Failed(f"it answers while {why}: {peer.recv(100)!r}")
    except TimeoutError:
        pass


def state_of(program):
    """T of a process that the system has stopped, S of one that waits."""
    with open(f"/proc/{program.pid}/stat") as it:
        return it.read().rpartition(")")[2].split()[0]


def stands_still(program):
    """Waits until the system has stopped a process."""
    wait_for(lambda: state_of(program) == "T", "a process that is stopped")


def has_taken(server, peer):
    """Whether the service has accepted a connection: until then its end there is no file, and has no inode."""
    at, own = f":{server.port:04X}", f":{peer.getsockname()[1]:04X}"
    with open("/proc/net/tcp") as it:
        ends = [line.split() for line in it.readlines()[1:]]
    return any(end[1].endswith(at) and end[2].endswith(own) and end[9] != "0" for end in ends)


def a_service_that_is_stopped_goes_on():
    """What came while it was stopped is answered when it goes on."""
    with tempfile.TemporaryDirectory() as room:
        path = os.path.join(room, "books")
        with Server(path) as server:
            receipts = make_books(server)
            server.program.send_signal(signal.SIGSTOP)
            stands_still(server.program)
            with server.connect() as first, server.connect() as second:
                first.sendall(LAST)
                second.sendall(LAST)
                says_nothing(first, "it is stopped")
                server.program.send_signal(signal.SIGCONT)
                first.settimeout(30)
                expect("the first", read_all(first), NONE)
                expect("the second", read_all(second), NONE)
        is_all_there(path, receipts)


def a_connection_that_waited_is_closed():
    """The connection that it was waiting on when it was stopped gets no reply, and what is sent there is not done."""
    for wait in (0.5, 6):
        with Server() as server:
            receipts = make_books(server)
            body = '{"pence":1,"seq":1}'
            asked = request("POST", "/books/7/held/repay", f"Pledge-Receipt: {receipts[0]}", body=body)
            with server.connect() as waiting:
                wait_for(
                    lambda: has_taken(server, waiting) and state_of(server.program) == "S", "a service that waits", 60,
                )
                server.program.send_signal(signal.SIGSTOP)
                stands_still(server.program)
                time.sleep(wait)
                waiting.sendall(asked)
                server.program.send_signal(signal.SIGCONT)
                expect("its answer", read_all(waiting), b"")
            session = server.session()
            expect("entries", session.bearer(receipts[0], "GET", "/books/7/held")[1].count("\nEntry "), 0)
            session.close()


# ---- the clock


def a_clock_that_jumps():
    """A pledge that was changed on a day to come refuses earlier days, and no other pledge does. On a day that no
    request may have no caller is answered, and nothing is lost."""
    with tempfile.TemporaryDirectory() as room:
        clock = os.path.join(room, "clock")
        with Server(os.path.join(room, "books"), env={**refusing.refusing(""), "REFUSE_CLOCK": clock}) as server:
            receipts = make_books(server)
            session = server.session()
            set_clock(clock, time.time() + 40 * 86_400)
            expect(
                "a repayment on the day ahead",
                session.bearer(receipts[0], "POST", "/books/7/held/repay", {"pence": 1, "seq": 1})[0], 200,
            )
            os.remove(clock)
            expect(
                "one on the day itself",
                session.bearer(receipts[0], "POST", "/books/7/held/repay", {"pence": 1, "seq": 2}),
                (409, {"code": 205, "name": "EarlierDay"}),
            )
            expect("its view", session.bearer(receipts[0], "GET", "/books/7/held")[0], 200)
            expect(
                "another pledge", session.bearer(receipts[1], "POST", "/books/7/held/repay", {"pence": 1, "seq": 1})[0],
                200,
            )
            session.close()
            for seconds in (-1, 0, 946_684_799, 7_258_118_400, 2 ** 40):
                set_clock(clock, seconds)
                with server.connect() as peer:
                    peer.sendall(LAST)
                    expect(f"what is answered at {seconds}", read_all(peer), b"")
            os.remove(clock)
            is_answered(server, "once the clock is right")


def set_clock(clock, seconds):
    with open(clock + "-new", "w") as it:
        it.write(str(int(seconds)))
    os.rename(clock + "-new", clock)


# ---- limits


def a_limit_on_the_length_of_files():
    """By default the system kills a program that writes past it; where that signal is ignored the write is refused,
    and reported as a fault of the store. Nothing acknowledged is lost."""
    for ignored in (False, True):
        for most in (8192, 65536, 400_000):
            with tempfile.TemporaryDirectory() as room:
                path = os.path.join(room, "books")
                with Server(path) as server:
                    receipts = make_books(server)
                ended, more = under_a_limit(path, most, ignored, len(receipts))
                may_end = ended in ((None, None), (-signal.SIGXFSZ, ""), fault(503, "Store"))
                expect(
                    f"how {most} bytes end it", may_end and (ignored, ended[0]) != (True, -signal.SIGXFSZ), True,
                )
                kept = check(path)[1].split()
                expect(
                    f"what is left after {most} bytes",
                    len(receipts + more) <= int(kept[3]) <= len(receipts + more) + 1, True,
                )
                with Server(path) as server:
                    session = server.session()
                    for receipt in receipts + more:
                        expect("what was acknowledged", session.bearer(receipt, "GET", "/books/7/held")[0], 200)
                    session.close()


def under_a_limit(path, most, ignored, count):
    """Openings over a file whose length is limited, until one is not answered: how the service ended, if it did, and
    the receipts."""
    def limit():
        resource.setrlimit(resource.RLIMIT_FSIZE, (most, most))
        signal.signal(signal.SIGXFSZ, signal.SIG_IGN if ignored else signal.SIG_DFL)
    server, receipts = Server(path, preexec_fn=limit), []
    try:
        server.__enter__()
        session = server.session()
        for number in range(count + 1, count + 60):
            status, said = session.broker(
                "POST", "/books/7/pledges",
                {"article": "x" * 80, "five_days": False, "kind": "fixed", "pence": 10000, "ref": f"A{number}"},
            )
            if status == 503:
                break
            receipts.append(said["receipt"])
        session.close()
        return (None, None), receipts
    except (Failed, OSError, http_errors()):
        return ending(server), receipts
    finally:
        server.__exit__()


def http_errors():
    import http.client
    return http.client.HTTPException


# ---- paths


def paths_that_are_no_plain_file():
    with tempfile.TemporaryDirectory() as room:
        fifo = os.path.join(room, "fifo")
        os.mkfifo(fifo)
        waiting = os.path.join(room, "waiting")
        os.mkfifo(waiting + "-wal")
        listening = os.path.join(room, "socket")
        with socket.socket(socket.AF_UNIX) as it:
            it.bind(listening)
            devices = []
            for name in ("null", "zero", "full", "tty", "random"):
                devices.append(os.path.join(room, name))
                os.symlink(os.path.join("/dev", name), devices[-1])
            for path in (
                fifo, waiting, listening, *devices, room, os.path.join(room, "x" * 256), os.path.join(room, "x" * 253),
            ):
                for words in (
                    ("check", path), ("answer", path, DAY, SEED, OPERATOR), ("serve", path, str(free_port()), OPERATOR),
                ):
                    expect(f"{words[0]} {path[-30:]}", how_it_ends(*words), fault(503, "Store"))
        expect(
            "what lies there", sorted(os.listdir(room)),
            sorted(["fifo", "full", "null", "random", "socket", "tty", "waiting", "waiting-wal", "x" * 253, "zero"]),
        )
        expect("the fifo", stat.S_ISFIFO(os.stat(fifo).st_mode), True)


def a_key_by_a_pipe():
    """It is refused, since a pipe without a writer would hold up the start for ever. A key is read from a file."""
    out, into = os.pipe()
    os.write(into, OPERATOR.encode() + b"\n")
    os.close(into)
    ran = subprocess.run(
        [PROGRAM, "answer", ":memory:", DAY, SEED, f"/dev/fd/{out}"], input=LAST, capture_output=True, timeout=30,
        pass_fds=(out,),
    )
    os.close(out)
    expect("answer", (ran.returncode, ran.stdout, ran.stderr), (1, b"", b"fault 803 BadKey\n"))


def a_file_with_a_second_name():
    """A file that has two names, each of which might get a log of its own, is opened by neither; nor is it by a
    symbolic one while it is served. Nothing is lost by it."""
    with tempfile.TemporaryDirectory() as room:
        path = os.path.join(room, "books")
        with Server(path) as server:
            receipts = make_books(server)
            for link in (os.link, os.symlink):
                link(path, os.path.join(room, link.__name__))
                expect(
                    f"check by {link.__name__}", check(os.path.join(room, link.__name__)), (1, "", "fault 503 Store\n"),
                )
            is_answered(server, "meanwhile")
        expect("check of a file with two names", check(path), (1, "", "fault 503 Store\n"))
        os.remove(os.path.join(room, "link"))
        is_all_there(path, receipts)


def folders_and_files_of_somebody_else():
    """A service that may not read or write its files says so, and makes nothing."""
    if os.geteuid():
        print("not tried: files of another user, which needs the right to become another user")
        return
    with tempfile.TemporaryDirectory() as room:
        os.chmod(room, 0o755)
        path = os.path.join(room, "books")
        with Server(path) as server:
            receipts = make_books(server)
        before = sorted(os.listdir(room))
        os.chmod(path, 0o644)
        for mode in (0o600, 0o644):
            os.chmod(path, mode)
            os.chmod(path + "-wal", mode)
            for words in (
                ("check", path), ("serve", path, str(free_port()), OPERATOR), ("check", os.path.join(room, "new")),
            ):
                ran = subprocess.run(
                    [PROGRAM, *words], stdin=subprocess.DEVNULL, capture_output=True, timeout=30, user=NOBODY,
                    group=NOBODY, extra_groups=[],
                )
                expect(f"{words[0]} of mode {mode:o}", (ran.returncode, ran.stderr.decode()), fault(503, "Store"))
        expect("what lies there", sorted(os.listdir(room)), before)
        is_all_there(path, receipts)


def a_disk_that_can_only_be_read():
    with small_disk("8m") as room:
        if room is None:
            print("not tried: a disk that can only be read, which asks for the right to mount one")
            return
        path = os.path.join(room, "books")
        with Server(path) as server:
            receipts = make_books(server)
        subprocess.run(["mount", "-o", "remount,ro", room], check=True)
        expect("check", how_it_ends("check", path), fault(503, "Store"))
        expect("serve", how_it_ends("serve", path, str(free_port()), OPERATOR), fault(503, "Store"))
        subprocess.run(["mount", "-o", "remount,rw", room], check=True)
        is_all_there(path, receipts)


if refusing.library() is None:
    print("not tried: what the machine around the program does, since no C compiler is there\n0 passed, 0 failed")
    sys.exit(0)
main(
    one_accept_that_fails_costs_nothing, accepts_that_all_fail_end_the_service, no_descriptor_is_left_for_a_connection,
    standard_streams_that_are_closed, output_that_nobody_reads, what_tests_start_ignores_no_signal,
    signals_that_end_it_lose_nothing, signals_that_it_does_not_mind, a_service_that_is_stopped_goes_on,
    a_connection_that_waited_is_closed, a_clock_that_jumps, a_limit_on_the_length_of_files,
    paths_that_are_no_plain_file, a_key_by_a_pipe, a_file_with_a_second_name, folders_and_files_of_somebody_else,
    a_disk_that_can_only_be_read,
)
