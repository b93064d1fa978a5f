"""A machine for `pawnd-admin` in a folder: its settings, stores, copies and nginx, with programs in the place of
systemctl, journalctl, nft and systemd-sysusers. And callers, who keep account of what was acknowledged to them."""
import contextlib
import fcntl
import http.client
import json
import os
import random
import shutil
import signal
import ssl
import subprocess
import sys
import tempfile
import threading
import time

from tests.library.checks import Failed, expect
from tests.library.keys import OPERATOR
from tests.library.operator.admin_systemctl import running
from tests.library.packages import PATHS
from tests.library.paths import PROGRAM, TOP
from tests.library.program import free_port
from tests.library.waiting import wait_for

PACKAGES = {"nginx": "nginx-light", "openssl": "openssl"}
ADMIN = os.path.join(TOP, "deploy/admin/pawnd-admin")
RUN = os.path.join(TOP, "tests/library/operator/admin_run.py")
NAME = "books.example.org"
NGINX = """
pid {room}/nginx.pid; worker_processes 2; worker_shutdown_timeout 60s; error_log {room}/error.log warn;
events {{ worker_connections 1024; }}
http {{
    access_log off;
    client_body_temp_path {room}/t1; proxy_temp_path {room}/t2; fastcgi_temp_path {room}/t3;
    uwsgi_temp_path {room}/t4; scgi_temp_path {room}/t5;
    map_hash_bucket_size 128;
    map $request_uri $book {{ default ""; "~^/books/(?<number>[1-9][0-9]*)" $number; }}
    map $book $store {{ include {settings}/books.map; default main; }}
    include {settings}/stores.conf;
    map $http_pledge_key $plain_key {{
        default "";
        "~*(?x)^[ \\t]*(?:urn:uuid:|\\{{)?
        ([0-9a-f]{{8}})-?([0-9a-f]{{4}})-?([0-9a-f]{{4}})-?([0-9a-f]{{4}})-?([0-9a-f]{{12}})\\}}?[ \\t]*$" $1$2$3$4$5;
    }}
    map "$book:$plain_key" $key_inside {{ include {settings}/keys.map; default $http_pledge_key; }}
    map $upstream_connect_time $handed_on {{ volatile; "" false; "-" false; default true; }}
    proxy_http_version 1.1; proxy_next_upstream off; proxy_ignore_client_abort on; proxy_connect_timeout 5s;
    server {{
        listen 127.0.0.1:{port} ssl; server_name {name};
        ssl_certificate {room}/cert.pem; ssl_certificate_key {room}/cert.key;
        client_max_body_size 1m;
        error_page 500 502 503 504 @refused;
        location / {{
            proxy_set_header Connection close; proxy_set_header Host pawnd; proxy_set_header Pledge-Key $key_inside;
            proxy_pass http://store_$store$request_uri;
        }}
        location @refused {{ default_type application/json; return 200 '{{"proxy":$status,"handed_on":$handed_on}}'; }}
    }}
}}
"""


class Machine:
    """All that the command works with, in one folder; nothing of it is left after the block."""

    def __init__(self, small=None, empty=False, **environment):
        """`small` is the size of the disks of stores and copies, if they are to be small ones. An empty machine has no
        store."""
        self.small, self.empty, self.more = small, empty, environment

    def __enter__(self):
        self.stack = contextlib.ExitStack()
        try:
            return self.begin()
        except BaseException:
            self.stack.close()
            raise

    def __exit__(self, *_):
        self.end()
        self.stack.close()

    def begin(self):
        self.room = self.stack.enter_context(tempfile.TemporaryDirectory(prefix="pawnd-admin-"))
        os.chmod(self.room, 0o755)
        self.settings, self.stores, self.copies = (self.place(name) for name in ("etc", "lib", "backups"))
        for folder in (self.settings, self.stores, self.copies, self.place("bin"), self.place("units"),
                       self.place("etc/stores"), self.place("offsite"), self.place("system")):
            os.makedirs(folder)
        for folder in (self.stores, self.copies) if self.small else ():
            subprocess.run(["mount", "-t", "tmpfs", "-o", f"size={self.small}", "none", folder], check=True)
            self.stack.callback(subprocess.run, ["umount", "-l", folder], check=True)
        for name in ("journalctl", "nft", "systemctl", "systemd-sysusers"):
            os.symlink(os.path.join(TOP, "tests/library/operator/admin_systemctl.py"), self.place("bin", name))
        self.write("bin/nginx", f'#!/bin/sh\nexec /usr/sbin/nginx -c {self.room}/nginx.conf -e {self.room}/error.log '
                   '"$@"\n', 0o755)
        self.port = free_port()
        self.environment = {
            **os.environ, "PATH": f"{self.place('bin')}:{PATHS}", "PAWND": PROGRAM, "SETTINGS": self.settings,
            "STORES": self.stores, "COPIES": self.copies, "OFFSITE": self.place("offsite"), "MACHINE": self.room,
            "SYSTEM": self.place("system"), "PROXY": f"127.0.0.1:{self.port}", "NGINX_PID": self.place("nginx.pid"),
            "WAIT": "600", "FIRST_PORT": str(random.randrange(10_000, 30_000)), **self.more,
        }
        self.write("etc/operator.key", OPERATOR + "\n", 0o600)
        self.write("etc/name.conf", f"server_name {NAME};\n")
        for name, mode in (("books.map", 0o644), ("keys.map", 0o600), ("stores.conf", 0o644)):
            self.write("etc/" + name, "", mode)
        self.write("nginx.conf", NGINX.format(room=self.room, settings=self.settings, port=self.port, name=NAME))
        self.make_certificate()
        if not self.empty:
            self.store("main")
            self.start_nginx()
        return self

    def place(self, *names):
        return os.path.join(self.room, *names)

    def write(self, name, text, mode=0o644):
        with open(self.place(name), "w") as file:
            file.write(text)
        os.chmod(self.place(name), mode)

    def make_certificate(self, days=90):
        subprocess.run(
            ["openssl", "req", "-x509", "-newkey", "ec", "-pkeyopt", "ec_paramgen_curve:prime256v1", "-nodes", "-days",
             str(days), "-subj", f"/CN={NAME}", "-keyout", self.place("cert.key"), "-out", self.place("cert.pem")],
            check=True, capture_output=True, timeout=60,
        )

    def start_nginx(self):
        subprocess.run(["nginx"], env=self.environment, check=True, timeout=30, capture_output=True)

    def stop_nginx(self):
        subprocess.run(["nginx", "-s", "stop"], env=self.environment, check=True, timeout=30, capture_output=True)
        wait_for(lambda: not os.path.exists(self.place("nginx.pid")), "the end of nginx", 30)

    def end(self):
        for name in os.listdir(self.place("units")):
            if name.startswith("pid-") and (pid := running(self.place("units", name))):
                with contextlib.suppress(ProcessLookupError):
                    os.kill(pid, signal.SIGKILL)
        with contextlib.suppress(OSError, ValueError), open(self.place("nginx.pid")) as file:
            os.kill(int(file.read()), signal.SIGTERM)

    def admin(self, *words, wanted=0, within=900, **environment):
        """What `pawnd-admin` prints, or what it complains of where it is to end with another status than 0."""
        ran = subprocess.run(
            [ADMIN, *map(str, words)], env={**self.environment, **environment}, capture_output=True, text=True,
            timeout=within, stdin=subprocess.DEVNULL,
        )
        if ran.returncode != wanted:
            raise Failed(f"pawnd-admin {' '.join(map(str, words))} ended with {ran.returncode}: {ran.stdout[-300:]} "
                         f"{ran.stderr[-900:]}")
        return ran.stdout + ran.stderr

    def admin_with(self, *words, wanted=0, within=900, **environment):
        """The same with something done to the command: admin_run.py says what."""
        ran = subprocess.run(
            [sys.executable, RUN, *map(str, words)], env={**self.environment, **environment}, capture_output=True,
            text=True, timeout=within, stdin=subprocess.DEVNULL,
        )
        if ran.returncode != wanted:
            raise Failed(f"{environment}: {' '.join(map(str, words))} ended with {ran.returncode}: {ran.stdout[-300:]} "
                         f"{ran.stderr[-900:]}")
        return ran.stdout + ran.stderr

    def steps(self):
        """The steps of the command that ran last with KILL_AT=0."""
        with open(self.place("steps")) as file:
            return file.read().splitlines()

    def lines(self):
        """The map: the store of each book that has a line."""
        with open(self.place("etc/books.map")) as file:
            return {int(line.split()[0]): line.split()[1].rstrip(";") for line in file}

    def status(self):
        """What `status` says, as the JSON that it prints."""
        ran = subprocess.run([ADMIN, "status", "--json"], env=self.environment, capture_output=True, text=True,
                             timeout=60, stdin=subprocess.DEVNULL)
        if ran.returncode not in (0, 1) or not ran.stdout:
            raise Failed(f"status ended with {ran.returncode}: {ran.stderr[-900:]}")
        told = json.loads(ran.stdout)
        expect("the end of status", ran.returncode, 1 if told["wrong"] else 0)
        return told

    def store(self, name):
        self.admin("store", name)

    def book(self, number, store="main", pledges=0):
        """A book with terms and some pledges, and its key."""
        self.admin("book", number, "--name", f"Book {number}", "--store", store, "--key-to", self.place("key"))
        with open(self.place("key")) as file:
            caller = Caller(self, number, file.read().strip())
        caller.ask("POST", "/terms", {"keep_after": 0, "keep_before": 0, "rate": 0, "version": 1})
        for _ in range(pledges):
            caller.open_pledge()
        return caller

    def systemctl(self, *words):
        subprocess.run(["systemctl", *words], env=self.environment, check=True, timeout=60)

    def await_store(self, name):
        """Waits until a store answers past the proxy."""
        with open(self.place("etc/stores", name + ".conf")) as file:
            port = int(file.read().partition("PORT=")[2])

        def answers():
            with contextlib.suppress(OSError, http.client.HTTPException):
                connection = http.client.HTTPConnection("127.0.0.1", port, timeout=5)
                connection.request("GET", "/books/1/held", headers={"Connection": "close"})
                return connection.getresponse().read()

        wait_for(answers, f"the store {name}", 300)

    @contextlib.contextmanager
    def own_disk(self, name):
        """The folder of a store is a disk of its own within the block."""
        folder = os.path.join(self.stores, name)
        self.systemctl("stop", f"pawnd@{name}")
        shutil.copytree(folder, self.place("moved"))
        subprocess.run(["mount", "-t", "tmpfs", "-o", "size=32m", "none", folder], check=True)
        try:
            shutil.copytree(self.place("moved"), folder, dirs_exist_ok=True)
            self.systemctl("start", f"pawnd@{name}")
            self.await_store(name)
            yield
            self.systemctl("stop", f"pawnd@{name}")
        finally:
            subprocess.run(["umount", "-l", folder], check=True)

    @contextlib.contextmanager
    def filled(self, folder, left=60_000):
        """The disk of this folder is full within the block, but for so many bytes."""
        path = os.path.join(folder, "filler")
        disk = os.statvfs(folder)
        with open(path, "w") as file:
            os.posix_fallocate(file.fileno(), 0, disk.f_bavail * disk.f_frsize - left)
        try:
            yield
        finally:
            os.unlink(path)

    @contextlib.contextmanager
    def held_up(self, store):
        """Within the block it is as if another command worked on this store."""
        handle = os.open(os.path.join(self.copies, store), os.O_RDONLY | os.O_DIRECTORY)
        try:
            fcntl.flock(handle, fcntl.LOCK_EX)
            yield
        finally:
            os.close(handle)

    def path(self, store):
        return os.path.join(self.stores, store, "books.db")

    def newest(self, store):
        names = [name for name in os.listdir(os.path.join(self.copies, store)) if name[0] == "2"]
        return os.path.join(self.copies, store, max(names))

    def leftovers(self):
        """Files and folders that no verb leaves when it has ended."""
        found = []
        for folder in (self.settings, self.stores, *(it.path for it in os.scandir(self.copies))):
            found += [os.path.join(folder, it) for it in os.listdir(folder) if it.startswith(".")]
        for store in os.scandir(self.stores):
            if store.is_dir():
                found += [it.path for it in os.scandir(store) if it.name not in ("books.db", "books.db-wal")]
        return found


def context():
    made = ssl.SSLContext(ssl.PROTOCOL_TLS_CLIENT)
    made.check_hostname, made.verify_mode = False, ssl.CERT_NONE
    return made


class Caller:
    """A broker's till, through the proxy."""

    def __init__(self, machine, book, key):
        self.machine, self.book, self.key, self.context = machine, book, key, context()
        self.acknowledged, self.sent = {}, {}

    def request(self, method, path, body=None, key=None):
        """The status and what the reply says."""
        connection = http.client.HTTPSConnection("127.0.0.1", self.machine.port, timeout=100, context=self.context)
        with contextlib.closing(connection):
            connection.request(method, f"/books/{self.book}{path}", None if body is None else json.dumps(body),
                               {"Host": NAME, "Pledge-Key": key or self.key})
            reply = connection.getresponse()
            said = reply.read().decode()
        return reply.status, json.loads(said) if said.startswith("{") else said

    def ask(self, method, path, body=None):
        status, said = self.request(method, path, body)
        expect(f"{method} {path} of book {self.book}: {said}", status, 200)
        return said

    def open_pledge(self):
        number = len(self.acknowledged) + 1
        body = {"article": "Gold ring", "five_days": False, "kind": "fixed", "pence": 1_000_000, "ref": f"A{number}"}
        expect("the pledge's number", self.ask("POST", "/pledges", body)["number"], number)
        self.acknowledged[number] = self.sent[number] = 0

    def repay(self, number=1):
        """One penny more; whether it was acknowledged."""
        seq = self.sent[number] = self.acknowledged[number] + 1
        try:
            status, said = self.request("POST", f"/pledges/{number}/repay", {"pence": 1, "seq": seq})
        except (OSError, http.client.HTTPException):
            return False
        if status == 200:
            self.acknowledged[number] = seq
        elif not (status in (502, 503, 504) or isinstance(said, dict) and "proxy" in said):
            raise Failed(f"a repayment of book {self.book} was refused: {status} {said}")
        return status == 200

    def entries(self, number=1):
        return self.ask("GET", f"/pledges/{number}").count("\nEntry ")

    def look_up(self):
        """Everything that was acknowledged is there, and nothing that was not sent."""
        for number, least in self.acknowledged.items():
            found = self.entries(number)
            most = self.sent[number]
            expect(f"book {self.book}, pledge {number}: {found} entries, {least} acknowledged, {most} sent",
                   least <= found <= most, True)
            self.acknowledged[number] = found

    def export(self):
        return self.ask("GET", "/export")


@contextlib.contextmanager
def load(*callers):
    """Repayments at all of these books, one after the other of each, until the block is left."""
    ended, wrong = threading.Event(), []

    def run(caller):
        try:
            while not ended.is_set():
                for number in caller.acknowledged:
                    if not caller.repay(number):
                        time.sleep(0.02)
        except Exception as why:
            wrong.append(f"{type(why).__name__}: {why}")

    threads = [threading.Thread(target=run, args=(caller,), daemon=True) for caller in callers]
    for thread in threads:
        thread.start()
    try:
        yield
    finally:
        ended.set()
        for thread in threads:
            thread.join(100)
    expect("what went wrong with the callers", wrong[:3], [])


def await_load(*callers, more=3):
    """Waits until each of these callers has had so many more acknowledged."""
    before = [sum(caller.acknowledged.values()) for caller in callers]
    wait_for(
        lambda: all(sum(it.acknowledged.values()) >= was + more for it, was in zip(callers, before)),
        "acknowledgements", 100,
    )
