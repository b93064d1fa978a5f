"""The proxy's files that the command writes: which store has a book (books.map), where the stores are (stores.conf),
and which keys are exchanged (keys.map). nginx takes them up with a reload."""
import contextlib
import os
import re
import subprocess
import time
import uuid

from files import write_whole
from locks import alone_with_settings
from reading import contents_of
from settings import MAIN, SETTINGS, SYSTEM, Stop, Store, store_names, warn

BOOKS_MAP = os.path.join(SETTINGS, "books.map")
KEYS_MAP = os.path.join(SETTINGS, "keys.map")
STORES_CONF = os.path.join(SETTINGS, "stores.conf")
TAKEN_UP = BOOKS_MAP, KEYS_MAP, STORES_CONF
NGINX_PID = os.environ.get("NGINX_PID", "/run/nginx.pid")
# worker_shutdown_timeout of the proxy is 60 s: no worker of before a reload lives longer.
RELOAD_PATIENCE = 70
MAP_LINE = re.compile(r"\s*(?:([1-9][0-9]{0,8})\s+([a-z][a-z0-9]{0,19})\s*;\s*)?(?:#.*)?")


# ---- which store has a book


def map_lines():
    with open(BOOKS_MAP, errors="replace") as file:
        return file.read().splitlines()


def book_lines():
    """The store of each book that has a line."""
    found = {}
    for number, line in enumerate(map_lines(), 1):
        parts = MAP_LINE.fullmatch(line)
        if not parts:
            raise Stop(f"{BOOKS_MAP}, line {number}: {line!r} is not of the form `7 east;`")
        if parts[1]:
            if int(parts[1]) in found:
                raise Stop(f"{BOOKS_MAP}, line {number}: book {parts[1]} has a line already. Remove one of the two")
            found[int(parts[1])] = parts[2]
    return found


def is_of_another_machine():
    """Whether the stores here are reached by the proxy of another machine, which has the lines of their books: such a
    machine has no store `main`, and its nginx is a relay."""
    return MAIN not in store_names() and not os.path.lexists(os.path.join(SYSTEM, "nginx/sites-enabled/pawnd"))


def stop_if_of_another_machine(verb):
    if is_of_another_machine():
        raise Stop(f"there is no store main here, so callers come by the proxy of another machine: run `pawnd-admin {verb}` "
                   "there, on the machine of the proxy. Nothing was changed")


def store_of(book, being_made=None):
    """The store that answers for a book. Behind a relay a book without a line is in the store that the relay names: the
    one that has it, apart from one that is being made and gets the line in the end."""
    line = book_lines().get(book)
    if line or not is_of_another_machine():
        return line or MAIN
    stores = [Store(name) for name in store_names() if name != being_made]
    there = [it.name for it in stores if it.is_here and os.path.exists(it.path) and book in contents_of(it.path).books]
    if len(there) > 1:
        raise Stop(f"book {book} is in the stores {' and '.join(there)}, and has no line: write `{book} STORE;` into "
                   f"{BOOKS_MAP}, with the one that answers, then `pawnd-admin reload`")
    return (there or store_names() or [MAIN])[0]


def store_without_line(name):
    """The store that answers for a book of this store without a line."""
    return name if is_of_another_machine() else MAIN


def turn(books, name):
    """The map says from now on that this store has these books. The caller reloads nginx."""
    with alone_with_settings():
        book_lines()
        kept = [line for line in map_lines() if int(MAP_LINE.fullmatch(line)[1] or 0) not in books]
        new = [] if name is None or name == MAIN else [f"{book} {name};" for book in sorted(books)]
        write_whole(BOOKS_MAP, "".join(line + "\n" for line in kept + new), 0o644)


# ---- where the stores are


def write_stores():
    """stores.conf, made anew from stores/*.conf."""
    with alone_with_settings():
        lines = ["# Made by `pawnd-admin reload` from stores/*.conf. Changes belong there.\n"]
        for name in store_names():
            server = f"server {Store(name).address} max_conns=100 max_fails=0;"
            lines.append(f"upstream store_{name} {{ zone store_{name} 64k; {server} }}\n")
        write_whole(STORES_CONF, "".join(lines), 0o644)


# ---- which keys are exchanged

EXCHANGE = re.compile(r"# book ([1-9][0-9]{0,8}): key ([0-9a-f-]{36}) outside is ([0-9a-f-]{36}) inside")


def exchanges():
    """Of each book with a leaked key: the key that its broker has, and the book's own."""
    found = {}
    with contextlib.suppress(FileNotFoundError), open(KEYS_MAP, errors="replace") as file:
        for line in file:
            parts = EXCHANGE.match(line)
            if parts:
                found[int(parts[1])] = parts[2], parts[3]
    return found


def write_exchanges(wanted):
    """keys.map. The comment before a book's lines is what this command reads; the lines are what nginx reads. A leaked
    key becomes one that nobody has, so that the program answers it as it answers any wrong key."""
    lines = ["# Made by `pawnd-admin new-key`. It holds keys: root alone may read it.\n"]
    for book, (outside, inside) in sorted(wanted.items()):
        lines += [
            f"# book {book}: key {outside} outside is {inside} inside\n",
            f'"{book}:" none;\n',
            f'"{book}:{uuid.UUID(inside).hex}" "{uuid.uuid4()}";\n',
            f'"{book}:{uuid.UUID(outside).hex}" "{inside}";\n',
        ]
    write_whole(KEYS_MAP, "".join(lines), 0o600)


# ---- nginx


def nginx_master():
    try:
        with open(NGINX_PID) as file:
            pid = int(file.read())
        os.kill(pid, 0)
        return pid
    except (OSError, ValueError):
        return None


def changed_at(path):
    """When a file got what it holds now. One that came from another machine may have kept its older time."""
    try:
        found = os.stat(path)
    except FileNotFoundError:
        return 0
    return max(found.st_mtime, found.st_ctime)


def workers(master):
    with contextlib.suppress(OSError), open(f"/proc/{master}/task/{master}/children") as file:
        return set(map(int, file.read().split()))
    return set()


def run(*words, fails):
    ran = subprocess.run(words, stdin=subprocess.DEVNULL, capture_output=True, text=True)
    if ran.returncode:
        raise Stop(f"{fails}: `{' '.join(words)}` says: {(ran.stderr or ran.stdout).strip()}")


def reload_nginx():
    """nginx takes up its files. When this returns no request is under way by the old ones."""
    run("nginx", "-t", "-q", fails="nginx refuses its files, so it goes on by the old ones. Mend them, then run "
        "`pawnd-admin reload`")
    master = nginx_master()
    if master is None:
        warn("nginx does not run here. It reads its files when it is started: `systemctl start nginx`")
        return
    before = workers(master)
    for path in TAKEN_UP:
        # A clock that was ahead has dated it in the future: until then it would count as changed since.
        if changed_at(path) > time.time():
            os.utime(path)
    run("systemctl", "reload", "nginx", fails="nginx was not reloaded, so it goes on by the old files. Run "
        "`pawnd-admin reload` when this is mended")
    await_new_workers(master, before)


def await_new_workers(master, before):
    end = time.monotonic() + RELOAD_PATIENCE
    while not workers(master) - before or workers(master) & before:
        if time.monotonic() > end:
            raise Stop(
                f"nginx still works by its old files after {RELOAD_PATIENCE} seconds. Look at "
                "/var/log/nginx/error.log, then run `pawnd-admin reload`"
            )
        time.sleep(0.02)


def reload():
    """The verb `reload`: nginx takes up stores.conf, books.map and keys.map."""
    book_lines()
    write_stores()
    reload_nginx()
