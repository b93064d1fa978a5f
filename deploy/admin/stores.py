"""New stores, and a file in the place of what a store had."""
import contextlib
import fcntl
import os
import socket

import replicas
import services
from begun import stop_if_another_began
from copies import forget_failed_check
from files import (
    BLOCK, LOG, copy_bytes, copy_store, files_of_store, open_plain, owner_of, replaced, room_for, room_in, sync,
    work_prefix, write_whole,
)
from locks import alone_with, alone_with_settings, copies_folder, lock_store
from proxy import is_of_another_machine, reload_nginx, run, write_stores
from reading import contents_of
from settings import FIRST_PORT, STORES, SYSTEM, Store, conf_of, name_to_make, say, store_file, store_names
from tables import check_and_fold, fold


def free_port():
    """The first port that no store has, and on which nothing listens now."""
    taken = {Store(name).port for name in store_names()}
    return next(port for port in range(FIRST_PORT, 65536) if port not in taken and not is_taken(port))


def is_taken(port):
    with socket.socket() as tried:
        tried.setsockopt(socket.SOL_SOCKET, socket.SO_REUSEADDR, 1)
        try:
            tried.bind(("127.0.0.1", port))
        except OSError:
            return True
    return False


def make_settings(name):
    """The file of a store that gives it its port, its user, and an empty folder for its copies. What is there already
    stays as it is."""
    with alone_with_settings():
        os.makedirs(os.path.dirname(conf_of(name)), exist_ok=True)
        if name not in store_names():
            write_whole(conf_of(name), f"PORT={free_port()}\n", 0o644)
    folder = os.path.join(SYSTEM, "sysusers.d")
    path = os.path.join(folder, f"pawnd-{name}.conf")
    if not os.path.exists(path) and not os.path.exists(f"/usr/lib/sysusers.d/pawnd-{name}.conf"):
        os.makedirs(folder, exist_ok=True)
        write_whole(path, f'u pawnd-{name} - "Pledge books, store {name}" {STORES}/{name}\n', 0o644)
    run("systemd-sysusers", path, fails=f"the user pawnd-{name} was not made")
    return Store(name)


@contextlib.contextmanager
def room_to_replace(name, size):
    """Room for copies of what a store has and of what it gets, and for its new files. Its folder may be a disk of its
    own."""
    folder = os.path.join(STORES, name)
    with (
        room_for(copies_folder(name), 4 * size + BLOCK, f"copying the store {name} and what it gets"),
        room_for(STORES, 4 * size + BLOCK, f"giving new files to the store {name}"),
        room_for(folder if os.path.isdir(folder) else STORES, 2 * size + BLOCK, f"a new file for the store {name}"),
    ):
        yield


def put_in_place(name, new, old_is_sound=True):
    """A database takes the place of what a store had, which is stopped, or has no files. At each moment the store is
    the old one or the new one: first the old database takes up its log, so that the log can go, and then one rename
    replaces the database. If the old one is not sound its database goes first, and for a moment there is none."""
    path = store_file(name)
    folder = os.path.dirname(path)
    os.makedirs(folder, exist_ok=True)
    os.chmod(folder, 0o700)
    if os.geteuid() == 0:
        os.chown(folder, *owner_of(name))
    with contextlib.ExitStack() as until_replaced:
        if old_is_sound and os.path.lexists(path + LOG):
            put_folded(name, until_replaced)
        for it in files_of_store(path):
            if it.endswith(LOG) or not old_is_sound:
                os.unlink(it)
        sync(STORES, folder)
        put_file(name, new)
    forget_failed_check(name)


def put_folded(name, locked):
    """The database of a store takes up what its log holds. With the log or without, it is the same store then."""
    with room_in(STORES, work_prefix(name)) as room:
        folded = os.path.join(room, "books.db")
        copy_store(store_file(name), folded)
        fold(folded)
        put_file(name, folded, locked)


def put_file(name, source, locked=None):
    """A file takes the place of a store's database, by one rename. No program opens the new one until `locked` ends."""
    with open_plain(source) as old, replaced(store_file(name), 0o600, owner_of(name)) as new:
        copy_bytes(old, new)
        if locked:
            lock_store(new, fcntl.F_WRLCK)
            locked.callback(os.close, os.dup(new.fileno()))


def enable(name):
    """The units of a store start now and at each boot. It answers when this returns."""
    run("systemctl", "daemon-reload", fails="systemd did not read its files anew")
    run("systemctl", "unmask", "--runtime", services.unit_of(name), fails=f"the store {name} was not started")
    unit = replicas.unit_of(Store(name)) if Store(name).volume else services.unit_of(name)
    run("systemctl", "enable", "--now", unit, f"pawnd-copy@{name}.timer",
        fails=f"the store {name} was not started. Run the command again when this is mended")
    services.start(Store(name))


def make_empty(name):
    """The empty store of a new folder: a service makes none."""
    with room_for(STORES, BLOCK, f"the store {name}"), room_in(STORES, work_prefix(name)) as room:
        check_and_fold(os.path.join(room, "books.db"))
        put_in_place(name, os.path.join(room, "books.db"))


def new_store(name):
    """The verb `store`. Each step leaves what is there already, so a command that was killed is run again."""
    name_to_make(name)
    with alone_with(name):
        stop_if_another_began(f"store {name}", name)
        store = make_settings(name)
        if not files_of_store(store_file(name)):
            make_empty(name)
        enable(name)
        write_stores()
        reload_nginx()
    say(f"the store {name} serves {len(contents_of(store.path).books)} books on {store.address}. Make a book there"
        + (", on the machine of the proxy" if is_of_another_machine() else "")
        + f": `pawnd-admin book BOOK --store {name} --name NAME --key-to FILE`")
