"""One command at a time for each store, and one at a time for the files in /etc/pawnd."""
import contextlib
import fcntl
import os
import struct
import time

from files import PART, is_plain, sweep, work_prefix
from settings import COPIES, PATIENCE, SETTINGS, STORES, Stop, warn

# The bytes of a database that SQLite locks, and the program with it: the first, and how many.
LOCK_BYTES = 0x40000000, 512
HELD = set()


def take_lock(handle, what):
    """Waits for a lock, says that it waits, and gives up after PATIENCE seconds."""
    told, end = False, time.monotonic() + PATIENCE
    while True:
        try:
            return fcntl.flock(handle, fcntl.LOCK_EX | fcntl.LOCK_NB)
        except BlockingIOError:
            if time.monotonic() > end:
                raise Stop(
                    f"another pawnd-admin still works on {what} after {PATIENCE:.0f} seconds, so nothing was done. "
                    "`ps aux | grep pawnd-admin` shows it. Run this command again when it has ended"
                ) from None
            if not told:
                warn(f"another pawnd-admin works on {what}: waiting for it, at most {PATIENCE:.0f} seconds")
                told = True
            time.sleep(0.05)


@contextlib.contextmanager
def alone(folder, what):
    """No other command has this lock within the block. The folder itself is locked: it is root's, so that the user of
    a store cannot hold up the operator, and a lock leaves no file behind."""
    folder = os.path.realpath(folder)
    if folder in HELD:
        yield
        return
    handle = os.open(folder, os.O_RDONLY | os.O_DIRECTORY)
    try:
        take_lock(handle, what)
        HELD.add(folder)
        yield
    finally:
        HELD.discard(folder)
        os.close(handle)


def copies_folder(name):
    """The folder of a store's copies, which is made if it is not there."""
    folder = os.path.join(COPIES, name)
    os.makedirs(folder, 0o700, exist_ok=True)
    return folder


@contextlib.contextmanager
def alone_with(*names):
    """No other command works on these stores within the block. Locks are taken in the order of the names, so that two
    commands never wait for each other. What a command left that was killed while it made files for them is removed."""
    with contextlib.ExitStack() as stack:
        for name in sorted(set(names)):
            stack.enter_context(alone(copies_folder(name), f"the store {name}"))
            sweep(STORES, work_prefix(name))
            sweep(copies_folder(name), PART)
        yield


@contextlib.contextmanager
def alone_if_free(name):
    """Whether no other command works on the store; then none does within the block."""
    folder = os.path.join(COPIES, name)
    if os.path.realpath(folder) in HELD or not os.path.isdir(folder):
        yield True
        return
    handle = os.open(folder, os.O_RDONLY | os.O_DIRECTORY)
    try:
        fcntl.flock(handle, fcntl.LOCK_EX | fcntl.LOCK_NB)
    except BlockingIOError:
        yield False
    else:
        yield True
    finally:
        os.close(handle)


def alone_with_settings():
    """No other command changes the files in /etc/pawnd within the block, which is short."""
    return alone(SETTINGS, SETTINGS)


def lock_store(file, kind, order=fcntl.F_OFD_SETLK):
    """Asks for the lock that each program takes on a store, or about it."""
    return fcntl.fcntl(file, order, struct.pack("hhqqi4x", kind, os.SEEK_SET, *LOCK_BYTES, 0))


def is_open(path):
    """Whether a program has the store open, on this machine or on another one."""
    with open(path, "rb") as file:
        return struct.unpack_from("h", lock_store(file, fcntl.F_RDLCK, fcntl.F_OFD_GETLK))[0] != fcntl.F_UNLCK


@contextlib.contextmanager
def held(path):
    """No program opens the store within the block. Without a plain file there is no store to open."""
    if not is_plain(path):
        yield
        return
    with open(path, "r+b") as file:
        try:
            lock_store(file, fcntl.F_WRLCK)
        except BlockingIOError:
            raise Stop(f"{path} was opened by another program meanwhile. Run the command again") from None
        yield
