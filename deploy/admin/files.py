"""Files: copying, writing a whole file, rooms for what is being made, and full disks."""
import contextlib
import errno
import fcntl
import json
import os
import pwd
import shutil
import stat
import tempfile
import time

from settings import Stop

LOG = "-wal"
# How the names begin of copies that are being made.
PART = ".part-"
BLOCK = 1 << 20
# The order to the file system to let two files share their bytes: FICLONE of linux/fs.h.
SHARE_BYTES = 0x40049409


# ---- space


def disk_full(folder, wanted, purpose):
    free = free_bytes(folder)
    return Stop(
        f"the disk of {folder} is full: {purpose} takes {wanted:,} bytes, {free:,} are free, and "
        f"{max(wanted - free, 0):,} bytes are missing. Make room there, then run the command again"
    )


def free_bytes(folder):
    """How much root may still write."""
    disk = os.statvfs(folder)
    return disk.f_frsize * (disk.f_bfree if os.geteuid() == 0 else disk.f_bavail)


@contextlib.contextmanager
def room_for(folder, wanted, purpose):
    """Refuses before anything is written where the disk has too little space, and names the disk when it fills up
    within the block all the same."""
    if free_bytes(folder) < wanted:
        raise disk_full(folder, wanted, purpose)
    try:
        yield
    except OSError as why:
        # Within the block files of other disks are written, too: such a disk is named by a block of its own.
        if why.errno not in (errno.ENOSPC, errno.EDQUOT) or free_bytes(folder) >= wanted:
            raise
        raise disk_full(folder, wanted, purpose) from why
    except Exception as why:
        # SQLite and the program report a full disk in words of their own.
        if free_bytes(folder) < min(wanted, BLOCK):
            raise disk_full(folder, wanted, purpose) from why
        raise


def size_of_store(path):
    return sum(os.lstat(part).st_size for part in files_of_store(path))


# ---- copying


def is_plain(path):
    return os.path.isfile(path) and not os.path.islink(path)


def open_plain(path):
    """A plain file, and not what a link of that name leads to: the folder of a store belongs to the store's user."""
    file = open(path, "rb", opener=lambda name, flags: os.open(name, flags | os.O_NOFOLLOW | os.O_NONBLOCK))
    if not stat.S_ISREG(os.fstat(file.fileno()).st_mode):
        file.close()
        raise Stop(f"{path} is not a plain file")
    return file


def copy_bytes(old, new):
    """An empty file gets the bytes of another one, and shares them where the file system can do so."""
    try:
        fcntl.ioctl(new, SHARE_BYTES, old.fileno())
    except OSError:
        shutil.copyfileobj(old, new, BLOCK)


def copy_file(source, target):
    with open_plain(source) as old, open(target, "xb") as new:
        copy_bytes(old, new)


def files_of_store(path):
    """The database and its log, as far as they exist."""
    return [path + end for end in ("", LOG) if os.path.lexists(path + end)]


def copy_store(source, target):
    for path in files_of_store(source):
        copy_file(path, target + path.removeprefix(source))


def sync(*paths):
    for path in paths:
        handle = os.open(path, os.O_RDONLY)
        try:
            os.fsync(handle)
        finally:
            os.close(handle)


def sync_folder(folder):
    """Everything in a folder, and the folder."""
    sync(*(os.path.join(folder, name) for name in os.listdir(folder)), folder)


# ---- whole files


@contextlib.contextmanager
def replaced(path, mode, owner=None):
    """A file to be written in the block, which then takes the place of this one. The rename is the only step that others
    see. What a run left beside it that was killed meanwhile is removed."""
    folder, name = os.path.split(path)
    for left in os.listdir(folder):
        if left.startswith(f".{name}.new-"):
            os.unlink(os.path.join(folder, left))
    handle, new = tempfile.mkstemp(prefix=f".{name}.new-", dir=folder)
    try:
        with open(handle, "w+b") as file:
            yield file
            file.flush()
            os.fchmod(file.fileno(), mode)
            if owner and os.geteuid() == 0:
                os.fchown(file.fileno(), *owner)
            os.fsync(file.fileno())
        os.rename(new, path)
    except BaseException:
        with contextlib.suppress(FileNotFoundError):
            os.unlink(new)
        raise
    sync(folder)


def replace_whole(path, text, mode):
    with room_for(os.path.dirname(path), len(text.encode()), path), replaced(path, mode) as file:
        file.write(text.encode())


def write_whole(path, text, mode):
    """The same. A file that has the text already stays, and its time with it."""
    with contextlib.suppress(FileNotFoundError), open(path) as file:
        if file.read() == text and os.fstat(file.fileno()).st_mode & 0o777 == mode:
            return
    replace_whole(path, text, mode)


def write_note(path, note):
    write_whole(path, json.dumps(note, indent=1) + "\n", 0o600)


def read_note(path):
    with open(path) as file:
        return json.load(file)


# ---- folders


def owner_of(name):
    """The user of a store, or whoever runs this where the machine has no such user."""
    with contextlib.suppress(KeyError):
        user = pwd.getpwnam("pawnd-" + name)
        return user.pw_uid, user.pw_gid
    return os.geteuid(), os.getegid()


def work_prefix(name):
    """How the names of folders begin that hold what is being made for a store."""
    return f".{name}-making-"


def sweep(folder, prefix):
    """Removes what an earlier command left behind when it was killed. The caller holds the lock of the store."""
    for name in os.listdir(folder) if os.path.isdir(folder) else ():
        if name.startswith(prefix):
            shutil.rmtree(os.path.join(folder, name), ignore_errors=True)


@contextlib.contextmanager
def room_in(folder, prefix):
    """A folder of root's for files that are being made, which is gone after the block if it still has its name."""
    room = tempfile.mkdtemp(prefix=prefix, dir=folder)
    try:
        yield room
    finally:
        shutil.rmtree(room, ignore_errors=True)


def time_name(*beginnings):
    """The time, of the form that copies have, as the end of a new path. No path of these beginnings has it yet."""
    while True:
        name = time.strftime("%Y%m%dT%H%M%SZ", time.gmtime())
        if not any(os.path.lexists(beginning + name) for beginning in beginnings):
            return name
        time.sleep(0.1)
