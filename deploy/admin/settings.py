"""Where everything is, and what the operator's files in /etc/pawnd say."""
import os
import re
import sys

SETTINGS = os.environ.get("SETTINGS", "/etc/pawnd")
STORES = os.environ.get("STORES", "/var/lib/pawnd")
COPIES = os.environ.get("COPIES", "/var/backups/pawnd")
OFFSITE = os.environ.get("OFFSITE", "/var/lib/pawnd-offsite")
PAWND = os.environ.get("PAWND", "/usr/bin/pawnd")
SYSTEM = os.environ.get("SYSTEM", "/etc")
PROXY = os.environ.get("PROXY", "127.0.0.1:443")
# How many seconds a command waits for another one that works on the same store.
PATIENCE = float(os.environ.get("WAIT", "600"))

MAIN = "main"
# The folder of books that were taken out has this name among the stores' copies.
REMOVED = "removed"
STORE_NAME = re.compile(r"[a-z][a-z0-9]{0,19}")
FIRST_PORT = int(os.environ.get("FIRST_PORT", "8101"))


class Stop(Exception):
    """Why a command does not go on, and what the operator does next."""


def reason(why):
    """What an error says, in a sentence of the operator's."""
    if isinstance(why, FileNotFoundError) and why.filename:
        return f"there is no {why.filename}"
    return f"{why.filename}: {why.strerror}" if isinstance(why, OSError) and why.filename else str(why)


class Interrupted(BaseException):
    """A command was told to end by a signal. No step that goes on after a Stop goes on after this."""


def say(text, stream=None):
    """A message of a command. If it can't be written, for example because the operator's terminal is gone, the command
    goes on all the same: it may have to start a store that it has stopped."""
    stream = stream or sys.stdout
    try:
        print(text, file=stream, flush=True)
    except OSError:
        # What the stream still holds, and all that follows, goes nowhere.
        os.dup2(os.open(os.devnull, os.O_WRONLY), stream.fileno())


def warn(text):
    say(f"pawnd-admin: {text}", sys.stderr)


def book_number(word):
    if not re.fullmatch(r"[1-9][0-9]{0,8}", str(word)):
        raise Stop(f"{word} is not the number of a book: it is a whole number from 1 to 999999999")
    return int(word)


def store_name(word):
    if not STORE_NAME.fullmatch(word) or word == REMOVED:
        raise Stop(
            f"{word} is not a name for a store: it has 1 to 20 small letters and digits, begins with a letter, and is "
            f"not {REMOVED}"
        )
    return word


def name_to_make(word):
    """The name of a store that a command makes here, unless it is here already."""
    if store_name(word) in store_names() and not Store(word).is_here:
        raise Stop(f"the store {word} is on another machine, at {Store(word).address}, and no second store gets its name: "
                   "choose another name. Nothing was changed")
    return word


def read_values(path):
    """The lines NAME=value of a file; none if there is no such file."""
    values = {}
    try:
        with open(path, errors="replace") as file:
            for line in file:
                name, equals, value = line.strip().partition("=")
                if equals and not name.startswith("#"):
                    values[name.strip()] = value.strip().strip("\"'")
    except FileNotFoundError:
        pass
    return values


def copies_to_keep():
    path = os.path.join(SETTINGS, "pawnd.conf")
    said = read_values(path).get("KEEP", "30")
    if not re.fullmatch(r"[1-9][0-9]{0,4}", said):
        raise Stop(f"{path}: KEEP={said} is not a number of copies: write 1 or more")
    return int(said)


def store_file(name):
    return os.path.join(STORES, name, "books.db")


def conf_of(name):
    return os.path.join(SETTINGS, "stores", name + ".conf")


class Store:
    """A store, as stores/NAME.conf describes it: on a port of this machine, or at an address of another machine."""

    def __init__(self, name):
        values = read_values(conf_of(name))
        self.name, self.path = name, store_file(name)
        self.address = values.get("ADDRESS") or f"127.0.0.1:{values.get('PORT', '')}"
        self.is_here = "ADDRESS" not in values
        # The replicated volume that has its folder, if one does.
        self.volume = values.get("VOLUME")
        if not re.fullmatch(r"[\w.-]+:[1-9][0-9]{0,4}", self.address):
            raise Stop(f"{conf_of(name)} has neither a line PORT=8102 nor a line ADDRESS=10.0.0.3:8102")

    @property
    def port(self):
        return int(self.address.rpartition(":")[2])


def store_names():
    folder = os.path.join(SETTINGS, "stores")
    names = os.listdir(folder) if os.path.isdir(folder) else []
    return sorted(name[:-5] for name in names if name.endswith(".conf") and STORE_NAME.fullmatch(name[:-5]))


def the_store(name):
    """The store of this name, which has to be one of this machine."""
    store_name(name)
    if name not in store_names():
        raise Stop(f"there is no store {name}: {conf_of(name)} is missing. There are: {' '.join(store_names())}")
    store = Store(name)
    if not store.is_here:
        raise Stop(f"the store {name} is on another machine, at {store.address}: run this command there")
    return store
