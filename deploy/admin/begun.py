"""What commands have begun and not ended: files in /etc/pawnd/pending. A command that was killed goes on by its file
when it is run again, and the status says that this has to be done."""
import contextlib
import os

from files import read_note
from settings import SETTINGS, Interrupted, Stop, reason

FOLDER = os.path.join(SETTINGS, "pending")


def begun_folder():
    os.makedirs(FOLDER, 0o700, exist_ok=True)
    return FOLDER


def begun_file(name):
    """Where a command writes down that it has begun, until it has ended."""
    return os.path.join(begun_folder(), name + ".json")


def begun_notes():
    """Of each command that has begun: the name of its file, and what it wrote down."""
    for it in sorted(os.listdir(FOLDER)) if os.path.isdir(FOLDER) else ():
        with contextlib.suppress(OSError, ValueError):
            if it.endswith(".json"):
                yield it.removesuffix(".json"), read_note(os.path.join(FOLDER, it))


def begun_with(store):
    """The command that works on this store, or makes it, and has not ended."""
    return next((it["command"] for _, it in begun_notes() if store in it.get("stores", ())), None)


def stop_if_another_began(command, *stores, name=None):
    """No command makes a store, or begins to move or make books in one, where another command has begun to move some in
    it: that one could not end any more. Nor does one begin that would write down under this name what it does."""
    for known, note in begun_notes():
        begun = note.get("command", known)
        if begun != command and not begun.startswith("book ") and (known == name or {*stores} & {*note.get("stores", ())}):
            raise Stop("another command has begun and not ended. If it is not at work any more, first run it again: `pawnd-admin "
                       f"{begun}`")


@contextlib.contextmanager
def ended_by_itself_alone(path, command):
    """Where a command stops within the block after it has begun, its message says that it has to be run again. At the
    end of the block it has ended."""
    try:
        yield
    except (Stop, OSError, Interrupted) as why:
        if not os.path.exists(path):
            raise
        raise Stop(
            f"{reason(why)}. The command has begun, and nothing else ends it: when this is mended, run it again, `pawnd-admin "
            f"{command}`"
        ) from why
    with contextlib.suppress(FileNotFoundError):
        os.unlink(path)
