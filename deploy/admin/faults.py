"""What is wrong beside the stores themselves: books and lines that do not fit, full disks, and what commands left that
did not end."""
import contextlib
import os

import copies
import proxy
import replicas
import services
from begun import begun_file, begun_notes, begun_with
from files import free_bytes, size_of_store
from locks import alone_if_free
from settings import COPIES, MAIN, SETTINGS, STORES, Stop, Store, conf_of, store_file, store_names

# A disk is too small with less than this part of it, or with less than what is wanted for a copy.
SMALL_PART, SMALL_DISK = 0.05, 1 << 30


def faults_of_books(lines, found):
    """Books without a line, lines without a book, and books that are in two stores. `found` has the books of each
    store that could be read."""
    wrong, notes, known = [], [], store_names()
    if MAIN not in known and not proxy.is_of_another_machine():
        wrong.append(f"there is no store {MAIN}, to which the proxy passes each book without a line: put the file "
                     f"{conf_of(MAIN)} back, then `pawnd-admin reload`")
    for book, name in sorted(lines.items()):
        if name not in known:
            wrong.append(f"book {book} has a line for the store {name}, and there is no such store: if the store is on "
                         f"another machine, `echo ADDRESS=10.0.0.3:8103 >{conf_of(name)}` with its address, then "
                         f"`pawnd-admin reload`. If it was here, `pawnd-admin restore {name} newest` puts it back. Else mend "
                         f"{proxy.BOOKS_MAP}")
        elif found.get(name) is not None and book not in found[name] and not begun_with(name):
            wrong.append(f"book {book} has a line for the store {name}, and is not there: {missing_book(book, name, found)}")
    for name, books in sorted(found.items()):
        for book in sorted(books or ()):
            place = lines.get(book, proxy.store_without_line(name))
            if place == name:
                continue
            if book not in lines and not begun_with(name):
                wrong.append(f"book {book} is in the store {name} and has no line, so nobody reaches it there: if it "
                             f"belongs there, write the line `{book} {name};` into {proxy.BOOKS_MAP}, then "
                             "`pawnd-admin reload`"
                             + (". The store main has such a book too: see first which of the two is the newer"
                                if book in (found.get(MAIN) or ()) else ""))
            elif book in lines and found.get(place) is not None and book in found[place]:
                notes.append(f"book {book} is in two stores: {place} answers, and nobody reaches the rows in {name}")
    return wrong, notes


def missing_book(book, name, found):
    """What to do about a line without a book."""
    others = [it for it, books in found.items() if books and book in books]
    has_rows = (f"{' and '.join(others)} has rows of it. If the line were removed, rows in main would answer, however old "
                "they are. " if others else "")
    return has_rows + (copies.how_to_put_back(book, name) or "no copy on this machine has it"
                       + ("" if others else ". If it was never made, remove its line"))


def removed_books_that_are_back(found):
    kept = {}
    for copy in copies.removed_books():
        for book in copy.books:
            kept.setdefault(book, []).append(copy)
    for book, states in sorted(kept.items()):
        names = [it for it, books in sorted(found.items()) if books and book in books]
        if names:
            folders = " ".join(it.folder for it in states)
            yield (f"book {book} was taken out at {states[-1].made}, and is in the store {' and '.join(names)} again. If its "
                   f"broker has not come back: `pawnd-admin remove-book {book}`. If the broker has, and nobody needs the book "
                   f"as it was then, `rm -r {folders}` ends this note")


def faults_of_key():
    """The key that each store reads when it starts."""
    path = os.path.join(SETTINGS, "operator.key")
    if not os.path.exists(path):
        yield (f"there is no {path}, and no store starts without it: put it back, or make another key (OPERATING.md, `The "
               "operator's key`)")


# ---- disks, and what commands left


def faults_of_disks():
    """The disks of STORES and COPIES, which need room for two copies of the largest store, and those that are a store's
    own, which need room for the store's new files."""
    wrong, disks, needed = [], {}, {STORES: 0, COPIES: 0}
    for name in store_names():
        with contextlib.suppress(OSError):
            size = size_of_store(store_file(name))
            needed[STORES] = needed[COPIES] = max(needed[COPIES], 2 * size)
            if os.stat(os.path.join(STORES, name)).st_dev != os.stat(STORES).st_dev:
                needed[os.path.join(STORES, name)] = size
    for folder, size in needed.items():
        if not os.path.isdir(folder):
            wrong.append(f"{folder} is missing. Is its disk there?")
            continue
        disk = os.statvfs(folder)
        free, whole = free_bytes(folder), disk.f_frsize * disk.f_blocks
        disks[folder] = {"free": free, "bytes": whole}
        wanted = max(min(int(SMALL_PART * whole), SMALL_DISK), size)
        if free < wanted:
            wrong.append(f"the disk of {folder} is nearly full: {free:,} bytes are free, and {wanted:,} are wanted "
                         f"for the files that come next: {wanted - free:,} are missing. `du -xh {top_of_disk(folder)} | "
                         "sort -h` shows what fills it")
    return disks, wrong


def top_of_disk(folder):
    """The folder at which the disk of this one is mounted: what fills the disk may be in any folder below it."""
    while not os.path.ismount(folder):
        folder = os.path.dirname(folder)
    return folder


def unsound_states():
    """What stores had before a copy was put back, where it was not sound."""
    for name in copies.stores_with_copies():
        for it in sorted(os.listdir(os.path.join(COPIES, name))):
            if it.startswith(copies.UNSOUND):
                yield (f"{os.path.join(COPIES, name, it)} is what the store {name} had before a copy was put back. "
                       "Remove it when nobody misses anything")


def pending():
    """What was begun and did not end is wrong, and what is at work now is worth knowing."""
    wrong, notes = [], []
    for name, note in begun_notes():
        command, stores = note.get("command", name), note.get("stores", [MAIN])
        away = [it for it in stores if it in store_names() and is_left_by_command(it)]
        with alone_if_free(stores[0]) as free:
            if not free:
                notes.append(f"a command is at work: `pawnd-admin {command}`")
            elif os.path.exists(begun_file(name)):
                wrong.append(f"a command did not end: run it again, `pawnd-admin {command}`" + (
                    f". Until it has ended, {' and '.join(away)} may not be served, and not at the next boot" if away else ""))
    return wrong, notes


def is_left_by_command(name):
    """Whether a command that makes the store, or has stopped it, has not ended: to end it mends what the store lacks."""
    with contextlib.suppress(Stop):
        store = Store(name)
        if store.is_here and begun_with(name):
            unit = replicas.unit_of(store) if store.volume else services.unit_of(name)
            return not services.is_unit("is-enabled", unit)
    return False
