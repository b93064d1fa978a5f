"""Copies of stores, made while a store is served too: making one, looking them over, and removing old ones."""
import contextlib
import datetime
import os
import re
import shutil
import time

from files import (
    BLOCK, LOG, PART, copy_file, copy_store, files_of_store, is_plain, open_plain, read_note, room_for, room_in, size_of_store, sync,
    sync_folder, time_name, write_note, write_whole,
)
from locks import alone_with, copies_folder, is_open
from reading import head_of_log
from settings import COPIES, REMOVED, STORE_NAME, Stop, copies_to_keep, say, store_file, the_store, warn
from tables import NotSound, check_and_fold, counts_of, fold, in_words, keep_books, stop_unless_same, sums_of

NOTE = "copy.json"
TIME = "%Y%m%dT%H%M%SZ"
COPY_NAME = re.compile(r"\d{8}T\d{6}Z")
# How the names begin of what a store had, where the program does not find it sound.
UNSOUND = "unsound-"
# What the last check of a store said that did not find it sound, among its copies: until a copy of it is good, or it gets
# the file of a good one.
FAILED = "failed-check"
# How long a command tries to copy a store whose log is begun anew during each attempt, in seconds.
COPY_PATIENCE = float(os.environ.get("COPY_PATIENCE", "300"))
# A copy that is dated later than this from now was made while the clock was wrong, or the clock is wrong now.
SLACK = datetime.timedelta(minutes=5)


# ---- looking over what there is


def utc_now():
    return datetime.datetime.now(datetime.timezone.utc)


def time_of(name):
    return datetime.datetime.strptime(name, TIME).replace(tzinfo=datetime.timezone.utc)


class Copy:
    """A copy that was finished: its folder, and what was written down when it was made."""

    def __init__(self, folder):
        self.folder, self.name = os.path.realpath(folder), os.path.basename(os.path.realpath(folder))
        self.path = os.path.join(self.folder, "books.db")
        try:
            note = read_note(os.path.join(self.folder, NOTE))
            self.store, self.counts = note["store"], note["counts"]
            # The operator may have renamed a copy that was made while the clock was wrong.
            self.made = self.name if COPY_NAME.fullmatch(self.name) else note["made"]
            self.books = {int(book): it for book, it in note["books"].items()}
            # The copy before, if that one held more though no command took anything out.
            self.less_than = note.get("less_than")
            # The folder of the copy whose books it has, if a command made it of one.
            self.made_of = note.get("made_of")
        except (OSError, ValueError, KeyError, TypeError, AttributeError) as why:
            raise Stop(f"{folder} is not a finished copy: {NOTE} in it cannot be read ({why})") from None
        if not os.path.exists(self.path):
            raise Stop(f"{folder} is not a whole copy: it has no books.db")

    @property
    def is_future(self):
        return time_of(self.made) > utc_now() + SLACK


def copies_of(name):
    """The finished copies of a store, oldest first, and those apart that are dated in the future: they are never the
    newest, and are never removed. A copy of another store that somebody put there is none of them."""
    folder, past, future = os.path.join(COPIES, name), [], []
    for it in sorted(os.listdir(folder)) if os.path.isdir(folder) else ():
        with contextlib.suppress(Stop, ValueError):
            if COPY_NAME.fullmatch(it):
                copy = Copy(os.path.join(folder, it))
                if copy.store == name:
                    (future if copy.is_future else past).append(copy)
    return past, future


def in_the_future(name, future):
    """What to do about copies that are dated in the future. After the clock was set back they are good ones, and may be the
    newest."""
    names, leave, counts, was, them = (
        (f"the copy {future[0].name} is", "it where it is", "the copy counts", "the copy was", "it") if len(future) == 1 else
        (f"{len(future)} copies, {future[0].name} to {future[-1].name}, are", "them where they are", "they count", "they were",
         "them")
    )
    return (
        f"{names} dated in the future and not counted. Look at the clock first: `timedatectl`. If the clock is wrong now, leave "
        f"{leave}: {counts} again when the clock is right. If the clock is right, {was} made while it was ahead: move {them} out "
        f"of {os.path.join(COPIES, name)}, and do not remove {them}. A command takes a copy from any place if it names the "
        "folder"
    )


def unexplained_losses(past):
    """Each copy that held less than the one before, and that one, unless it was put back since, or moved away. That later
    copies hold as much again says nothing: brokers go on entering."""
    by_name = {it.name: it for it in past}
    for place, less in enumerate(past):
        more = by_name.get(less.less_than)
        if more and all(later.made_of != more.folder for later in past[place + 1:]):
            yield less, more


def removed_books():
    """What `remove-book` kept of the books that it took out."""
    folder, found = os.path.join(COPIES, REMOVED), []
    for it in sorted(os.listdir(folder)) if os.path.isdir(folder) else ():
        with contextlib.suppress(Stop):
            if not it.startswith("."):
                found.append(Copy(os.path.join(folder, it)))
    return found


def stores_with_copies():
    names = os.listdir(COPIES) if os.path.isdir(COPIES) else []
    return sorted(
        name for name in names
        if name != REMOVED and STORE_NAME.fullmatch(name) and os.path.isdir(os.path.join(COPIES, name))
    )


def how_to_put_back(book, name):
    """The command that puts a book back as it is in the newest copy that has it, of the store of this name if one of its
    copies does. Nothing if no copy has the book."""
    every = [it for store in stores_with_copies() for it in copies_of(store)[0]] + removed_books()
    copy = max((it for it in every if book in it.books), key=lambda it: (it.store == name, it.made), default=None)
    return copy and f"`pawnd-admin restore-book {book} {copy.folder} NEW` puts it into a new store as it was at {copy.made}"


def the_copy(name, said):
    """The copy that the operator names: by its folder, by its time, or as `newest`."""
    if said == "newest":
        past, future = copies_of(name)
        if future:
            raise Stop(f"which copy is the newest is not sure: {in_the_future(name, future)}. Name the copy that you want by "
                       f"its time{f', the newest of the others is {past[-1].name}' if past else ''}. Nothing was changed")
        if not past:
            raise Stop(f"there is no copy of the store {name} in {os.path.join(COPIES, name)}")
        return past[-1]
    if COPY_NAME.fullmatch(said):
        said = os.path.join(COPIES, name, said)
    if not os.path.isdir(said):
        raise Stop(f"there is no copy {said}. `ls {os.path.join(COPIES, name)}` lists those of the store {name}")
    return Copy(said)


# ---- making one


def renew(source, target):
    """Makes a file equal to another: only the blocks that differ are written."""
    with open_plain(source) as old, open(target, "r+b") as new:
        while True:
            wanted = old.read(BLOCK)
            if new.read(len(wanted)) != wanted:
                new.seek(old.tell() - len(wanted))
                new.write(wanted)
            if len(wanted) < BLOCK:
                new.truncate()
                return


def copy_served(path, target):
    """Copies a store that may be written meanwhile, as it is at one moment.

    The database is written only with pages that the log holds, and then the log is begun anew with another head. So a
    database and a log that were read between two looks at one head belong together. If the log was begun anew
    meanwhile, the blocks that differ by now are read again, which takes less time than the first attempt."""
    end, tries = time.monotonic() + COPY_PATIENCE, 0
    while True:
        head = head_of_log(path)
        if tries:
            renew(path, target)
        else:
            copy_file(path, target)
        with contextlib.suppress(FileNotFoundError):
            os.unlink(target + LOG)
        if os.path.lexists(path + LOG):
            copy_file(path + LOG, target + LOG)
        tries += 1
        if head_of_log(target) == head == head_of_log(path):
            return tries
        if time.monotonic() > end:
            raise Stop(
                f"no copy was made: the log of {path} was begun anew during each of {tries} attempts within "
                f"{COPY_PATIENCE:.0f} seconds. Run the command again when there is less to do"
            )


def describe(part, name, made, source=None, books=(), before=None):
    """Checks a copy on a second copy of it, so that the first stays as it was made; compares it with the books of the
    copy that it was made of; and writes down what it holds."""
    path = os.path.join(part, "books.db")
    scratch = os.path.join(part, "scratch.db")
    copy_store(path, scratch)
    counts = check_and_fold(scratch)
    sums = sums_of(scratch)
    os.unlink(scratch)
    if counts != counts_of(sums):
        raise NotSound(f"{part}: `pawnd check` counts {in_words(counts)}, and SQLite {in_words(counts_of(sums))}")
    if source:
        stop_unless_same(sums, {book: source.books[book] for book in books}, f"{source.folder}, or what was made of it")
    note = {
        "store": name,
        "made": made,
        "counts": counts,
        "bytes": {os.path.basename(it): os.path.getsize(it) for it in files_of_store(path)},
        "books": sums,
    }
    if source:
        note["made_of"] = source.folder
    if before and any(counts[it] < before.counts[it] for it in counts):
        note["less_than"] = before.name
    write_note(os.path.join(part, NOTE), note)
    sync_folder(part)


def new_time(name, later_than=""):
    """The time of a new copy of a store, or of what was not sound of it. No two of these have the same time."""
    folder = os.path.join(COPIES, name)
    while (made := time_name(os.path.join(folder, ""), os.path.join(folder, UNSOUND))) <= later_than:
        time.sleep(0.1)
    return made


def named(part, name):
    """The last step of a copy: it gets its name, by one rename. Until then it does not count as a copy."""
    target = os.path.join(os.path.dirname(part), name)
    os.rename(part, target)
    sync(os.path.dirname(target))
    return target


@contextlib.contextmanager
def room_for_copy(name, wanted, path):
    """A folder among the copies of a store, for one that is being made. It is gone after the block if it has no name."""
    folder = copies_folder(name)
    with room_for(folder, wanted + BLOCK, f"a copy of {path} and a second one to check it"), room_in(folder, PART) as part:
        yield part


@contextlib.contextmanager
def copy_aside(name, path, begun, before=None):
    """A copy of a store without its name, which is expected to hold no less than the copy `before`."""
    with room_for_copy(name, 2 * size_of_store(path), path) as part:
        copy_served(path, os.path.join(part, "books.db"))
        describe(part, name, begun, before=before)
        yield part


@contextlib.contextmanager
def books_aside(name, source, books, write_more=lambda path: None):
    """A copy without its name of what a store is to get: one file with these books of another copy, compared book by
    book. It gets its name when the store gets the file: until then the newest copy is of what the store has."""
    with room_for_copy(name, 3 * size_of_store(source.path), source.path) as part:
        path = os.path.join(part, "books.db")
        copy_store(source.path, path)
        if books != source.books.keys():
            keep_books(path, books)
        fold(path)
        write_more(path)
        describe(part, name, utc_now().strftime(TIME), source, books)
        yield part


@contextlib.contextmanager
def files_aside(name, path):
    """The files of a store that is not sound, as far as they are plain files."""
    with room_for_copy(name, size_of_store(path), path) as part:
        for it in filter(is_plain, files_of_store(path)):
            copy_file(it, os.path.join(part, os.path.basename(it)))
        sync_folder(part)
        yield part


def make_copy(name, path, before=None):
    """A new copy of a store, named by the time at which it was begun: what is entered while it is checked is not in it. The
    caller holds the lock of the store."""
    begun = new_time(name)
    try:
        with copy_aside(name, path, begun, before) as part:
            made = Copy(named(part, begun))
    except NotSound as why:
        # A full disk is no reason to say less of the store.
        with contextlib.suppress(Stop, OSError):
            write_whole(failed_check(name), f"{utc_now().strftime(TIME)}: {why}\n", 0o600)
        raise
    forget_failed_check(name)
    return made


def failed_check(name):
    return os.path.join(COPIES, name, FAILED)


def forget_failed_check(name):
    with contextlib.suppress(FileNotFoundError):
        os.unlink(failed_check(name))


def what_to_do_if_unsound(name, said):
    """Where the pages say it: a store that is served may be damaged all the same."""
    if "OldSchema" in said:
        return f"the store {name} has an older schema: FILES.md, `Moving an older file`, says what to do"
    path = store_file(name)
    section = "A damaged book" if is_plain(path) and is_open(path) else "A store does not start"
    return f"the store {name} is damaged: OPERATING.md, `{section}`, says what to do"


def how_it_lacks(path):
    """Whether the file of a store is missing, or empty, which the program does not serve. None if it is there."""
    if not os.path.exists(path):
        return "missing"
    return None if os.path.getsize(path) else "empty"


def copy(name):
    """The verb `copy`."""
    store, keep = the_store(name), copies_to_keep()
    with alone_with(name):
        if how := how_it_lacks(store.path):
            raise Stop(f"the file {store.path} is {how}. Is its disk there? `pawnd-admin restore {name} newest`")
        past, future = copies_of(name)
        before = past[-1] if past else None
        try:
            made = make_copy(name, store.path, before)
        except NotSound as why:
            raise Stop(f"{why}. No copy was made. Run the command again. If it says the same, {what_to_do_if_unsound(name, str(why))}"
                       ) from None
        say(f"{made.folder}: {in_words(made.counts)}")
        forget_old(name, keep)
    if future:
        warn(in_the_future(name, future))
    if made.less_than:
        warn(f"the copy before, {before.name}, held more: {in_words(before.counts)}: a log may have been lost. Both copies "
             "stay, and `pawnd-admin status` says what to do")


# ---- removing old ones


def newest_of_all():
    """The newest copy of each store, and what was kept of removed books."""
    return [past[-1] for past in (copies_of(name)[0] for name in stores_with_copies()) if past] + removed_books()


def forget_old(name, keep):
    """Removes the copies beyond the newest ones, but none that has more of a book than all newer copies have: it is
    the last good copy of that book. Nor one of a loss that is not explained."""
    past, _ = copies_of(name)
    covered, lost = {}, {it.name for pair in unexplained_losses(past) for it in pair}
    for copy in [*newest_of_all(), *past[-keep:]]:
        cover(covered, copy)
    for copy in reversed(past[:-keep]):
        if copy.name in lost or any(it["rows"] > covered.get(book, 0) for book, it in copy.books.items()):
            cover(covered, copy)
            continue
        gone = os.path.join(os.path.dirname(copy.folder), PART + "old-" + copy.name)
        os.rename(copy.folder, gone)
        shutil.rmtree(gone)


def cover(covered, copy):
    for book, it in copy.books.items():
        covered[book] = max(covered.get(book, 0), it["rows"])
