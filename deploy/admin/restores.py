"""A copy in the place of a store."""
import contextlib
import os

import proxy
import replicas
import services
from copies import (
    UNSOUND, Copy, books_aside, copies_of, copy_aside, files_aside, how_to_put_back, named, new_time, removed_books, the_copy,
)
from files import files_of_store, is_plain, size_of_store
from locks import alone_with
from reading import contents_of
from settings import Stop, Store, say, store_file, store_name, store_names, the_store, warn
from stores import enable, make_settings, put_in_place, room_to_replace
from tables import NotSound, in_words


def restore(name, said):
    """The verb `restore`. What the store had becomes a copy itself, so that nothing is lost if the wrong copy was
    named. What it gets is a newer copy: `newest` never means what the store had before."""
    copy_of_store(store_name(name), said)
    with alone_with(name):
        # A copy may have been made while this command waited.
        copy = copy_of_store(name, said)
        with room_to_replace(name, max(map(size_of_store, (copy.path, store_file(name))))):
            made = put_back(name, copy)
    say(f"the store {name} holds {in_words(copy.counts)} again, as at {copy.made}, and is served. A copy of it is in "
        f"{made.folder}")


def copy_of_store(name, said):
    copy = the_copy(name, said)
    if copy.store != name:
        raise Stop(
            f"{copy.folder} is a copy of the store {copy.store}: `pawnd-admin restore {copy.store} {copy.folder}` puts "
            f"it back there, and `pawnd-admin restore-book` takes one book out of it"
        )
    if name in store_names():
        replicas.stop_if_elsewhere(the_store(name), "restore")
    return copy


def put_back(name, copy):
    """The newer copy that the store gets."""
    with books_aside(name, copy, copy.books.keys()) as new:
        store = make_settings(name)
        begun = new_time(name)
        later = new_time(name, later_than=begun)
        with services.stopped(store), contextlib.ExitStack() as until_replaced:
            had = books_before(store)
            old, mark = what_it_has(store, begun, until_replaced)
            made = Copy(named(new, later))
            if old:
                folder = named(old, mark + begun)
                counted = "" if mark else f", {in_words(Copy(folder).counts)}"
                say(f"{folder}: what the store {name} had{counted}. Remove it when nobody misses anything")
            put_in_place(name, made.path, not mark)
    enable(name)
    proxy.write_stores()
    proxy.reload_nginx()
    tell_what_differs(store, copy, had)
    return made


def books_before(store):
    """The books of the files that a stopped store has, sound or not. None if they cannot be read."""
    if not files_of_store(store.path):
        return ()
    with contextlib.suppress(Stop, OSError):
        if is_plain(store.path):
            return contents_of(store.path).books
    return None


def what_it_has(store, begun, stack):
    """A copy of a stopped store without its name, or its files as they are if it is not sound; and how the name begins.
    They are there until the stack ends."""
    if not files_of_store(store.path):
        return None, ""
    try:
        if not is_plain(store.path):
            raise NotSound(f"{store.path} is missing, or is no plain file")
        return stack.enter_context(copy_aside(store.name, store.path, begun)), ""
    except NotSound as why:
        warn(str(why))
        return stack.enter_context(files_aside(store.name, store.path)), UNSOUND


def tell_what_differs(store, copy, had):
    """Books that the operator may miss, or may not expect. `had` are the books that the store had before, if its files
    could be read."""
    lines, default = proxy.book_lines(), proxy.store_without_line(store.name)
    if had is None:
        warn(f"what the store {store.name} had cannot be read. A book that was made after {copy.made} is missing now, and this "
             "command cannot name it: ask the brokers")
    for book in sorted(copy.books):
        place = lines.get(book, default)
        if place != store.name:
            warn(f"the copy has rows of book {book}, which is in the store {place}: nobody reaches them here")
    for it in removed_books():
        # In a copy that was made later, the book had come back already.
        for book in sorted(it.books.keys() & copy.books.keys()) if it.made >= copy.made else ():
            warn(f"book {book} was taken out at {it.made}, and is here again: `pawnd-admin remove-book {book}`")
    for book in sorted({*lines, *(had or ())} - copy.books.keys()):
        if lines.get(book, default) == store.name:
            warn(f"book {book} is missing now, because it was not in the store {store.name} at {copy.made}: "
                 f"{how_to_put_back(book, store.name) or 'no copy on this machine has it. Give its number to no other broker'}")
    # On a machine that takes over a store, an empty store of that name may have been copied.
    older = [it for it in copies_of(store.name)[0] if it.made < copy.made and it.books]
    if older and not copy.books:
        last = older[-1]
        warn(f"this copy has no books, and the copy {last.name} before it holds {in_words(last.counts)}. If you want "
             f"that one: `pawnd-admin restore {store.name} {last.name}`")


def is_empty(name):
    """Whether a store has no book; or there is no such store."""
    return name not in store_names() or not os.path.exists(Store(name).path) or not contents_of(Store(name).path).books
