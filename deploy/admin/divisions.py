"""Books that leave the store that they are in: into a new store, or for good. And a book out of a copy.

A store gets no file but that of a good copy, and what it had is in another one. So no book is ever in fewer places than
before."""
import os
import subprocess

import proxy
import replicas
import services
from begun import begun_file, ended_by_itself_alone, stop_if_another_began
from books import stores_with
from copies import Copy, books_aside, copies_of, make_copy, named, new_time, removed_books
from files import copy_store, files_of_store, read_note, size_of_store, time_name, write_note
from locks import alone_with, copies_folder
from reading import contents_of
from restores import is_empty
from settings import (
    COPIES, MAIN, PAWND, REMOVED, Stop, Store, book_number, name_to_make, say, store_names, the_store,
)
from stores import enable, make_settings, put_in_place, room_to_replace
from tables import in_words, stop_unless_same


def listed(books):
    return ", ".join(map(str, sorted(books)))


def put_copy(name, part):
    """A copy gets its name, and the store its file."""
    made = Copy(named(part, new_time(name)))
    put_in_place(name, made.path)
    say(f"{made.folder}: {in_words(made.counts)}")


def serve(name, part):
    """A new store with this part. An empty store that stood there is replaced."""
    with services.stopped(Store(name)):
        put_copy(name, part)
    enable(name)


def start_again(store):
    """A command that was killed may have left the store stopped."""
    if not replicas.is_elsewhere(store):
        services.start(store)


# ---- split


class Split:
    """A split of a store, as far as it has come. The steps that others see, in this order, and what is so between two
    of them:

    1. There is a copy of the store, and copies of both parts have no names yet. `pending/split-STORE.json` says what is
       being done. Nothing has changed.
    2. The map's lines say that the new store has the books. It is not there, so they are answered 503 as soon as nginx
       has taken up the map. Until then the old store has them.
    3. nginx has taken up the map, and no request is under way by the old one. From now on nobody reaches these books
       in the old store, also if it is started by hand.
    4. The new store's copy gets its name. The new store gets its file, by one rename, and is served.
    5. The same is done with the old store and the file without these books.
    6. The file of step 1 goes.

    A command that is run again makes the parts anew, as long as the new store is not there, and goes on from there. So
    a change that the old store acknowledged after a kill is in them too."""

    def __init__(self, name, new, books):
        self.store, self.new, self.books = the_store(name), name_to_make(new), set(map(book_number, books))
        self.command = f"split {name} {new} {' '.join(map(str, sorted(self.books)))}"
        self.path = begun_file(f"split-{name}")
        replicas.stop_if_elsewhere(self.store, "split")
        if new == name:
            raise Stop("the new store has to have another name than the old one")

    def stop_unless_possible(self):
        """What is asked for is possible, or was begun and not ended, or was done."""
        lines, there = proxy.book_lines(), set(contents_of(self.store.path).books)
        stop_if_another_began(self.command, self.store.name, self.new)
        self.is_begun = os.path.exists(self.path)
        in_new = set() if is_empty(self.new) else set(contents_of(Store(self.new).path).books)
        turned = all(lines.get(book, MAIN) == self.new for book in self.books)
        self.has_new = turned and in_new == self.books and (self.is_begun or not self.books & there)
        if self.has_new:
            return
        if in_new:
            raise Stop(f"the store {self.new} has books already ({listed(in_new)[:80]}): name a new store")
        default = proxy.store_without_line(self.store.name)
        elsewhere = [it for it in sorted(self.books) if lines.get(it, default) != self.store.name]
        if elsewhere and not (self.is_begun and turned):
            raise Stop(f"requests for books {listed(elsewhere)} go to the store {lines.get(elsewhere[0], default)}, and not to "
                       f"{self.store.name}")
        if self.books - there:
            raise Stop(f"the store {self.store.name} has no book {listed(self.books - there)}")

    def run(self):
        """The planned stop: only this store's books are not answered within it."""
        name = self.store.name
        with room_to_replace(name, size_of_store(self.store.path)), services.stopped(self.store):
            original = make_copy(name, self.store.path)
            say(f"{original.folder}: {in_words(original.counts)}")
            with books_aside(name, original, original.books.keys() - self.books) as rest:
                if self.has_new:
                    enable(self.new)
                    proxy.reload_nginx()
                else:
                    with books_aside(self.new, original, self.books) as part:
                        self.turn_to(part)
                put_copy(name, rest)

    def turn_to(self, part):
        write_note(self.path, {"command": self.command, "stores": [self.store.name, self.new]})
        make_settings(self.new)
        proxy.write_stores()
        proxy.turn(self.books, self.new)
        proxy.reload_nginx()
        serve(self.new, part)


def split(name, new, books):
    """The verb `split`."""
    it = Split(name, new, books)
    with alone_with(name, new):
        it.stop_unless_possible()
        with ended_by_itself_alone(it.path, it.command):
            if not it.has_new or it.books & contents_of(it.store.path).books.keys():
                it.run()
            else:
                start_again(it.store)
    say(f"books {listed(it.books)} are in the store {new}, the others in {name}, and both are served")


# ---- one book out of a copy


def restore_book(number, folder, new):
    """The verb `restore-book`. The map's line is turned last: until then nothing has changed for the broker."""
    book = book_number(number)
    name = f"restore-{book}"
    copy, path = copy_with_book(book, folder, begun_file(name)), begun_file(name)
    command = f"restore-book {book} {copy.folder} {name_to_make(new)}"
    with alone_with(new):
        stop_if_another_began(command, new, proxy.store_of(book, new), name=name)
        was_turned = proxy.store_of(book, new) == new
        if was_turned and not os.path.exists(path):
            return tell_that_it_is_back(book, new, copy)
        with ended_by_itself_alone(path, command):
            turn_to_part(book, new, copy, command, path)
    since = ", with what was entered since it answers there" if was_turned else ""
    say(f"book {book} is in the store {new}, as it was at {copy.made}{since}. Rows of it that another store may have stay "
        "there, and nobody reaches them")


def copy_with_book(book, folder, path):
    """Copies of several stores can have the book, and be of one time. So the operator names the folder of one."""
    copy = Copy(folder) if os.path.isdir(folder) else None
    if copy and book in copy.books:
        return copy
    raise Stop((f"{copy.folder} has no book {book}" if copy else f"{folder} is not the folder of a copy")
               + f". `grep -l '\"{book}\":' {COPIES}/*/*/copy.json` lists the copies that have it. Nothing was changed"
               + how_to_give_up(path))


def how_to_give_up(path):
    """What to do if a command that did not end cannot be run again, since its copy is gone."""
    if not os.path.exists(path):
        return ""
    begun = read_note(path)
    new = begun["stores"][0]
    return (f". `pawnd-admin {begun['command']}` did not end. If its copy is gone for good, give it up: `rm {path}`, then "
            f"`pawnd-admin store {new}`. OPERATING.md, `A store without books`, says how the store {new} is removed")


def tell_that_it_is_back(book, new, copy):
    """An earlier run of the command has ended if a copy of the new store was made of this copy."""
    if book not in contents_of(the_store(new).path).books:
        raise Stop(f"the store {new} has no book {book}, but it is not new either: name a new store. Nothing was changed")
    if all(it.made_of != copy.folder for it in copies_of(new)[0]):
        raise Stop(f"book {book} is in the store {new} already, and nothing was changed. If it is to be as it is in "
                   f"{copy.folder}, name a new store: `pawnd-admin restore-book {book} {copy.folder} NEW`")
    say(f"book {book} is in the store {new} already: it came from {copy.folder}, and has what was entered since. Nothing "
        "was changed")


def turn_to_part(book, new, copy, command, path):
    """Makes the new store unless it was made, and gives it the book's line."""
    if proxy.store_of(book, new) != new:
        if not is_empty(new) and set(contents_of(Store(new).path).books) != {book}:
            raise Stop(f"the store {new} has other books already: name a new store")
        make_store_of_copy(book, new, copy, command, path)
    else:
        # An earlier run has turned the line, or the operator has. It may not have come to the store's units.
        enable(new)
    proxy.write_stores()
    proxy.turn({book}, new)
    proxy.reload_nginx()


def make_store_of_copy(book, new, copy, command, path):
    """The new store with the book. It may be there from a run that did not end, and is the same then."""
    begun = {"command": command, "stores": [new]}
    if is_empty(new):
        with room_to_replace(new, size_of_store(copy.path)), books_aside(new, copy, {book}) as part:
            write_note(path, begun)
            make_settings(new)
            serve(new, part)
        return
    found = make_copy(new, Store(new).path)
    stop_unless_same(found.books, {book: copy.books[book]}, f"the store {new} has another state of book {book}")
    write_note(path, begun)
    enable(new)


# ---- a book that leaves for good


def remove_book(number):
    """The verb `remove-book`. The book's last state is kept; then its rows go out of every store that has them, out of
    the one that answers last; then its line goes. If the line went first, older rows in `main` would answer."""
    book = book_number(number)
    path = begun_file(f"remove-{book}")
    replicas.stop_if_elsewhere(the_store(proxy.store_of(book)), "remove-book")
    locked = stores_of_removal(book, path)
    with alone_with(*locked, REMOVED):
        stop_if_another_began(f"remove-book {book}", *locked)
        if stores_of_removal(book, path) <= locked:
            with ended_by_itself_alone(path, f"remove-book {book}"):
                return remove_alone(book, path, locked)
    # Another command moved the book before this one had its locks.
    return remove_book(number)


def stores_of_removal(book, path):
    """The store that answers for a book, those that have rows of it, and those that a run may have left stopped."""
    begun = read_note(path)["stores"] if os.path.exists(path) else []
    here = [it for it in begun if it in store_names() and Store(it).is_here]
    return {proxy.store_of(book), *stores_with(book), *here}


def remove_alone(book, path, locked):
    name, places = proxy.store_of(book), stores_with(book)
    kept = [it for it in removed_books() if book in it.books]
    if name not in places and not kept:
        raise Stop(f"the store {name} has no book {book}")
    for place in sorted(places, key=lambda it: it == name):
        kept.append(take_out(the_store(place), book, path, locked))
    for place in sorted(locked - set(places)):
        start_again(the_store(place))
    # An exchange of its key stays, since the leaked key would open the book again when it comes back out of a copy.
    proxy.turn({book}, None)
    proxy.reload_nginx()
    folder = kept[-1].folder
    say(f"book {book} is in no store any more. {folder} has its last state: book.csv for the broker, and books.db, "
        f"from which `pawnd-admin restore-book {book} {folder} NEW` puts it back")


def take_out(store, book, path, locked):
    """Returns the book's last state in this store, which is kept among those of removed books."""
    with room_to_replace(store.name, size_of_store(store.path)), services.stopped(store):
        original = make_copy(store.name, store.path)
        say(f"{original.folder}: {in_words(original.counts)}")
        with books_aside(store.name, original, original.books.keys() - {book}) as rest:
            with books_aside(REMOVED, original, {book}, lambda part: write_text(part, book)) as part:
                beginning = f"{book}-"
                kept = Copy(named(part, beginning + time_name(os.path.join(copies_folder(REMOVED), beginning))))
            write_note(path, {"command": f"remove-book {book}", "stores": sorted(locked)})
            put_copy(store.name, rest)
    return kept


def write_text(path, book):
    """The CSV of a book, by the program, from a store that nobody serves. It is written beside the store."""
    key = contents_of(path).books[book]["key"].hex()
    request = f"GET /books/{book}/export HTTP/1.1\r\nPledge-Key: {key}\r\nConnection: close\r\n\r\n".encode()
    scratch = path + "-scratch"
    copy_store(path, scratch)
    words = [PAWND, "answer", scratch, "2199-12-31", "0" * 64, "0" * 32]
    ran = subprocess.run(words, input=request, capture_output=True)
    head, _, text = ran.stdout.partition(b"\r\n\r\n")
    if ran.returncode or not head.startswith(b"HTTP/1.1 200 "):
        raise Stop(f"the text of book {book} was not written: {ran.stderr.decode().strip()} {head[:80]!r}")
    with open(os.path.join(os.path.dirname(path), "book.csv"), "xb") as file:
        file.write(text)
    for it in files_of_store(scratch):
        os.unlink(it)
