"""Books: making one, and a new key for one whose key has leaked."""
import os
import shlex
import uuid

import asking
import proxy
import replicas
import services
from begun import begun_file, begun_folder, stop_if_another_began
from copies import removed_books
from files import read_note, replace_whole, write_note
from locks import alone, alone_with, alone_with_settings
from reading import contents_of
from settings import Stop, Store, book_number, conf_of, say, store_name, store_names


def key_of_file(path):
    try:
        with open(path) as file:
            return str(uuid.UUID(file.read().strip()))
    except ValueError:
        raise Stop(f"{path} does not hold a key: a key is 32 hexadecimal digits with or without hyphens") from None


def stop_unless_writable(path):
    """A key is handed over after it was made, so its file is looked at first."""
    folder = os.path.dirname(os.path.abspath(path))
    if not path or os.path.isdir(path):
        raise Stop(f"--key-to {shlex.quote(path)} names no file, and a key is written to a file. Nothing was changed")
    if not os.path.isdir(folder):
        raise Stop(f"there is no folder {folder} for the file {path}. Make it first. Nothing was changed")


def hand_over(key, what, path):
    """A key is written to a file that its owner alone can read."""
    replace_whole(os.path.abspath(path), key + "\n", 0o600)
    say(f"{what} is in {path}")


def stores_with(book):
    """The stores of this machine that have rows of a book."""
    stores = [Store(name) for name in store_names()]
    return [it.name for it in stores if it.is_here and os.path.exists(it.path) and book in contents_of(it.path).books]


# ---- a new book


def claim(path, book, where, made, command):
    """Writes down what a book is being made with, its key too, before it is made. So a command that was killed makes
    the book with the same key when it is run again, and no other command makes the same book elsewhere."""
    if not os.path.exists(path):
        stop_if_taken(book, where)
        write_note(path, {**made, "key": str(uuid.uuid4()), "stores": [where], "command": command})
    begun = read_note(path)
    if {**begun, **made, "stores": [where]} != begun:
        raise Stop(
            f"another command makes book {book}: `pawnd-admin {begun['command']}`. If it is not at work any more, run it again "
            f"to end it. If no such book is wanted, remove {path} and its line in {proxy.BOOKS_MAP}, as long as the store has no "
            "such book"
        )
    return {member: begun[member] for member in ("capacity", "key", "name")}


def is_name(text):
    try:
        return 1 <= len(text.encode()) <= 60 and all(byte >= 0x20 and byte != 0x7F for byte in text.encode())
    except UnicodeEncodeError:
        return False


def stop_unless_allowed(name, capacity):
    """What the store would refuse, when the command has begun."""
    if not is_name(name):
        raise Stop("the name of a book has 1 to 60 bytes of UTF-8, and no control character. Nothing was changed")
    if not 1 <= capacity <= 1000:
        raise Stop("the capacity of a book is a whole number from 1 to 1000. Nothing was changed")


def stop_if_taken(book, where):
    line, there = proxy.book_lines().get(book), stores_with(book)
    if there:
        raise Stop(f"book {book} is in the store {there[0]} already. Choose another number")
    if line not in (None, where):
        raise Stop(f"book {book} has a line in {proxy.BOOKS_MAP} for the store {line}. Choose another number")
    # What was taken out on the other machine is kept there, where this command does not see it.
    if line and not Store(where).is_here:
        raise Stop(f"book {book} has a line in {proxy.BOOKS_MAP} for the store {where}, which is on another machine: the "
                   "book is there, or was taken out there and may come back. Choose another number")
    removed = [it.folder for it in removed_books() if book in it.books]
    if removed or book in proxy.exchanges():
        raise Stop(f"there was a book {book}, which may come back: {removed[-1] if removed else proxy.KEYS_MAP} is of it. "
                   "Choose another number")


def is_made(book, where, made, key_to):
    """Whether the book is there as this command makes it, and its key in the file: an earlier run of the command has
    ended."""
    store = Store(where)
    if where not in stores_with(book) or proxy.store_of(book) != where:
        return False
    found = contents_of(store.path).books.get(book)
    if found is None or (found["name"], found["capacity"]) != (made["name"], made["capacity"]):
        return False
    own = str(uuid.UUID(bytes=found["key"]))
    outside, _ = proxy.exchanges().get(book, (own, own))
    return os.path.exists(key_to) and key_of_file(key_to) == outside


def make_book(number, where, name, capacity, key_to):
    """The verb `book`. The line of the map is written before the book is made: a book that answers always has it."""
    book = book_number(number)
    proxy.stop_if_of_another_machine("book")
    stop_unless_allowed(name, capacity)
    stop_unless_writable(key_to)
    operators_key = services.operators_key()
    made = {"capacity": capacity, "name": name}
    if store_name(where) not in store_names():
        raise Stop(f"there is no store {where}. Make it first: `pawnd-admin store {where}`. If it is on another machine: `echo "
                   f"ADDRESS=10.0.0.3:8103 >{conf_of(where)}` with its address, then `pawnd-admin reload`")
    store, path = Store(where), begun_file(str(book))
    replicas.stop_if_elsewhere(store, "book")
    words = "book", book, "--store", where, "--name", name, "--capacity", capacity, "--key-to", key_to
    with alone_with(where):
        stop_if_another_began(shlex.join(map(str, words)), where)
        if not os.path.exists(path) and is_made(book, where, made, key_to):
            return say(f"book {book} ({name}) is in the store {where} already, and nothing was changed")
        with alone_with_settings():
            was_there = os.path.exists(path)
            made = claim(path, book, where, made, shlex.join(map(str, words)))
            turned = proxy.store_of(book) != where
            proxy.turn({book}, where)
        if turned or was_there:
            proxy.reload_nginx()
        services.post(store, f"/books/{book}", operators_key, made, f'{{"book":{book}}}')
        hand_over(made["key"], f"the key of book {book}", key_to)
        os.unlink(path)
    say(f"book {book} ({name}) is in the store {where}")


# ---- a key that has leaked


def own_key(book, inside_file):
    """The key that a book was made with: the rules give it one for ever."""
    store = Store(proxy.store_of(book))
    if inside_file or not store.is_here:
        return own_key_elsewhere(book, store, inside_file)
    books = contents_of(store.path).books
    if book not in books:
        raise Stop(f"the store {store.name} has no book {book}")
    return str(uuid.UUID(bytes=books[book]["key"]))


def own_key_elsewhere(book, store, inside_file):
    """The same from a file, or from the exchange that the book has already, as far as the store takes that key. With
    another one, the exchange would open the book to an earlier key that leaked, and to no other."""
    _, known = proxy.exchanges().get(book, (None, None))
    if not inside_file and not known:
        raise Stop(f"the store {store.name} is on another machine: write the key that book {book} was made with into a "
                   "file, and add --inside-file FILE")
    key = key_of_file(inside_file) if inside_file else known
    if services.code_with_key(store, book, key) == 401:
        raise Stop(
            f"the store {store.name} refuses the key in {inside_file or proxy.KEYS_MAP}, so it is not the one that book "
            f"{book} was made with, and nothing was changed. "
            + (f"{proxy.KEYS_MAP} has a key of this book: run the command without --inside-file" if inside_file and known
               else f"Write the first key that book {book} had into a file, and name it by --inside-file")
        )
    return key


def new_key(number, key_to, inside_file=None):
    """The verb `new-key`. The new key is handed over before it is in force, so that a command that is killed never
    leaves a book with a key that nobody knows."""
    book = book_number(number)
    proxy.stop_if_of_another_machine("new-key")
    stop_unless_writable(key_to)
    inside, outside = own_key(book, inside_file), str(uuid.uuid4())
    with alone(begun_folder(), proxy.KEYS_MAP):
        hand_over(outside, f"the new key of book {book}", key_to)
        with alone_with_settings():
            proxy.write_exchanges({**proxy.exchanges(), book: (outside, inside)})
        proxy.reload_nginx()
        stop_unless_exchanged(book, inside, outside)
    say(f"the new key of book {book} is in force, and every earlier one is refused")


def stop_unless_exchanged(book, inside, outside):
    """Asks the proxy with both keys for a pledge that no book has."""
    if proxy.nginx_master() is None:
        return
    said = [asking.code_through_proxy(book, key) for key in (inside, outside)]
    if said != [401, 403] and not set(said) & {502, 503, 504}:
        raise Stop(
            f"the proxy does not exchange the keys: asked with the old one and with the new one it answers {said[0]} "
            f"and {said[1]}, in place of 401 and 403. Do its files include {proxy.KEYS_MAP}? Mend them, then run the "
            "command again"
        )
