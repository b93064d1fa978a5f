"""An operator's year in minutes: verbs of `pawnd-admin` in an order that is drawn at random, many of them killed at any
moment and run again, while brokers work. Numbers on the command line are the seconds that it takes, and the seed."""
import contextlib
import os
import random
import signal
import subprocess
import sys
import textwrap
import threading
import time

from tests.library.checks import Failed, expect
from tests.library.operator.admin_machine import ADMIN, PACKAGES, Machine
from tests.library.operator.admin_places import expect_no_fewer_places, places_of
from tests.library.packages import main_with

NUMBERS = [int(word) for word in sys.argv[1:] if word.isdigit()]
SECONDS = NUMBERS[0] if NUMBERS else 90
SEED = NUMBERS[1] if len(NUMBERS) > 1 else 1


class Till(threading.Thread):
    """Repayments of one book through the proxy, which can be held up."""

    def __init__(self, caller):
        super().__init__(daemon=True)
        self.caller, self.goes_on, self.idle, self.ended, self.wrong = caller, True, threading.Event(), False, []
        self.start()

    def run(self):
        while not self.ended:
            if not self.goes_on:
                self.idle.set()
                time.sleep(0.01)
                continue
            try:
                if not self.caller.repay(1 + int(time.monotonic()) % 2):
                    time.sleep(0.02)
            except Exception as why:
                self.wrong.append(f"{type(why).__name__}: {why}")
                return
            time.sleep(0.01)

    @contextlib.contextmanager
    def held_up(self):
        self.idle.clear()
        self.goes_on = False
        if not self.idle.wait(100) or self.wrong:
            raise Failed(f"the till of book {self.caller.book}: {self.wrong}")
        yield
        self.goes_on = True


class Operator:
    def __init__(self, machine, draw):
        self.machine, self.draw, self.count, self.done, self.kills = machine, draw, 0, {}, 0
        # The verbs in their order, each with how often it was killed.
        self.story = []
        self.tills = {number: Till(machine.book(number, pledges=2)) for number in range(1, 7)}

    def place(self, book):
        return self.machine.lines().get(book, "main")

    def new_name(self):
        self.count += 1
        return f"s{self.count}"

    def verb(self, *words):
        """Runs a verb, and often kills it and runs it again, until it has ended."""
        self.done[words[0]] = self.done.get(words[0], 0) + 1
        self.story.append([" ".join(map(str, words)).replace(self.machine.room + "/", ""), 0])
        while self.draw.random() < 0.5:
            running = subprocess.Popen(
                [ADMIN, *map(str, words)], env=self.machine.environment, stdin=subprocess.DEVNULL,
                stdout=subprocess.DEVNULL, stderr=subprocess.PIPE, start_new_session=True,
            )
            try:
                said = running.communicate(timeout=self.draw.uniform(0.1, 4))[1]
                expect(f"{words}: {said}", running.returncode, 0)
                return
            except subprocess.TimeoutExpired:
                running.send_signal(signal.SIGKILL)
                running.communicate()
                self.kills += 1
                self.story[-1][1] += 1
            if self.draw.random() < 0.5:
                # A boot also ends what the command itself had started, such as a systemctl.
                with contextlib.suppress(ProcessLookupError):
                    os.killpg(running.pid, signal.SIGKILL)
                self.boot()
        self.machine.admin(*words)

    @contextlib.contextmanager
    def account(self):
        """What fails within the block says the seed, and which verbs were run and killed, at most 18 lines of them."""
        try:
            yield
        except Exception as why:
            told = [words + (f" (killed {kills}x)" if kills else "") for words, kills in self.story]
            lines = textwrap.wrap("; ".join(told), 112, break_long_words=False)[-18:]
            head = f"{why if isinstance(why, Failed) else repr(why)}", f"seed {SEED}, the last of {len(told)} verbs:"
            raise Failed("\n        ".join([*head, *lines])) from why

    def boot(self):
        """What a boot does to units: runtime masks are gone, and what is enabled is started."""
        units = self.machine.place("units")
        for name in os.listdir(units):
            if name.startswith("masked-"):
                os.unlink(os.path.join(units, name))
        for name in os.listdir(units):
            store = name.removeprefix("enabled-pawnd@").removesuffix(".service")
            if name.startswith("enabled-pawnd@") and os.path.exists(self.machine.path(store)):
                self.machine.systemctl("start", f"pawnd@{store}")

    def copies_a_store(self, book):
        self.verb("copy", self.place(book))

    def divides_a_store(self, book):
        store = self.place(book)
        there = [it for it in self.tills if self.place(it) == store]
        moved = {book, *self.draw.sample(there, self.draw.randrange(len(there)))}
        self.verb("split", store, self.new_name(), *sorted(moved))

    def puts_a_book_back(self, book):
        with self.tills[book].held_up():
            self.machine.admin("copy", self.place(book))
            self.verb("restore-book", book, self.machine.newest(self.place(book)), self.new_name())

    def puts_a_store_back(self, book):
        store = self.place(book)
        with contextlib.ExitStack() as stack:
            for it in self.tills:
                if self.place(it) == store:
                    stack.enter_context(self.tills[it].held_up())
            self.machine.admin("copy", store)
            self.verb("restore", store, os.path.basename(self.machine.newest(store)))

    def changes_a_key(self, book):
        with self.tills[book].held_up():
            path = self.machine.place(f"key-{book}")
            self.verb("new-key", book, "--key-to", path)
            with open(path) as file:
                self.tills[book].caller.key = file.read().strip()

    def takes_a_book_out(self, book):
        """And puts it back: the broker's key is the same as before, also if it was exchanged."""
        with self.tills[book].held_up():
            self.verb("remove-book", book)
            removed = self.machine.place("backups/removed")
            newest = max((it for it in os.listdir(removed) if it.startswith(f"{book}-")))
            self.verb("restore-book", book, os.path.join(removed, newest), self.new_name())


def work_for_a_year(it, operator, draw):
    steps = [
        operator.copies_a_store, operator.copies_a_store, operator.divides_a_store, operator.puts_a_book_back,
        operator.puts_a_store_back, operator.changes_a_key, operator.takes_a_book_out,
    ]
    end = time.monotonic() + SECONDS
    while time.monotonic() < end:
        step, book = draw.choice(steps), draw.choice(sorted(operator.tills))
        before = places_of(it)
        step(book)
        wrong = [line for till in operator.tills.values() for line in till.wrong]
        expect(f"what the tills say after {step.__name__} of book {book}", wrong, [])
        if step in (operator.copies_a_store, operator.divides_a_store):
            expect_no_fewer_places(before, places_of(it), operator.tills)
    for till in operator.tills.values():
        till.ended = True
        till.join(100)
        till.caller.look_up()
    for store in {operator.place(book) for book in operator.tills} | {"main"}:
        it.admin("copy", store)
    wrong = [line for line in it.status()["wrong"] if "has no copy" not in line]
    expect("what is wrong", wrong, [])
    expect("what commands left", it.leftovers(), [])


def a_year():
    draw = random.Random(SEED)
    with Machine() as it:
        operator = Operator(it, draw)
        with operator.account():
            work_for_a_year(it, operator, draw)
        print(f"        {operator.done}, {operator.kills} kills, "
              f"{sum(sum(till.caller.acknowledged.values()) for till in operator.tills.values())} changes", flush=True)


if __name__ == "__main__":
    main_with(PACKAGES, a_year)
