"""Each verb of `pawnd-admin` is killed just before one of its steps, as by a power cut or by the operator, and run
again. A step is whatever changes something: admin_run.py says what, and lists those of a run. Some of them are drawn at
random; a number on the command line says how many of each verb, and a second one the seed. `make fuzz` takes all. Some
verbs are also killed before steps that their test names.

After a kill each book is in no fewer places than before. What is served then, after a boot or when somebody starts the
stores, is what was acknowledged, or nothing. The verb that is run again ends what was begun."""
import os
import random
import shutil
import sys

from tests.library.checks import Failed, expect
from tests.library.operator.admin_machine import Machine
from tests.library.operator.admin_places import books_in, expect_no_fewer_places, places_of

NUMBERS = [int(word) for word in sys.argv[1:] if word.isdigit()]
POINTS = NUMBERS[0] if NUMBERS else 2
SEED = NUMBERS[1] if len(NUMBERS) > 1 else 1
KEPT = "etc", "lib", "backups", "system", "units"


class Story:
    """A machine with three books in `main` and one in `west`, which is laid out anew before each kill."""
    STORES = {"main": (7, 8, 9), "west": (10,)}

    def __init__(self, machine):
        self.machine = machine
        machine.store("west")
        self.callers = {number: machine.book(number, store, pledges=2)
                        for store, numbers in self.STORES.items() for number in numbers}
        self.end_of_making()
        for caller in self.callers.values():
            caller.repay()
        for store in self.STORES:
            machine.admin("copy", store)
        self.folder = machine.newest(next(iter(self.STORES)))
        self.copy = os.path.basename(self.folder)
        for caller in self.callers.values():
            caller.repay()
        self.keep()

    def end_of_making(self):
        """What else is done when the books are made."""

    def stop(self):
        for name in os.listdir(self.machine.stores):
            if name[0] != ".":
                self.machine.systemctl("stop", f"pawnd@{name}")

    def keep(self):
        self.stop()
        for name in KEPT:
            shutil.copytree(self.machine.place(name), self.machine.place("kept", name), symlinks=True)
        self.keys = {number: caller.key for number, caller in self.callers.items()}
        self.counts = {number: dict(caller.acknowledged) for number, caller in self.callers.items()}
        self.boot()

    def lay_out(self):
        """Everything as it was when the story began."""
        self.stop()
        for name in KEPT:
            shutil.rmtree(self.machine.place(name))
            shutil.copytree(self.machine.place("kept", name), self.machine.place(name), symlinks=True)
        for number, caller in self.callers.items():
            caller.key = self.keys[number]
            caller.acknowledged, caller.sent = dict(self.counts[number]), dict(self.counts[number])
        self.boot()
        self.machine.admin("reload")

    def boot(self):
        """What is enabled is started, as far as it can be; a mask that holds until a boot is gone."""
        units = self.machine.place("units")
        for name in os.listdir(units):
            if name.startswith("masked-"):
                os.unlink(os.path.join(units, name))
        for name in os.listdir(units):
            store = name.removeprefix("enabled-pawnd@").removesuffix(".service")
            if name.startswith("enabled-pawnd@") and os.path.exists(self.machine.path(store)):
                self.machine.systemctl("start", f"pawnd@{store}")
                self.machine.await_store(store)


class FarStory(Story):
    """A second machine, without `main`: its nginx stands for the relay, which passes a book without a line to `west`."""
    STORES = {"west": (7, 8, 9, 10)}

    def end_of_making(self):
        without_main(self.machine)


def without_main(machine):
    """The machine has no store `main` any more, and no line for a book of `west`."""
    machine.systemctl("stop", "pawnd@main")
    for path in ("units/enabled-pawnd@main.service", "units/enabled-pawnd-copy@main.timer", "etc/stores/main.conf"):
        os.unlink(machine.place(path))
    shutil.rmtree(machine.place("lib/main"))
    machine.write("etc/books.map", "")
    with open(machine.place("nginx.conf")) as file:
        machine.write("nginx.conf", file.read().replace("default main;", "default west;"))
    machine.admin("reload")


def expect_right_or_away(caller):
    """What is served is what was acknowledged, and its changes count; or the proxy says that its store is away."""
    status, said = caller.request("GET", "/pledges/1")
    if status in (502, 503, 504) or isinstance(said, dict) and "proxy" in said:
        return
    if status != 200:
        raise Failed(f"book {caller.book} after a boot: {status} {said}")
    caller.look_up()
    caller.repay()


def drawn_steps(steps, draw, named):
    """The numbers of some steps that are drawn, and of the last step with each of these texts."""
    drawn = set(draw.sample(range(1, len(steps) + 1), min(POINTS, len(steps))))
    for text in named:
        found = [number for number, step in enumerate(steps, 1) if text in step]
        expect(f"a step with {text}", bool(found), True)
        drawn.add(found[-1])
    return sorted(drawn)


def killed(words, after, goes_back=(), named=(), meanwhile=lambda story: None, kind=Story):
    """A verb at some of its steps, and at those that are named by a part of their text. `after` says how it is when the
    verb has ended; books of `goes_back` are put back to what a copy has of them. `meanwhile` happens between the kill
    and the second run."""
    draw = random.Random(f"{SEED} {words}")
    with Machine() as it:
        story = kind(it)
        words = [{"COPY": story.copy, "FOLDER": story.folder, "NEW": it.place("new-key")}.get(word, word) for word in words]
        it.admin_with(*words, KILL_AT="0", STEPS=it.place("steps"))
        after(story)
        steps = it.steps()
        drawn = drawn_steps(steps, draw, named)
        for step in drawn:
            story.lay_out()
            try:
                kill_once(story, words, step, draw.choice(("boot", "start", "nothing")), goes_back, meanwhile)
                after(story)
                for number, caller in story.callers.items():
                    if number not in goes_back:
                        caller.look_up()
            except Failed as why:
                raise Failed(f"killed before step {step} of {len(steps)}, {steps[step - 1][:200]}: {why}") from None
    print(f"        {len(drawn)} of {len(steps)} steps", flush=True)


def kill_once(story, words, step, then, goes_back, meanwhile):
    """Kills the verb. Then the machine is booted, or somebody starts the stores and does not reload nginx, or nobody
    does anything; and the verb is run again. Between the two runs the status never advises to put a copy back because
    of what the verb did on purpose."""
    it = story.machine
    before = places_of(it)
    it.admin_with(*words, KILL_AT=str(step), wanted=-9)
    expect_no_fewer_places(before, places_of(it), story.callers)
    wrong = it.status()["wrong"]
    useless, again = ["holds less"] + ["pawnd-admin restore"] * (words[0] != "restore"), f"pawnd-admin {' '.join(words)}"
    expect(f"a copy to be put back: {wrong}",
           [line for line in wrong for text in useless if text in line.replace(again, "")], [])
    if then != "nothing":
        story.boot()
        if then == "boot":
            it.admin("reload")
        for number, caller in story.callers.items():
            if number not in goes_back:
                expect_right_or_away(caller)
    meanwhile(story)
    it.admin(*words)


def expect_well(story, main, west, allowed=()):
    it = story.machine
    expect("the books", (books_in(it.path("main")), books_in(it.path("west"))), (main, west))
    wrong = [line for line in it.status()["wrong"] if not any(some in line for some in allowed)]
    expect("what is wrong", wrong, [])
    expect("what commands left", it.leftovers(), [])
# The books of `main` and of `west`.
ALL = {7, 8, 9}, {10}
