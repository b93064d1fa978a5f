"""`store`, `book`, `copy` and `new-key` of `pawnd-admin`, killed at some of their steps and run again:
admin_killing.py says how."""
import os

from tests.library.checks import expect
from tests.library.operator.admin_killing import ALL, expect_well, killed
from tests.library.operator.admin_machine import PACKAGES
from tests.library.packages import main_with


def killed_store():
    killed(["store", "north"], lambda story: expect_well(story, *ALL, ["north: has no copy"]))


def killed_book():
    def after(story):
        expect_well(story, ALL[0], {10, 11})

    killed(["book", "11", "--name", "New Street", "--store", "west", "--key-to", "NEW"], after)


def killed_copy():
    killed(["copy", "main"], lambda story: expect_well(story, *ALL))


def killed_new_key():
    def after(story):
        expect_well(story, *ALL)
        caller, leaked = story.callers[8], story.keys[8]
        expect("the leaked key", caller.request("GET", "/pledges/1", key=leaked)[0], 404)
        with open(story.machine.place("new-key")) as file:
            caller.key = file.read().strip()
        caller.look_up()
        left = [it for it in os.listdir(story.machine.place()) if it.startswith(".")]
        expect("what is left where the operator wanted the key", left, [])

    killed(["new-key", "8", "--key-to", "NEW"], after, goes_back={8}, named=["/new-key'"])


if __name__ == "__main__":
    main_with(PACKAGES, killed_store, killed_book, killed_copy, killed_new_key)
