"""Stores in a replicated folder: a GlusterFS volume with three copies on three machines (REPLICATED.md)."""
import os
import re
import subprocess

import services
from settings import Stop

COPIES = 3


def copies_in_reach(folder, volume):
    """How many of the volume's copies the mount of this folder reaches now; None if the mount does not say. It does not
    while it waits for a machine that is silent."""
    path = os.path.join(folder, f".meta/graphs/active/{volume}-replicate-0/private")
    # In a process of its own, which can be given up on.
    words = ["grep", "-c", r"^child_up\[[0-9]*\] = 1", path]
    try:
        ran = subprocess.run(words, stdin=subprocess.DEVNULL, capture_output=True, text=True, timeout=3)
    except subprocess.TimeoutExpired:
        return None
    return int(ran.stdout or 0)


def machines_out_of_reach(folder, volume):
    """The addresses of the machines whose copies the mount of this folder does not reach now."""
    active = os.path.join(folder, ".meta/graphs/active")
    children = said_by_mount(os.path.join(active, f"{volume}-replicate-0/private"))
    numbers = re.findall(r"^child_up\[(\d+)\] = 0$", children, re.M)
    return [said_by_mount(os.path.join(active, f"{volume}-client-{it}/options/remote-host")).strip() for it in numbers]


def said_by_mount(path):
    """A file of the mount's own, by a process that can be given up on; nothing if the mount does not say it in time."""
    try:
        ran = subprocess.run(["cat", path], stdin=subprocess.DEVNULL, capture_output=True, text=True, timeout=3)
    except subprocess.TimeoutExpired:
        return ""
    return ran.stdout


def unit_of(store):
    return f"pawnd-replicated@{store.name}.service"


def is_away(store):
    """Whether the store's folder is not mounted, so that nothing is known of the store here."""
    return bool(store.volume) and not os.path.exists(store.path) and not os.path.ismount(os.path.dirname(store.path))


def is_elsewhere(store):
    """Whether another machine serves the store, so that it is not to be served here. None serves one without a file."""
    return os.path.exists(store.path) and services.is_served_elsewhere(store)


def stop_if_elsewhere(store, verb):
    if is_away(store):
        raise Stop(f"the folder of the store {store.name} is not mounted here: `journalctl -u {unit_of(store)}` says why. "
                   "Nothing was changed")
    if is_elsewhere(store):
        raise Stop(f"another machine serves the store {store.name}: run `pawnd-admin {verb}` there. Nothing was changed")


def faults(store):
    """What is wrong with the folder, and with what mounts it. It is mounted only while two copies are in reach, and until
    then it is tried again and again."""
    if not services.is_unit("is-enabled", unit_of(store)) or services.state_of_unit(unit_of(store)) in ("inactive", "failed"):
        yield f"its folder is not mounted here, or not at the next boot: `systemctl enable --now {unit_of(store)}`"
    elif is_away(store):
        yield (f"its folder is not mounted here: `journalctl -u {unit_of(store)}` says why. It is mounted as soon as two of the "
               "three machines reach each other. If two are lost for good, REPLICATED.md, `Two machines lost for good`, says "
               "what to do")
    if not is_away(store):
        yield from copies_that_are_away(os.path.dirname(store.path), store.volume)


def copies_that_are_away(folder, volume):
    found = copies_in_reach(folder, volume)
    if found is None:
        yield "its folder does not answer: another machine may be silent. Look again after ten seconds"
    elif found != COPIES:
        names = " and ".join(machines_out_of_reach(folder, volume))
        yield (f"{found} of {COPIES} copies of its folder are in reach" + (f", and not the copy of {names}" if names else "")
               + ". While one is away, the loss of another one stops the store: bring that machine back. If it hangs, switch it "
               "off first")
