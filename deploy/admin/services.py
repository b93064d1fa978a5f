"""The services of stores: starting, stopping, and asking them."""
import contextlib
import http.client
import json
import os
import socket
import subprocess
import time

from files import LOG, is_plain
from locks import held, is_open
from proxy import run
from settings import SETTINGS, Stop, warn

# Opening reads the whole file: half a minute for a million pledges.
START_PATIENCE = 300
PROBE = "/days/2024-01-01"
PROBE_ANSWER = b'"code":709'


def unit_of(name):
    return f"pawnd@{name}.service"


def stop(store):
    """The service ends, and nothing starts it until `start`. A stop at any moment is safe."""
    run("systemctl", "mask", "--runtime", unit_of(store.name), fails=f"the store {store.name} was not stopped")
    run("systemctl", "stop", unit_of(store.name), fails=f"the store {store.name} was not stopped")
    if is_plain(store.path) and is_open(store.path):
        raise Stop(
            f"{store.path} is still open in a program that is not {unit_of(store.name)}: `fuser {store.path}` names "
            "it. End it, then run the command again"
        )


def start(store):
    run("systemctl", "unmask", "--runtime", unit_of(store.name), fails=f"the store {store.name} was not started")
    run("systemctl", "start", unit_of(store.name), fails=f"the store {store.name} was not started. Look at "
        f"`journalctl -u {unit_of(store.name)}`, then `systemctl start {unit_of(store.name)}`")
    end = time.monotonic() + START_PATIENCE
    while not answers(store.address) and not is_served_elsewhere(store):
        if time.monotonic() > end:
            raise Stop(
                f"the store {store.name} does not answer on {store.address} after {START_PATIENCE} seconds: look at "
                f"`journalctl -u {unit_of(store.name)}`"
            )
        time.sleep(0.05)


def is_served_elsewhere(store):
    """Whether another machine has taken a store in a replicated folder."""
    return bool(store.volume) and not is_unit("is-active", unit_of(store.name)) and is_open(store.path)


@contextlib.contextmanager
def stopped(store):
    """The store is stopped within the block, and served again after it, however the block ends. Nobody else opens its
    file meanwhile: another machine, where its folder is a replicated one, or an operator by hand."""
    try:
        stop(store)
        with held(store.path):
            yield
    except BaseException as why:
        # The start may take minutes.
        warn(f"{why}. The store {store.name} is started again")
        with contextlib.suppress(Stop):
            start(store)
        raise
    start(store)


def answers(address, patience=5):
    """Whether the service there answers a request without a key as it does."""
    with contextlib.suppress(OSError, http.client.HTTPException):
        connection = http.client.HTTPConnection(address, timeout=patience)
        with contextlib.closing(connection):
            connection.request("GET", "/books/1" + PROBE, headers={"Connection": "close"})
            return PROBE_ANSWER in connection.getresponse().read()
    return False


def listens(address):
    """Whether anything listens there."""
    host, _, port = address.rpartition(":")
    with contextlib.suppress(OSError), socket.create_connection((host, int(port)), timeout=5):
        return True
    return False


def await_start(store):
    """A service listens when it has read its file. As long as it is being started it is waited for."""
    end = time.monotonic() + START_PATIENCE
    while not answers(store.address) and time.monotonic() < end:
        if not store.is_here or not is_unit("is-active", unit_of(store.name)):
            return
        time.sleep(0.1)


def post(store, target, key, body, wanted):
    """Has a request done. Only the whole reply that is wanted says that it was: the head of a reply that was cut off can
    look like that of an empty one."""
    await_start(store)
    connection = http.client.HTTPConnection(store.address, timeout=600)
    try:
        connection.request("POST", target, json.dumps(body), {"Connection": "close", "Pledge-Key": key})
        reply = connection.getresponse()
        said = reply.read()
    except (OSError, http.client.HTTPException) as why:
        raise Stop(
            f"the store {store.name} at {store.address} does not answer ({why}). Look at `pawnd-admin status`, then "
            "run the command again"
        ) from None
    finally:
        connection.close()
    if reply.status != 200:
        raise Stop(f"the store {store.name} refuses: {said.decode(errors='replace').strip()}{what_to_do(store, said)}")
    if said != wanted.encode():
        raise Stop(f"the store {store.name} at {store.address} does not answer as a store does, or its reply was cut off. "
                   "Look at `pawnd-admin status`, then run the command again")


def what_to_do(store, said):
    """What the operator does about a refusal, where its text alone does not say so."""
    if b'"code":410' in said:
        return (f". It was started with another operator's key than the one in {SETTINGS}/operator.key. If it is on another "
                f"machine, copy the file there. Restart it there, `systemctl restart {unit_of(store.name)}`, and run the "
                "command again")
    if b'"code":490' in said:
        return ". It has as many rows as its limit: OPERATING.md, `490, a full store`, says what to do. Then run the command again"
    if b'"handed_on":false' in said:
        return ". It is being started, and nothing was done: run the command again when `pawnd-admin status` says that it answers"
    return ""


def code_with_key(store, book, key):
    """The code of a store's refusal of a request for a pledge that no book has, with this key: 401 if it is not the
    book's."""
    connection = http.client.HTTPConnection(store.address, timeout=60)
    with contextlib.closing(connection):
        try:
            heads = {"Connection": "close", "Pledge-Key": key}
            connection.request("GET", f"/books/{book}/pledges/999999999", headers=heads)
            return json.loads(connection.getresponse().read()).get("code")
        except (OSError, ValueError, AttributeError, http.client.HTTPException) as why:
            raise Stop(f"the store {store.name} at {store.address} does not answer ({why}), so nothing was changed. Look "
                       "at `pawnd-admin status`, then run the command again") from None


def has_port_rule(store):
    """Whether nftables keeps the store's user to the store's port."""
    ran = subprocess.run(
        ["nft", "list", "table", "inet", f"pawnd-{store.name}"], stdin=subprocess.DEVNULL, capture_output=True,
        text=True, timeout=30,
    )
    return f"tcp sport != {store.port} drop" in ran.stdout


def operators_key():
    with open(os.path.join(SETTINGS, "operator.key")) as file:
        return file.read().strip()


def failures(unit):
    """How often a service has failed in the last ten minutes, by the journal: systemd itself starts it again each time."""
    ran = subprocess.run(
        ["journalctl", "-q", "-u", unit, "--since", "-10min", "-o", "cat", "--grep", "Failed with result"],
        stdin=subprocess.DEVNULL, capture_output=True, text=True, timeout=30,
    )
    return len(ran.stdout.splitlines())


def log_bytes(path):
    return os.path.getsize(path + LOG) if os.path.exists(path + LOG) else 0


def state_of_unit(name):
    """The word of `systemctl is-active`: a unit that is about to be started again is `activating`."""
    ran = subprocess.run(["systemctl", "is-active", name], stdin=subprocess.DEVNULL, capture_output=True, text=True, timeout=30)
    return ran.stdout.strip()


def is_unit(state, name):
    """What `systemctl is-active` or `is-enabled` says of a unit."""
    ran = subprocess.run(
        ["systemctl", state, "--quiet", name], stdin=subprocess.DEVNULL, capture_output=True, timeout=30
    )
    return ran.returncode == 0
