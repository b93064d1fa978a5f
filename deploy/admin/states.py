"""How everything is: what a monitor and an operator look at. It copies nothing and waits for no lock."""
import concurrent.futures
import contextlib
import functools
import json
import os
import subprocess

import copies
import proxy
import replicas
import services
from asking import PATIENCE, answers_through_proxy, state_of_proxy
from faults import (
    faults_of_books, faults_of_disks, faults_of_key, is_left_by_command, pending, removed_books_that_are_back, unsound_states,
)
from files import files_of_store, owner_of
from locks import alone_if_free
from reading import contents_of
from settings import MAIN, OFFSITE, SETTINGS, Stop, Store, reason, store_names

# What is WRONG: a copy so many hours old, on this machine and off it; so much of the limit of rows.
OLD_COPY, OLD_OFFSITE, MANY_ROWS = 26, 50, 0.8


# ---- one store


def newest_copy(name, wrong):
    past, future = copies.copies_of(name)
    if future:
        wrong.append(copies.in_the_future(name, future))
    if not past:
        wrong.append(f"has no copy: `pawnd-admin copy {name}`")
        return None
    hours = (copies.utc_now() - copies.time_of(past[-1].made)).total_seconds() / 3600
    if hours > OLD_COPY:
        wrong.append(f"has no copy of the last {OLD_COPY} hours: `journalctl -u pawnd-copy@{name}`")
    if os.path.exists(copies.failed_check(name)):
        with open(copies.failed_check(name)) as file:
            said = file.read().strip()
        wrong.append(f"it failed its last check, and no copy was made: {said}. Run `pawnd-admin copy {name}`. If it says the "
                     f"same, {copies.what_to_do_if_unsound(name, said)}")
    if found := list(copies.unexplained_losses(past)):
        less, more = found[-1]
        wrong.append(
            f"its copy {less.name} held less than the one before, {more.name}: a log may have been lost. Compare them, and "
            f"put the older one back: `pawnd-admin restore {name} {more.name}`. If the store rightly holds less, move "
            f"{more.folder} to another place"
        )
    return {"name": past[-1].name, "hours": round(hours, 1), "count": len(past), **past[-1].counts}


@functools.cache
def is_sent(name):
    return services.is_unit("is-enabled", f"pawnd-offsite@{name}.timer")


def newest_offsite(name, wrong, notes):
    """The newest copy off this machine, by the file that the sending unit writes when it has ended well."""
    path = os.path.join(OFFSITE, name)
    if not os.path.exists(path):
        if is_sent(name):
            wrong.append(f"no copy was sent off this machine yet: `systemctl start pawnd-offsite@{name}`, and if that "
                         f"fails, `journalctl -u pawnd-offsite@{name}`")
        elif any(map(is_sent, store_names())):
            wrong.append(f"is not sent off this machine, as others are: `systemctl enable --now "
                         f"pawnd-offsite@{name}.timer`, then `systemctl start pawnd-offsite@{name}`")
        else:
            notes.append("no copy goes off this machine: a fire takes the copies with the books")
        return None
    with open(path) as file:
        sent = file.read().strip()
    hours = (copies.utc_now() - copies.time_of(sent)).total_seconds() / 3600
    if hours > OLD_OFFSITE:
        wrong.append(f"the newest copy off this machine is {hours:.0f} hours old: `journalctl -u pawnd-offsite@{name}`")
    if hours < -1:
        wrong.append(f"its newest copy off this machine, {sent}, is dated in the future: is the clock right?")
    return {"name": sent, "hours": round(hours, 1)}


def state_of_units(store, wrong):
    name = store.name
    if services.is_unit("is-active", services.unit_of(name)) and not services.has_port_rule(store):
        wrong.append(
            "its rule in nftables is gone, so an intruder in it could take another store's port: `systemctl reload "
            f"{services.unit_of(name)}`"
        )
    if store.volume:
        wrong += replicas.faults(store)
    elif not services.is_unit("is-enabled", services.unit_of(name)):
        wrong.append(
            f"its service is not enabled, or a command that stopped it did not end: run that command again, or "
            f"`systemctl unmask --runtime {services.unit_of(name)}`, then `systemctl enable --now "
            f"{services.unit_of(name)}`"
        )
    if not services.is_unit("is-active", f"pawnd-copy@{name}.timer"):
        wrong.append(f"no copies are made of it: `systemctl enable --now pawnd-copy@{name}.timer`")


def state_of_file(store, state, wrong):
    """What the store holds, and what is wrong with that."""
    if replicas.is_away(store):
        return {}
    if how := copies.how_it_lacks(store.path):
        wrong.append(f"its file {store.path} is {how}. Is its disk there? `pawnd-admin restore {store.name} newest`"
                     if state.get("copy") else f"its file {store.path} is {how}, and there is no copy of it. Is its disk "
                     f"there? If it never was, run the command again that makes it: `pawnd-admin store {store.name}`")
        return {}
    folder, (user, _) = os.path.dirname(store.path), owner_of(store.name)
    if not store.volume and any(os.stat(it).st_uid != user for it in (folder, *files_of_store(store.path))):
        wrong.append(
            f"{folder} or a file in it does not belong to its user, so it does not start: `chown -R pawnd-{store.name}: "
            f"{folder}`, then `systemctl restart {services.unit_of(store.name)}`"
        )
    if not store.volume and any(os.stat(it).st_nlink > 1 for it in files_of_store(store.path)):
        wrong.append(f"a file in {folder} has a second name, so it does not start again: `find / -xdev -samefile {store.path}` and "
                     f"the same with {store.path}-wal find it. Remove the other name")
    found = contents_of(store.path)
    rows, limit, counts = found.meta["rows"], found.meta["limit"], found.counts
    state.update(counts, limit=limit, bytes=os.path.getsize(store.path), log_bytes=services.log_bytes(store.path))
    if rows > MANY_ROWS * limit:
        wrong.append(f"has {rows:,} of {limit:,} rows, and refuses new ones at the limit: give it fewer books by "
                     "`pawnd-admin split`")
    copy = state.get("copy")
    if copy and any(counts[it] < copy[it] for it in counts) and has_lost(store):
        wrong.append(
            f"holds less than its newest copy, {copy['name']}: a log may have been lost. Before it is used any "
            f"further, compare them, and put the copy back: `pawnd-admin restore {store.name} {copy['name']}`"
        )
    return found.books


def has_lost(store):
    """Whether a store that seems to hold less than its newest copy does so while no command works on it. A command that
    takes anything out of it first makes a copy of what will be left."""
    with alone_if_free(store.name) as free:
        past, _ = copies.copies_of(store.name)
        if not free or not past:
            return False
        found = contents_of(store.path)
        return any(found.counts[it] < past[-1].counts[it] for it in found.counts)


@contextlib.contextmanager
def told(wrong, what=""):
    """What goes wrong within the block is one complaint among the others."""
    try:
        yield
    except (Stop, OSError, ValueError, KeyError, TypeError, AttributeError, subprocess.SubprocessError) as why:
        known = isinstance(why, (Stop, OSError))
        wrong.append(what + (reason(why) if known else f"{type(why).__name__}: {why}"))


def through_proxy(name, lines, state, wrong):
    book = next((it for it, place in sorted(lines.items()) if place == name), None)
    if name == MAIN:
        book = next(it for it in range(1, 10**9) if it not in lines)
    state["answers_through_proxy"] = None
    if book:
        why = answers_through_proxy(book)
        state["answers_through_proxy"] = why is None
        if why:
            wrong.append(f"does not answer through the proxy: {why}")


def how_it_answers(store, lines, state, wrong, notes):
    """Whether the store answers, directly and through the proxy."""
    if replicas.is_elsewhere(store):
        state["elsewhere"] = True
        notes.append("is served by another machine, which has its folder too")
        return
    if not proxy.is_of_another_machine():
        with told(wrong):
            through_proxy(store.name, lines, state, wrong)
    if not store.is_here:
        return
    state["answers"] = services.answers(store.address, PATIENCE)
    # What mounts the folder starts the store, too.
    if not state["answers"] and not replicas.is_away(store):
        wrong.append(f"does not answer on {store.address}: {why_it_is_silent(store)}")


def why_it_is_silent(store):
    unit = services.unit_of(store.name)
    failures = services.failures(unit)
    if failures > 1:
        return (f"its service keeps ending, {failures} times in the last ten minutes. `journalctl -u {unit} -n 20` says why, "
                "and OPERATING.md, `A store does not start`, says what to do")
    if services.is_unit("is-active", unit) and not services.listens(store.address):
        return ("it is being started, and answers when it has read its file. If it does not answer after some minutes, "
                f"`journalctl -u {unit}` says why")
    return f"`systemctl status {unit}` and `journalctl -u {unit}` say why"


def state_of(name, lines):
    """One store, whatever is wrong with the others: its state, what is wrong, what is worth knowing, its books."""
    state, wrong, notes, books = {"store": name}, [], [], None
    with told(wrong):
        store = Store(name)
        state["address"], state["here"] = store.address, store.is_here
        # What such a store lacks is one complaint, of the command.
        left = [] if is_left_by_command(name) else wrong
        with told(left):
            how_it_answers(store, lines, state, left, notes)
        if not store.is_here:
            notes.append(f"is on another machine, at {store.address}: `pawnd-admin status` there says how it is")
            if is_sent(name):
                wrong.append("is on another machine, and this one still sends its old copies as the newest: `systemctl "
                             f"disable --now pawnd-offsite@{name}.timer`")
            return state, [f"store {name}: {it}" for it in wrong], [f"store {name}: {it}" for it in notes], None
        with told(left):
            state_of_units(store, left)
        with told(left):
            state["copy"] = newest_copy(name, left)
        with told(left):
            state["offsite"] = newest_offsite(name, left, notes)
        books = state_of_file(store, state, left)
    return state, [f"store {name}: {it}" for it in wrong], [f"store {name}: {it}" for it in notes], books


# ---- all of it


def look():
    wrong, notes, lines, proxy_state = [], [], {}, {"runs": None, "certificate_days": None}
    # To run such a command again mends much of what else is wrong, so this is what the operator reads first.
    with told(wrong):
        wrong, notes = pending()
    has_begun = bool(wrong or notes)
    with told(wrong):
        lines = proxy.book_lines()
    with concurrent.futures.ThreadPoolExecutor(16) as pool:
        of_proxy = pool.submit(state_of_proxy, has_begun)
        looked = list(pool.map(lambda name: state_of(name, lines), store_names()))
        with told(wrong, "the proxy: "):
            proxy_state, more_wrong, more_notes = of_proxy.result()
            wrong += more_wrong
            notes += more_notes
    for _, more_wrong, more_notes, _ in looked:
        wrong += more_wrong
        notes += more_notes
    found, disks = {state["store"]: books for state, _, _, books in looked}, {}
    with told(wrong):
        more_wrong, more_notes = faults_of_books(lines, found)
        wrong += more_wrong
        notes += more_notes
    with told(wrong):
        notes += [*unsound_states(), *removed_books_that_are_back(found)]
    wrong += faults_of_key()
    with told(wrong):
        disks, more_wrong = faults_of_disks()
        wrong += more_wrong
    if not store_names():
        wrong.append(f"there is no store in {SETTINGS}/stores")
    return {
        "stores": [state for state, *_ in looked], "lines": len(lines), "exchanged_keys": len(proxy.exchanges()),
        "proxy": proxy_state, "disks": disks, "notes": notes, "wrong": wrong,
    }


def in_text(told):
    for it in told["stores"]:
        copy, offsite = it.get("copy"), it.get("offsite")
        parts = [f"{it['store']} at {it.get('address', '?')}"]
        if it.get("elsewhere"):
            parts.append("served by another machine")
        elif it.get("here"):
            parts.append("answers" if it.get("answers") else "DOES NOT ANSWER")
            parts.append("and through the proxy" if it.get("answers_through_proxy") else "not asked through the proxy"
                         if it.get("answers_through_proxy") is None else "NOT THROUGH THE PROXY")
        if "rows" in it:
            parts.append(f"{it['books']:,} books, {it['pledges']:,} pledges, {it['rows']:,} of {it['limit']:,} rows, "
                         f"{it['bytes']:,} bytes and {it['log_bytes']:,} of log")
        if it.get("here"):
            parts.append(f"newest copy {copy['name']} ({copy['hours']} hours)" if copy else "no copy")
            parts.append(f"newest off this machine {offsite['hours']} hours" if offsite else "none off this machine")
        yield "; ".join(parts)
    days = told["proxy"]["certificate_days"]
    yield (f"proxy: {'runs' if told['proxy']['runs'] else 'DOES NOT RUN'}; "
           f"{'no certificate' if days is None else f'certificate: {days} days'}; {told['lines']} books with a line; "
           f"{told['exchanged_keys']} exchanged keys")
    for folder, disk in told["disks"].items():
        yield f"{folder}: {disk['free']:,} of {disk['bytes']:,} bytes free"
    yield from (f"note: {line}" for line in told["notes"])
    yield from (f"WRONG: {line}" for line in told["wrong"])


def status(as_json=False):
    """The verb `status`: it ends with 1 if something keeps a broker from working."""
    told = look()
    print(json.dumps(told, indent=1) if as_json else "\n".join(in_text(told)), flush=True)
    return 1 if told["wrong"] else 0
