"""A store on three machines, as docs/REPLICATED.md sets it up: the commands that stop the store, power cuts, lines that
are cut under load and while no client asks, and one machine after the other started anew. Every acknowledged change is
looked up afterwards.

A number on the command line says how many rounds there are, and a second one the seed. Then two machines are cut off at
once, too, and a machine hangs."""
import contextlib
import os
import random
import sys
import tempfile
import time

from tests.library.checks import expect, main, not_tried
from tests.library.filled_stores import fill_store
from tests.library.keys import BROKER
from tests.library.operator.documented import DEPLOYING, commands
from tests.library.operator.first_day import ask, put_certbot, reach
from tests.library.operator.packages import make_folder
from tests.library.operator.replicated import (
    REPLICATED, Load, Machine, at_once, await_healed, await_serving, coming_back, expect_well, put_store, serving, three_machines,
    why_not,
)

NUMBERS = [int(word) for word in sys.argv[1:] if word.isdigit()]
ROUNDS = NUMBERS[0] if NUMBERS else 1
DRAW = random.Random(NUMBERS[1] if len(NUMBERS) > 1 else 1)
# Within so many seconds another machine acknowledges changes. Usually it takes 12 to 15.
TAKEN_OVER = 60
LARGE = 100_000


def a_machine_may_be_lost():
    with tempfile.TemporaryDirectory() as room:
        packages = make_folder(room)
        begun = time.monotonic()
        with three_machines(packages) as machines:
            print(f"        three machines: {time.monotonic() - begun:.0f} s", flush=True)
            with open(f"{machines[0].root}/root/7.key") as file:
                load = Load(7, file.read().strip())
            terms(load)
            it, pid = serving(machines)
            expect("the user of the store", it.run(f"stat -c %U /proc/{pid}").strip(), "pawnd-main")
            with load:
                load.await_more()
                losses = three_power_cuts, two_lines_under_load, a_line_while_nobody_asks, each_started_anew
                rare = (two_lines_at_once, a_machine_that_hangs) if NUMBERS else ()
                for step in (what_stops_the_store, a_start_while_another_serves, *losses * ROUNDS, *rare):
                    begun, before = time.monotonic(), load.acknowledged()
                    step(machines, load)
                    expect_well(machines)
                    print(f"        {step.__name__.replace('_', ' ')}: {load.acknowledged() - before} changes in "
                          f"{time.monotonic() - begun:.0f} s", flush=True)
                load.await_more()
            load.look_up()
            print(f"        {load.acknowledged()} acknowledged changes looked up", flush=True)
            the_copies_are_alike(machines)
            without_its_folder(machines[0])
            two_machines_are_lost_for_good(machines, load)


def a_large_store():
    """For how long a store of many pledges is away when its machine loses its power: with a log of some megabytes, and
    with one that was folded just before."""
    with tempfile.TemporaryDirectory() as room:
        packages, path = make_folder(room), os.path.join(room, "books.db")
        fill_store(path, 1, LARGE)
        with three_machines(packages) as machines:
            put_store(machines, path)
            load = Load(1, BROKER)
            with load:
                for what in ("as it is", "folded", "as it is", "folded"):
                    load.await_more(200, 600)
                    it, _ = await_serving(machines)
                    if what == "folded":
                        it.run("systemctl restart pawnd@main")
                        load.await_more(1, 600)
                    log, at = it.run("stat -c %s /var/lib/pawnd/main/books.db-wal").strip(), time.monotonic()
                    it.lose_power()
                    await_takeover(load, f"{LARGE:,} pledges, a log {what} of {int(log):,} bytes", at)
                    with coming_back(machines, load):
                        it.get_power()
            load.look_up()


def terms(load):
    body = {"keep_after": 0, "keep_before": 0, "rate": 0, "version": 1}
    expect("the terms", load.tills[0].insist("/terms", body), {"version": 1})


def await_takeover(load, what, at):
    load.await_more(5, TAKEN_OVER)
    print(f"          {what}: no change for {load.longest_pause(at):.1f} s", flush=True)


def what_stops_the_store(machines, load):
    """On the machine that serves it: a copy is put back, a book leaves, and a book goes to a store of its own, which moves
    to a fourth machine that all three reach. On another machine the commands are refused."""
    it, _ = await_serving(machines)
    others = [other for other in machines if other is not it]
    it.run("for n in 8 9; do pawnd-admin book $n --name Street --key-to /root/$n.key; done")
    for words in ("restore main newest", "split main east 8", "remove-book 9", "book 10 --name Street --key-to /root/10.key"):
        told = others[0].run(f"pawnd-admin {words} 2>&1", wanted=1)
        expect(f"{words} on another machine: {told}", "another machine serves the store main" in told, True)
    it.run("pawnd-admin remove-book 9")
    load.await_more(3)
    with load.quiet():
        told = it.run("sleep 1; pawnd-admin copy main; pawnd-admin restore main newest; ss -Hltn 'sport = :8101'")
        expect(f"it is served when the command says so: {told}", "LISTEN" in told, True)
    load.await_more(3)
    with contextlib.ExitStack() as stack:
        fourth = stack.enter_context(Machine(4, it.packages, stack))
        put_certbot(fourth)
        reach(it, fourth)
        fourth.run("cp /root/packages/*.deb /root/")
        prepare, away, there, tell, *_ = (
            block.replace("10.0.0.3", "10.0.0.4") for block in commands(DEPLOYING, "A second machine"))
        _, _, admit, bring = commands(REPLICATED, "Each day")
        first, link, last = prepare.replace("10.0.0.1", it.address).partition("ln -s")
        fourth.run(first + admit + link + last)
        seen = fourth.run("timeout 60 mount -t glusterfs 10.0.0.1:/books /mnt >/dev/null 2>&1 || true; ls -A /mnt")
        expect("what a machine that is none of the three sees of the volume", seen, "")
        it.run("pawnd-admin split main east 8")
        it.run(away)
        fourth.run(there)
        it.run(tell)
        for other in others:
            other.run(bring.replace("10.0.0.1", it.address))
        for other in machines:
            other.run(f"cat >/root/8.key <<<'{it.run('cat /root/8.key').strip()}'")
            expect(f"book 8 by way of {other.name}", ask(other, "/books/8/pledges/1", key="/root/8.key", trusted=False)[1],
                   '{"code":403,"name":"NoSuchPledge"}')
            told = other.run("pawnd-admin status || true")
            expect("what is wrong", [line for line in told.splitlines() if line.startswith("WRONG")], [])
        load.await_more(3)
    it.run("rm /etc/pawnd/stores/east.conf; : >/etc/pawnd/books.map; pawnd-admin reload")
    for other in others:
        other.run("rm /etc/pawnd/stores/east.conf; " + bring.replace("10.0.0.1", it.address))


def a_start_while_another_serves(machines, load):
    """It is refused, and the operator is not informed. If the store ends where it is served, the operator is."""
    it, _ = await_serving(machines)
    other = next(other for other in machines if other is not it)
    for one in (it, other):
        one.run("printf '#!/bin/sh\\necho $1 >>/root/told\\n' >/etc/pawnd/on-failure; chmod 755 /etc/pawnd/on-failure; : >/root/told")
    other.run("systemctl start pawnd@main || true")
    other.until("[ $(systemctl is-active pawnd@main) = failed ] && ! systemctl list-jobs --no-legend | grep -q pawnd")
    expect("why", "fault 503 Store" in other.journal("pawnd@main"), True)
    it.run("systemctl kill --kill-whom=main -s KILL pawnd@main")
    it.until("grep -q pawnd@main.service /root/told")
    expect("whom the other machine told", other.run("cat /root/told"), "")
    load.await_more()


def three_power_cuts(machines, load):
    """Of the machine that serves, at a random moment."""
    for _ in range(3):
        time.sleep(DRAW.random() * 2)
        (it, _), at = await_serving(machines), time.monotonic()
        it.lose_power()
        await_takeover(load, f"{it.name} lost its power", at)
        with coming_back(machines, load):
            it.get_power()


def two_lines_under_load(machines, load):
    for _ in range(2):
        time.sleep(DRAW.random() * 2)
        (it, _), at = await_serving(machines), time.monotonic()
        it.line(False)
        await_takeover(load, f"the line of {it.name} was cut", at)
        whole_again(machines, load, it)


def a_line_while_nobody_asks(machines, load):
    """The machine that is cut off does not hear of it by a change that fails."""
    with load.quiet():
        time.sleep(1)
        (it, _), at = await_serving(machines), time.monotonic()
        it.line(False)
        time.sleep(5)
    await_takeover(load, f"the line of {it.name} was cut while no client asked", at)
    whole_again(machines, load, it)


def two_lines_at_once(machines, load):
    """The machine that serves is left alone: nothing is acknowledged, and the store is stopped until two machines reach
    each other again."""
    it, _ = await_serving(machines)
    first, second = [other for other in machines if other is not it]
    first.line(False), second.line(False)
    it.until("! ss -Hltn 'sport = :8101' | grep -q LISTEN")
    before = load.acknowledged()
    time.sleep(5)
    expect("what one machine acknowledges", load.acknowledged(), before)
    expect("who serves", serving(machines), (None, None))
    at = time.monotonic()
    first.line(True)
    await_takeover(load, "two machines reached each other again", at)
    with coming_back(machines, load):
        second.line(True)


def a_machine_that_hangs(machines, load):
    """Its kernel keeps its lines and its locks, so no other machine serves until it is switched off."""
    it, _ = await_serving(machines)
    it.run("kill -STOP -1")
    time.sleep(20)
    expect("who else serves", [other.serves() for other in machines if other is not it], [None, None])
    at = time.monotonic()
    it.lose_power()
    await_takeover(load, f"{it.name} hung, and was switched off", at)
    with coming_back(machines, load):
        it.get_power()


def whole_again(machines, load, it):
    expect("the machine that was cut off serves", it.serves(), None)
    with coming_back(machines, load):
        it.line(True)


def each_started_anew(machines, load):
    """One after the other, the one that serves last."""
    last, _ = serving(machines)
    for it in (*(it for it in machines if it is not last), last):
        at = time.monotonic()
        it.run("systemctl poweroff")
        it.nspawn.communicate(timeout=60)
        load.await_more(5)
        with coming_back(machines, load):
            it.boot()
        print(f"          {it.name} was started anew: no change for {load.longest_pause(at):.1f} s", flush=True)


def the_copies_are_alike(machines):
    """The page's commands for each day, the last of which stops the store: the three copies come to be byte for byte the
    same."""
    look, stop, _, bring = commands(REPLICATED, "Each day")
    machines[0].run(look)
    for it in machines[1:]:
        it.run(bring)
    at_once(lambda it: it.run(stop), *((it,) for it in machines))
    end = time.monotonic() + 60
    while True:
        sums = [it.run("sha256sum /srv/brick/books/books.db /srv/brick/books/books.db-wal") for it in machines]
        if len(set(sums)) == 1 or time.monotonic() > end:
            break
        time.sleep(1)
    expect("the three copies", len(set(sums)), 1)
    await_healed(machines)


def without_its_folder(it):
    """Where the folder is not mounted the store does not start, and no empty one is made."""
    told = it.run("systemctl start pawnd@main 2>&1", wanted=1)
    expect(f"what it says: {told}", "Assertion failed" in told, True)
    expect("what is in the folder", it.run("ls -A /var/lib/pawnd/main"), "")


def two_machines_are_lost_for_good(machines, load):
    """The third one goes on alone by the page's commands, with every acknowledged change."""
    at_once(lambda it: it.run("systemctl start pawnd-replicated@main"), *((it,) for it in machines))
    expect_well(machines, within=120)
    again = Load(load.tills[0].book, load.tills[0].key)
    for till, before in zip(again.tills, load.tills):
        till.pledges, till.entries, till.sent = before.pledges, before.entries, before.sent
    with again:
        again.await_more()
        it, _ = await_serving(machines)
        first, last = [other for other in machines if other is not it]
        first.lose_power()
        again.await_more()
        it.lose_power()
        last.until("! systemctl -q is-active pawnd@main && pawnd-admin status | grep -q 'Two machines lost for good'", 120)
        told = [line for line in last.run("pawnd-admin status", wanted=1).splitlines() if line.startswith("WRONG")]
        expect(f"what is wrong: {told}", len(told), 2)
        check, alone, remove = commands(REPLICATED, "Two machines lost for good")
        expect("the check", "books 1 pledges" in last.run(check), True)
        last.run(alone)
        again.await_more()
        # These folders are disks of the test's.
        last.run(remove.replace("/var/lib/glusterd ", "/var/lib/glusterd/* "))
        again.await_more()
    again.look_up()
    told = last.run("pawnd-admin status || true")
    expect("what is wrong", [line for line in told.splitlines() if line.startswith("WRONG")], [])


if __name__ == "__main__":
    if why := why_not():
        not_tried("all of it", why)
        main()
    main(a_machine_may_be_lost, *([a_large_store] if NUMBERS or "a_large_store" in sys.argv else []))
