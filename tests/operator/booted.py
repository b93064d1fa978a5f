"""The first day and the units on a Debian that runs systemd: the package is installed by the commands of
docs/DEPLOYING.md, a book is served through TLS, and the units are started, stopped and killed."""
import os
import re
import tempfile
import time

from tests.library.checks import expect
from tests.library.operator.booted import BARE, Booted, main_booted
from tests.library.operator.first_day import answers_again, ask, enter, first_day, with_terms
from tests.library.operator.packages import make_package


def the_first_day_and_what_may_happen():
    with tempfile.TemporaryDirectory() as room:
        package = make_package(room)
        with Booted(room, debian=BARE) as one:
            begun = time.monotonic()
            told = first_day(one, package)[0]
            expect("what the installation complains of", re.findall("Failed.*pawnd.*", told), [])
            with_terms(one)
            print(f"        from a bare Debian to a pledge through TLS: {time.monotonic() - begun:.0f} s", flush=True)
            for step in (
                nothing_else_was_edited,
                what_systemd_says,
                killed_and_stopped,
                a_port_of_its_own,
                a_store_that_is_not_there,
                a_file_that_is_no_store,
                a_store_that_is_open_elsewhere,
                who_is_told,
                copies_by_their_unit,
                another_operators_key,
                a_boot_after_the_power_was_cut,
            ):
                begun = time.monotonic()
                step(one)
                print(f"        {step.__name__.replace('_', ' ')}: {time.monotonic() - begun:.1f} s", flush=True)


def nothing_else_was_edited(one):
    """The package's files are as they were, since the name of the page's example is the package's own."""
    expect("what differs from the package", one.run("dpkg --verify pawnd"), "")


def what_systemd_says(one):
    # The timer may have looked before the first day was at its end.
    one.run("systemctl start pawnd-status")
    expect("no unit failed", one.run("systemctl --failed --no-legend"), "")
    expect("its user", one.run(f"stat -c %U /proc/{main_process(one)}").strip(), "pawnd-main")
    expect(
        "what is due",
        sorted(set(re.findall(r"pawnd-[\w@]+\.timer", one.run("systemctl list-timers --no-pager --no-legend")))),
        ["pawnd-copy@main.timer", "pawnd-status.timer"],
    )
    expect("what systemd complains of", one.complaints(), [])
    expect("the state", one.run("pawnd-admin status | grep -c WRONG || true").strip(), "0")
    expect("who may read the books", one.run("stat -c '%a %U' /var/lib/pawnd/main /etc/pawnd/operator.key").split(),
           ["700", "pawnd-main", "600", "root"])


def main_process(one, store="main"):
    return one.state(f"pawnd@{store}", "MainPID")[0]


def killed_and_stopped(one):
    """Each time the store is there again, and holds what was acknowledged."""
    for number, name in enumerate(("KILL", "TERM", "ABRT"), 2):
        before = main_process(one)
        expect(f"pledge {number}", enter(one, number)[0], 200)
        one.run(f"systemctl kill --kill-whom=main -s {name} pawnd@main")
        answers_again(one)
        expect(f"another process after {name}", main_process(one) != before, True)
        expect(f"what was acknowledged before {name}", ask(one, f"/books/7/pledges/{number}")[0], 200)
    one.run("systemctl stop pawnd.target; while [ $(systemctl is-active pawnd@main) = deactivating ]; do sleep 0.1; done")
    expect("all are stopped together", one.state("pawnd@main", "ActiveState"), ("inactive",))
    status, said = ask(one, "/books/7/pledges/1")
    expect("meanwhile", (status, said), (503, '{"proxy":503,"handed_on":false}'))
    one.run("systemctl start pawnd.target")
    answers_again(one)


# What tries to take a port, and to be heard on it, as the user of the store.
LISTENER = """import socket, sys
it = socket.create_server(("127.0.0.1", int(sys.argv[1])))
it.settimeout(6)
try:
    peer, _ = it.accept()
    print("heard", peer.recv(99))
except TimeoutError:
    print("nothing")
"""


def a_port_of_its_own(one):
    """An intruder in a store's service who listens on a neighbour's port is sent nothing."""
    path = os.path.join(one.root, "root/listener.py")
    with open(path, "w") as it:
        it.write(LISTENER)
    listen = (
        "cp /root/listener.py /tmp/; runuser -u {user} -- python3 /tmp/listener.py 8102 & "
        "for it in $(seq 100); do if ss -Hltn 'sport = :8102' | grep -q .; then break; fi; sleep 0.1; done; "
        "python3 -c 'import socket; s = socket.create_connection((\"127.0.0.1\", 8102), timeout=3); "
        "s.sendall(b\"Pledge-Key: secret\")' || true; wait"
    )
    expect("the test can hear", "heard" in one.run(listen.format(user="nobody")), True)
    for before in ("true", "systemctl start nftables; systemctl reload nftables"):
        one.run(before)
        told = one.run(listen.format(user="pawnd-main"))
        expect(f"what the store's user hears on another port after `{before}`", "nothing" in told, True)
    one.run("nft flush ruleset")
    said = one.run("pawnd-admin status", wanted=1)
    expect(f"what the state says without the rule: {said}", "its rule in nftables is gone" in said, True)
    one.run("systemctl reload pawnd@main; pawnd-admin status")
    answers_again(one)


def a_store_that_is_not_there(one):
    """A service makes no store: where there is none it does not start, and says so."""
    one.run("systemctl stop pawnd@main; mv /var/lib/pawnd/main/books.db /root/")
    told = one.run("systemctl start pawnd@main 2>&1", wanted=1)
    expect("what it says", "Assertion failed" in told, True)
    expect("no store was made", one.run("ls /var/lib/pawnd/main").split(), ["books.db-wal"])
    told = one.run("pawnd-admin status", wanted=1)
    expect("what the state says", "WRONG" in told and "main" in told, True)
    one.run("mv /root/books.db /var/lib/pawnd/main/; systemctl start pawnd@main")
    answers_again(one)


def a_file_that_is_no_store(one):
    """It is refused, tried again, and left as it is. The first start may or may not be seen to fail: the program ends at
    once."""
    one.run(
        "systemctl stop pawnd@main; mkdir /root/good; mv /var/lib/pawnd/main/books.db* /root/good; "
        "seq 2000 | install -o pawnd-main -g pawnd-main -m 600 /dev/stdin /var/lib/pawnd/main/books.db; "
        "systemctl start pawnd@main || true"
    )
    # It is tried again.
    one.until("[ $(systemctl show -P NRestarts pawnd@main) -ge 1 ]")
    one.until("journalctl -u pawnd@main -n 20 -o cat --no-pager | grep -q 'fault 50'")
    one.run("systemctl stop pawnd@main; seq 2000 | cmp - /var/lib/pawnd/main/books.db")
    one.run("rm /var/lib/pawnd/main/books.db*; mv /root/good/* /var/lib/pawnd/main/; systemctl start pawnd@main")
    answers_again(one)


def a_store_that_is_open_elsewhere(one):
    """Another process has it open. The page's commands find out that the store is sound, and the process."""
    from tests.library.operator.documented import OPERATING, command

    one.run("systemctl stop pawnd@main; install -o pawnd-main -m 400 /etc/pawnd/operator.key /run/key; "
            "systemd-run -q --unit=other -p User=pawnd-main pawnd serve /var/lib/pawnd/main/books.db 8199 /run/key")
    one.until("ss -Hltn 'sport = :8199' | grep -q .")
    one.run("systemctl start pawnd@main || true")
    one.until("journalctl -u pawnd@main -n 20 -o cat --no-pager | grep -q 'fault 503'")
    one.run("systemctl stop pawnd@main; sleep 1; pawnd-admin copy main")
    found = one.run(command(OPERATING, "A store does not start", "ls -l"))
    expect(f"the process: {found}", f"/proc/{one.state('other', 'MainPID')[0]}/" in found, True)
    one.run("pawnd-admin restore main newest >/root/said 2>&1 & "
            "for it in $(seq 100); do if [ $(wc -l </root/said) -ge 1 ]; then break; fi; sleep 0.1; done; "
            "cp /root/said /root/at-first; systemctl stop other; wait")
    told = one.run("cat /root/at-first")
    expect(f"what `restore` says at once: {told}", "is still open in a program" in told, True)
    one.run("systemctl start pawnd@main")
    answers_again(one)


def who_is_told(one):
    """By the commands of the page: of a store that ends as it should not, and of what the state finds."""
    from tests.library.operator.documented import DEPLOYING, command

    one.run("printf '#!/bin/sh\\ncat >>/root/mails; echo \"$@\" >>/root/mails\\n' >/usr/local/bin/mail; chmod +x /usr/local/bin/mail")
    one.run(command(DEPLOYING, "Messages about problems", "on-failure"))
    one.run(command(DEPLOYING, "Messages about problems", "pawnd-failed@"))
    expect("the mail of the trial", "pawnd: pawnd-status failed" in one.run("cat /root/mails"), True)
    one.run("systemctl kill --kill-whom=main -s KILL pawnd@main; until grep -q 'pawnd@main.service failed' /root/mails; do sleep 0.2; done")
    answers_again(one)
    one.run("systemctl stop nginx; systemctl start pawnd-status || true")
    one.run("until grep -q 'pawnd-status.service failed' /root/mails; do sleep 0.2; done; systemctl start nginx")
    one.run("rm /etc/pawnd/on-failure; systemctl reset-failed; systemctl start pawnd-status")


def copies_by_their_unit(one):
    """A copy by its unit, and one that is killed at any moment: the next one is good, and nothing is left of it."""
    before = one.run("ls /var/backups/pawnd/main").split()
    one.run("sleep 1; systemctl start pawnd-copy@main")
    expect("a copy", len(one.run("ls /var/backups/pawnd/main").split()), len(before) + 1)
    for pause in ("0", "0.1", "0.3"):
        one.run(f"systemctl start --no-block pawnd-copy@main; sleep {pause}; systemctl kill -s KILL pawnd-copy@main || true")
        answers_again(one)
    one.run("until systemctl show -P ActiveState pawnd-copy@main | grep -qE 'inactive|failed'; do sleep 0.1; done")
    one.run("systemctl reset-failed; sleep 1; systemctl start pawnd-copy@main")
    expect("what is left", one.run("ls -A /var/backups/pawnd/main | grep -c part || true").strip(), "0")


def another_operators_key(one):
    """It is changed by the commands of the page, and holds at once for all stores."""
    from tests.library.operator.documented import OPERATING, command

    before = main_process(one)
    one.run(command(OPERATING, "The operator's key", "operator.key"))
    answers_again(one)
    expect("another process", main_process(one) != before, True)


def a_boot_after_the_power_was_cut(one):
    expect("pledge 9", enter(one, 9)[0], 200)
    one.cut()
    one.boot()
    answers_again(one)
    expect("what was acknowledged before", ask(one, "/books/7/export")[1].count(",A9,"), 1)
    expect("no unit failed", one.run("systemctl --failed --no-legend"), "")
    expect("the timers", one.run("systemctl is-active pawnd-copy@main.timer pawnd-status.timer").split(), ["active"] * 2)


if __name__ == "__main__":
    main_booted(the_first_day_and_what_may_happen)
