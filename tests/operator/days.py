"""The commands of docs/DEPLOYING.md and docs/OPERATING.md on Debians that run systemd, as they are written: the copies
of the first week, and the bad days."""
import os
import re
import tempfile

from tests.library.checks import expect
from tests.library.operator.booted import Booted, main_booted, steps
from tests.library.operator.documented import DEPLOYING, OPERATING, command, commands
from tests.library.operator.first_day import answers_again, ask, enter, first_day, with_terms
from tests.library.operator.packages import make_folder


def bad_days():
    with tempfile.TemporaryDirectory() as room, Booted(make_folder(room)) as one:
        first_day(one, f"{room}/packages/pawnd_0.0.1_amd64.deb")
        with_terms(one)
        steps(
            (one,),
            a_disk_without_room,
            a_store_that_does_not_start,
            a_leaked_key,
            one_book_put_back,
            a_broker_who_leaves,
            the_clock_and_the_monitor,
            copies_every_ten_minutes,
        )
        told = one.run("pawnd-admin status || true")
        expect("what is wrong at the end", [line for line in told.splitlines() if line.startswith("WRONG")], [])


def copies_every_ten_minutes(one):
    one.run(command(DEPLOYING, "Copies", "often.conf"))
    due = one.run("systemctl show -P TimersCalendar pawnd-copy@main.timer")
    # What is next due may be 03:00, which the package's timer has.
    expect("when copies are due", re.findall(r"OnCalendar=(.*?) ;", due), ["*-*-* *:00/10:00"])
    expect("how many are kept", one.run("grep ^KEEP= /etc/pawnd/pawnd.conf").strip(), "KEEP=150")


def a_disk_without_room(one):
    """The page's command removes all copies but the newest seven."""
    one.run("cd /var/backups/pawnd/main; for it in 1 2 3 4 5 6 7 8 9; do cp -a \"$(ls -d 2*Z | tail -n 1)\" 2026010${it}T000000Z; done")
    before = one.run("ls /var/backups/pawnd/main").split()
    one.run(command(OPERATING, "A full disk", "df -h"))
    expect("the newest seven", one.run("ls /var/backups/pawnd/main").split(), before[-7:])


def a_store_that_does_not_start(one):
    """Its file is spoilt; the newest copy is put back."""
    expect("pledge 2", enter(one, 2)[0], 200)
    one.run("sleep 1; systemctl start pawnd-copy@main; systemctl stop pawnd@main")
    one.run("seq 3000 | dd of=/var/lib/pawnd/main/books.db conv=notrunc 2>&1; rm -f /var/lib/pawnd/main/books.db-wal")
    one.run("systemctl start pawnd@main || true")
    look, _, restore = commands(OPERATING, "A store does not start")
    one.until(f"{look.strip()} | grep -q 'fault 50'")
    expect("what it said", "fault 50" in one.run(look), True)
    one.until("[ $(journalctl -u pawnd@main -o cat --grep 'Failed with result' | wc -l) -gt 1 ]", within=300)
    for _ in range(5):
        told = one.run("pawnd-admin status; sleep 0.3", wanted=None)
        expect(f"what is wrong: {told}", ("its service keeps ending" in told, "being started" in told), (True, False))
    one.run(restore)
    answers_again(one)
    expect("what was in the copy", ask(one, "/books/7/pledges/2")[0], 200)


def a_leaked_key(one):
    expect("by the old key before", ask(one, "/books/7/pledges/1")[0], 200)
    one.run(command(OPERATING, "A leaked key", "new-key"))
    expect("by the new key", ask(one, "/books/7/pledges/1", key="/root/7.key.new")[0], 200)
    expect("by the leaked one", ask(one, "/books/7/pledges/1")[0], 404)
    expect("who can read it", one.run("stat -c '%a %U' /etc/pawnd/keys.map").split(), ["600", "root"])
    one.run("mv /root/7.key.new /root/7.key")


def one_book_put_back(one):
    """Another broker's book is not touched."""
    one.run("pawnd-admin book 8 --name 'Low Street' --key-to /root/8.key")
    with_terms(one, 8, "/root/8.key")
    one.run("sleep 1; systemctl start pawnd-copy@main")
    told = one.run(command(OPERATING, "490, a full store", "copy.json"))
    expect("how many rows each book has", re.findall(r'"(\d+)": \{\s+"rows": (\d+),', told), [("7", "6"), ("8", "4")])
    expect("spoilt", (enter(one, 3)[0], enter(one, 2, 8, "/root/8.key")[0]), (200, 200))
    copy = one.run(command(OPERATING, "One book put back", "grep -l")).split()[-1]
    one.run(command(OPERATING, "One book put back", "restore-book").replace("FOLDER", os.path.dirname(copy)))
    answers_again(one)
    expect("the book is as in the copy", [ask(one, f"/books/7/pledges/{number}")[0] for number in (2, 3)], [200, 404])
    expect("the other book has all", ask(one, "/books/8/pledges/2", key="/root/8.key")[0], 200)
    expect("it goes on", enter(one, 3)[0], 200)
    # What this enables has nowhere to send to on this machine.
    one.run(command(OPERATING, "One book put back", "pawnd-offsite") + "systemctl disable --now pawnd-offsite@back.timer")


def a_broker_who_leaves(one):
    one.run(command(OPERATING, "A broker who leaves", "remove-book"))
    expect("the book is gone", ask(one, "/books/7/pledges/1")[0], 404)
    answers_again(one, target="/books/8/pledges/1", key="/root/8.key")
    expect("its last copy", bool(one.run("ls /var/backups/pawnd/removed").split()), True)
    one.run(command(OPERATING, "A store without books", "stores/back.conf"))
    expect("the stores", one.run("ls /etc/pawnd/stores").split(), ["main.conf"])
    answers_again(one, target="/books/8/pledges/1", key="/root/8.key")


def the_clock_and_the_monitor(one):
    one.run(command(OPERATING, "A wrong clock", "timedatectl"), wanted=None)
    said = one.run(command(OPERATING, "What to watch", "curl").replace("curl -s", "curl -sk --resolve books.example.org:443:127.0.0.1"))
    expect("what a monitor gets", said, '{"code":712,"name":"NoReceipt"}')


if __name__ == "__main__":
    main_booted(bad_days)
