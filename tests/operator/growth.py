"""Growth by the commands of docs/DEPLOYING.md on Debians that run systemd: a second store, a store that is divided, and a
store that goes to a second machine, is divided there, and is put back when that machine is lost."""
import re
import tempfile

from tests.library.checks import expect
from tests.library.operator.booted import Booted, main_booted, steps
from tests.library.operator.documented import DEPLOYING, OPERATING, command, commands
from tests.library.operator.first_day import (
    answers_again, ask, carry_passphrase, enter, first_day, put_certbot, reach, with_terms,
)
from tests.library.operator.packages import make_folder, make_package


AWAY = '{"proxy":503,"handed_on":false}'


def growth():
    with tempfile.TemporaryDirectory() as room:
        folder = make_folder(room)
        with Booted(folder) as one, Booted(folder, "second") as second:
            one.line_to(second, "10.0.0.1", "10.0.0.3")
            first_day(one, f"{folder}/pawnd_0.0.1_amd64.deb")
            with_terms(one)
            steps((one, second), a_second_store, a_full_store_is_divided, a_second_machine, a_boot_there,
                  a_division_there, an_upgrade_there,
                  a_store_that_comes_back, a_lost_second_machine)


def a_second_store(one, second):
    for block in commands(DEPLOYING, "A second store")[:2]:
        one.run(block)
    with_terms(one, 10, "/root/10.key")
    expect("it is in the new store", "10 east;" in one.run("cat /etc/pawnd/books.map"), True)


def a_full_store_is_divided(one, second):
    for block in commands(DEPLOYING, "A second store")[2:]:
        one.run(block)
    answers_again(one)
    expect("it has all", (ask(one, "/books/7/pledges/1")[0], enter(one, 2)[0]), (200, 200))
    expect("its store", "7 east2;" in one.run("cat /etc/pawnd/books.map"), True)


def a_second_machine(one, second):
    put_certbot(second)
    reach(one, second)
    prepare, away, there, tell, *_ = commands(DEPLOYING, "A second machine")
    second.run("cp /root/packages/*.deb /root/")
    second.run(prepare)
    one.run(away)
    second.run(there)
    one.run(tell)
    answers_again(one, target="/books/10/pledges/1", key="/root/10.key")
    expect("it goes on there", enter(one, 2, 10, "/root/10.key")[0], 200)
    one.run("pawnd-admin book 13 --store east --name 'Next Street' --key-to /root/13.key")
    expect("a new book there", ask(one, "/books/13/pledges/1", key="/root/13.key")[0], 404)
    stranger = one.run("ip address add 10.0.0.9/24 dev to-second; curl -s --interface 10.0.0.9 -o /dev/null -w '%{http_code}' "
                       "http://10.0.0.3:8103/books/10/held")
    expect("no caller but the proxy reaches the relay", stranger, "403")
    told = one.run("pawnd-admin status || true")
    expect("what is wrong", [it for it in told.splitlines() if re.match("WRONG(?!.*certificate|.* sent off this machine)", it)], [])
    second.run("pawnd-admin status")
    again = second.run("pawnd-admin copy east; pawnd-admin restore east newest 2>&1")
    expect("it says nothing of a store that is not there", "nobody reaches" in again, False)
    answers_again(one, target="/books/10/pledges/2", key="/root/10.key")
    second.run("cd /root; apt-get -y reinstall ./pawnd_*_amd64.deb")
    answers_again(one, target="/books/10/pledges/2", key="/root/10.key")
    second.run("pawnd-admin status; pawnd-admin remove-book 13; pawnd-admin status")
    expect("a book that left", ask(one, "/books/13/pledges/1", key="/root/13.key")[0], 404)
    said = one.run("pawnd-admin book 13 --store east --name 'Other Street' --key-to /root/13.key.again 2>&1", wanted=1)
    expect(f"its number: {said}", "taken out there and may come back" in said, True)
    answers_again(one, target="/books/10/pledges/2", key="/root/10.key")


def a_boot_there(one, second):
    """The private line is up only after nginx has started. The relay answers then all the same."""
    second.cut()
    second.boot()
    expect("nginx without the line", second.run("systemctl is-active nginx || true").strip(), "active")
    # The kernel takes its time to remove the end of the line that was cut.
    one.until("! ip link show to-second 2>/dev/null")
    one.line_to(second, "10.0.0.1", "10.0.0.3")
    answers_again(one, target="/books/10/pledges/2", key="/root/10.key")


def a_division_there(one, second):
    """The relay passes a book to the store of the second machine that has it, and the first machine goes on as before."""
    one.run("pawnd-admin book 11 --store east --name 'Far Street' --key-to /root/11.key")
    with_terms(one, 11, "/root/11.key")
    before = one.run("cat /etc/pawnd/books.map /etc/pawnd/stores.conf")
    divide, timer = commands(DEPLOYING, "A second machine")[4:6]
    second.run(divide)
    answers_again(one, target="/books/11/pledges/1", key="/root/11.key")
    expect("both go on", (enter(one, 3, 10, "/root/10.key")[0], enter(one, 2, 11, "/root/11.key")[0]), (200, 200))
    expect("the map there", second.run("cat /etc/pawnd/books.map"), "11 west;\n")
    second.run("sleep 1; pawnd-admin copy east; pawnd-admin restore-book 10 $(ls -d /var/backups/pawnd/east/2*Z | tail -1) back")
    expect("a book that came back", ask(one, "/books/10/pledges/3", key="/root/10.key")[0], 200)
    expect("it goes on", enter(one, 4, 10, "/root/10.key")[0], 200)
    expect("the first machine's map", one.run("cat /etc/pawnd/books.map /etc/pawnd/stores.conf"), before)
    second.run("pawnd-admin status")
    second.run(timer)
    second.run("pawnd-admin remove-book 11")
    expect("a book that left", ask(one, "/books/11/pledges/1", key="/root/11.key")[0], 404)


def an_upgrade_there(one, second):
    """The units and the timers of all its stores are the new ones at once, and the stores go on behind the relay."""
    make_package(second.packages, "0.0.2", (
        ("deploy/systemd/pawnd@.service", "\n[Service]\nEnvironment=VERSION_TWO=yes\n"),
        ("deploy/systemd/pawnd-status.timer", "\n[Timer]\nOnUnitActiveSec=7min\n"),
        ("deploy/nginx/pawnd-relay.conf", "# Version two.\n"),
    ))
    second.run("mkdir /root/both; cp /root/packages/*.deb /root/both/")
    for block in commands(DEPLOYING, "Upgrade and way back")[:1]:
        second.run(block.replace("@main", "@east").replace("VERSION", "0.0.2"), folder="/root/both")
    for name in ("east", "back"):
        pid = second.state(f"pawnd@{name}", "MainPID")[0]
        expect(f"the unit of {name}", "VERSION_TWO" in second.run(f"tr '\\0' '\\n' </proc/{pid}/environ"), True)
    expect("the timer", "OnUnitActiveUSec=7min" in second.run("systemctl show -P TimersMonotonic pawnd-status.timer"), True)
    expect("no store main", second.run("ls /etc/pawnd/stores"), "back.conf\neast.conf\nwest.conf\n")
    answers_again(one, target="/books/10/pledges/4", key="/root/10.key")
    expect("what systemd complains of", second.complaints(), [])


def a_store_that_comes_back(one, second):
    """To the first machine, while a book that was in it stays in a store of the second one; and it goes there again."""
    _, away, there, tell, _, _, stop, stays, back = commands(DEPLOYING, "A second machine")
    # The books 11 and 13 were taken out on the second machine.
    before = one.run("sed -i '/^1[13] /d' /etc/pawnd/books.map; cat /etc/pawnd/books.map")
    second.run(stop)
    one.run(stays.replace("west", "back").replace("11 ", "10 "))
    one.run(back)
    one.run("pawnd-admin book 12 --store east --name 'Near Street' --key-to /root/12.key")
    with_terms(one, 12, "/root/12.key")
    answers_again(one, target="/books/12/pledges/1", key="/root/12.key")
    answers_again(one, target="/books/10/pledges/4", key="/root/10.key")
    told = one.run("pawnd-admin status || true")
    expect("what is wrong", [it for it in told.splitlines() if re.match("WRONG(?!.*certificate|.* sent off this machine)", it)], [])
    one.run("pawnd-admin remove-book 12")
    one.run("sleep 1\n" + away)
    second.run(there)
    one.run(tell)
    one.run(f"rm /etc/pawnd/stores/back.conf; echo '{before.strip()}' >/etc/pawnd/books.map; pawnd-admin reload")
    answers_again(one, target="/books/10/pledges/4", key="/root/10.key")


def both_send(one, second, standby, keys, begin):
    """The first machine sends to the same repository, with a key of its own, and the daily run there sees nothing amiss."""
    one.line_to(standby, "10.9.3.1", "10.9.3.2")
    one.run("echo 10.9.3.2 standby >>/etc/hosts")
    one.run(keys.splitlines()[0])
    line = standby.run("cat /var/lib/pawnd-received/.ssh/authorized_keys").rpartition(" ssh-ed25519 ")[0]
    public = one.run("cat /etc/pawnd/offsite.key.pub").strip()
    standby.run(f"echo '{line} {public}' >>/var/lib/pawnd-received/.ssh/authorized_keys")
    names = [it.split()[-1] for it in standby.run("cat /var/lib/pawnd-received/.ssh/authorized_keys").splitlines()]
    expect("whose key each line has", names, ["pawnd@second", "pawnd@one"])
    carry_passphrase(second, one)
    one.run("".join(it + "\n" for it in begin.splitlines() if "borg init" not in it))
    standby.start("pawnd-received")
    good = standby.run("tail -n 1 /var/lib/pawnd-received/copies/transactions").split()[1].rstrip(",")
    for it, store in ((second, "east"), (one, "main")):
        it.run(f"sleep 1; systemctl start pawnd-copy@{store}")
        it.start(f"pawnd-offsite@{store}")
    a_sending_is_undone(one, second, standby, good)
    standby.start("pawnd-received")


def a_sending_is_undone(one, second, standby, number):
    """By the page's commands. Afterwards each of the two machines sends again."""
    standby.run(command(OPERATING, "An intruder on the sending machine", "undo").replace("NUMBER", number))
    allow, begin = commands(OPERATING, "Sending again after an intruder")[:2]
    standby.run(allow)
    one.run(begin)
    second.run("sleep 1; systemctl start pawnd-copy@east")
    second.run(begin.replace("@main", "@east"))


def a_lost_second_machine(one, second):
    """Its stores are put back on a third machine, with its address, from what it had sent."""
    with Booted(one.packages, "standby") as standby, Booted(one.packages, "third") as third:
        second.line_to(standby, "10.9.1.1", "10.9.1.2")
        third.line_to(standby, "10.9.2.1", "10.9.2.2")
        second.run("echo 10.9.1.2 standby >>/etc/hosts")
        third.run("echo 10.9.2.2 standby >>/etc/hosts")
        keys, receiver, begin, *_ = commands(DEPLOYING, "Off the machine")
        public = second.run(keys).strip().splitlines()[-1]
        for machine in (standby, third):
            put_certbot(machine)
            machine.run("cp /root/packages/*.deb /root/")
        standby.run(receiver.replace("PUBLIC-KEY", public))
        standby.run("systemctl start ssh; chown -R pawnd-received: /var/lib/pawnd-received")
        carry_passphrase(second, standby)
        second.run("systemctl start pawnd-copy@back")
        second.run(begin.replace("@main", "@back"))
        second.start("pawnd-offsite@east")
        both_send(one, second, standby, keys, begin)
        one.run("pawnd-admin book 14 --store east --name 'Late Street' --key-to /root/14.key")
        second.cut()
        expect("the other stores go on", ask(one, "/books/7/pledges/1")[0], 200)
        one.line_to(third, "10.0.0.1", "10.0.0.3")
        reach(one, standby, third)
        prepare = commands(DEPLOYING, "A second machine")[0].splitlines()
        expect("the last two enable the relay", [it.split()[0] for it in prepare[-2:]], ["ln", "pawnd-admin"])
        third.run("\n".join(prepare[:-2]))
        expect("callers meanwhile", ask(one, "/books/10/pledges/4", key="/root/10.key"), (503, AWAY))
        take, fetch, restore, let_in, remove, made_later = commands(OPERATING, "A lost second machine")
        for name in ("east", "back"):
            standby.run(take.replace("east", name))
            third.run(fetch.replace("east", name))
        for name in ("east", "back"):
            third.run(restore.replace("east", name))
        third.run(let_in)
        standby.run(remove)
        expect("a book that left before", third.run("ls /var/backups/pawnd/removed/11-*Z | grep csv").strip(), "book.csv")
        answers_again(one, target="/books/10/pledges/4", key="/root/10.key")
        expect("it goes on there", enter(one, 5, 10, "/root/10.key")[0], 200)
        one.run(made_later + "pawnd-admin book 14 --store east --name 'Late Street' --key-to /root/14.key")
        with_terms(one, 14, "/root/14.key")
        third.run("pawnd-admin status")
        copies_every_ten_minutes(third)
        third.run("apt-get -y remove pawnd; nginx -t -q; apt-get -y purge pawnd; nginx -t -q; systemctl restart nginx")


def copies_every_ten_minutes(third):
    """By the page's lines, on a machine that has no store `main`: no timer is started for a store that is not there."""
    third.run(command(DEPLOYING, "Copies", "often.conf"))
    told = third.run("systemctl list-timers --no-pager --no-legend 'pawnd-copy@*'")
    timers = re.findall(r"pawnd-copy@\w+\.timer", told)
    expect("the stores of which copies are made", sorted(timers), ["pawnd-copy@back.timer", "pawnd-copy@east.timer"])
    for it in timers:
        due = third.run(f"systemctl show -P TimersCalendar {it}")
        expect(f"when {it} is due", re.findall(r"OnCalendar=(.*?) ;", due), ["*-*-* *:00/10:00"])


if __name__ == "__main__":
    main_booted(growth)
