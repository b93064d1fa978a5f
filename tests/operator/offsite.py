"""Copies off the machine by borg, between two Debians that run systemd, by the commands of the documents: a copy is sent
and counted, the first machine's folder is emptied, an intruder uses its key, the receiver is silent, or the sender; the
first machine is installed anew and sends to a new repository; and at last it is lost, and the second serves from what was
sent alone."""
import os
import re
import tempfile
import time

from tests.library.checks import Failed, expect
from tests.library.operator.booted import Booted, main_booted
from tests.library.operator.documented import DEPLOYING, OPERATING, command, commands
from tests.library.operator.first_day import (
    answers_again, ask, carry_passphrase, enter, first_day, put_certbot, reach, slow_requests, with_terms,
)
from tests.library.operator.packages import make_package

REPOSITORY = "/var/lib/pawnd-received/copies"
BY_KEY = "set -a; . /etc/pawnd/offsite.conf; set +a; "


def two_machines_and_a_lost_one():
    with tempfile.TemporaryDirectory() as room:
        package = make_package(room)
        with Booted(room) as one, Booted(room, "standby") as standby:
            one.line_to(standby, "10.9.0.1", "10.9.0.2")
            one.run("echo 10.9.0.2 standby >>/etc/hosts")
            first_day(one, package)
            with_terms(one)
            for step in (
                a_copy_is_sent,
                a_folder_that_was_emptied,
                a_receiver_that_is_silent,
                a_clock_that_was_behind,
                a_sender_that_is_lost,
                a_receiver_without_room,
                an_archive_that_is_removed_before_it_was_seen,
                an_intruder_with_the_key,
            ):
                timed(step, one, standby)
            with Booted(room, "anew") as anew:
                timed(sending_begins_anew, one, standby, anew, package)
                timed(the_machine_is_lost, anew, standby)


def timed(step, *words):
    begun = time.monotonic()
    step(*words)
    print(f"        {step.__name__.replace('_', ' ')}: {time.monotonic() - begun:.1f} s", flush=True)


def archives(standby):
    return borg(standby, "list --short " + REPOSITORY).split()


def borg(standby, words):
    """What borg says on the receiving machine, by the repository's owner."""
    return standby.run(
        "export BORG_PASSPHRASE=$(cat /etc/pawnd/offsite.passphrase) BORG_BASE_DIR=/tmp/borg-of-the-test; "
        f"runuser -u pawnd-received -- borg {words} 2>/dev/null; rm -rf /tmp/borg-of-the-test", within=300,
    )


def a_copy_is_sent(one, standby):
    keys, receiver, begin, pruning, drill = commands(DEPLOYING, "Off the machine")
    public = one.run(keys).strip().splitlines()[-1]
    put_certbot(standby)
    standby.run("cp /root/packages/*.deb /root/")
    standby.run(receiver.replace("PUBLIC-KEY", public))
    standby.run("rm /root/*.deb; systemctl start ssh")
    said = standby.run("pawnd-admin copy main 2>&1", wanted=1)
    expect(f"no copy of its own is newer than what is sent: {said}", "there is no store main" in said, True)
    carry_passphrase(one, standby)
    one.run(begin)
    expect("an archive", len(archives(standby)), 1)
    clear = standby.run(f"grep -rlE 'SQLite format|High Street' {REPOSITORY} || true")
    expect("nothing that is sent can be read there", clear, "")
    standby.run(pruning)
    standby.run("printf '#!/bin/sh\\ncat >>/root/mails; echo \"$@\" >>/root/mails\\n' >/usr/local/bin/mail; "
                "chmod +x /usr/local/bin/mail")
    standby.run(command(DEPLOYING, "Messages about problems", "on-failure"))
    standby.run("[ -s /var/lib/pawnd-received.known ]")
    standby.run("systemctl start pawnd-received")
    expect("the drill", standby.run(drill).splitlines()[-1], "books 1 pledges 0 rows 1")
    expect("nothing that is not encrypted is left", "drill" in standby.run("ls /root").split(), False)
    expect("what the state says", "newest off this machine" in one.run("pawnd-admin status"), True)
    one.run("pawnd-admin book 9 --name 'Old Street' --key-to /root/9.key; pawnd-admin remove-book 9")


def send(one):
    """A copy, and the copy sent."""
    one.run("sleep 1; systemctl start pawnd-copy@main")
    one.start("pawnd-offsite@main")


def a_folder_that_was_emptied(one, standby):
    """What was sent stays, and the unit fails, so that the operator is informed."""
    before = archives(standby)
    one.run("mv /var/backups/pawnd/main /root/away; mkdir -m 700 /var/backups/pawnd/main")
    one.run("systemctl start pawnd-offsite@main", wanted=1)
    expect("what was sent", archives(standby), before)
    expect("why", "has no copy, so nothing is sent" in one.journal("pawnd-offsite@main"), True)
    fetched = one.run(command(OPERATING, "One book put back", "ARCHIVE").replace("ARCHIVE", before[0])).splitlines()[-1]
    one.run(f"pawnd check {fetched}/books.db; rm -r /root/older")
    one.run("rmdir /var/backups/pawnd/main; mv /root/away /var/backups/pawnd/main; systemctl reset-failed")


def a_receiver_that_is_silent(one, standby):
    """It delays no copy, no request and no look at the state; the sending ends, and goes on another day."""
    standby.run("ip link set to-one down")
    one.run("systemctl start --no-block pawnd-offsite@main")
    one.run("sleep 1; systemctl start pawnd-copy@main")
    expect("a pledge meanwhile", enter(one, 2)[0], 200)
    one.run("pawnd-admin status")
    ended = one.run(
        "for i in $(seq 150); do s=$(systemctl show -P ActiveState pawnd-offsite@main); "
        "[ $s = activating ] || break; sleep 1; done; echo $s"
    ).strip()
    expect("the sending ends", ended, "failed")
    standby.run("ip link set to-one up; ip address add 10.9.0.2/24 dev to-one 2>/dev/null || true")
    one.run("systemctl reset-failed")
    send(one)
    expect("the next one comes through", len(archives(standby)), 2)


def a_clock_that_was_behind(one, standby):
    """A copy that was made meanwhile is dated before older ones. After the page's commands the newest copy has all."""
    one.run("pawnd-admin book 15 --name 'Clock Street' --key-to /root/15.key; pawnd-admin copy main; cd /var/backups/pawnd/main; "
            "mv \"$(ls -d 2*Z | tail -n 1)\" \"$(date -u -d '3 days ago' +%Y%m%dT%H%M%SZ)\"")
    one.start("pawnd-offsite@main")
    drill = "mkdir -m 700 /root/it; /usr/share/pawnd/offsite/take main /root/it; cat /root/it/var/backups/pawnd/main/*/copy.json; rm -r /root/it"
    expect("what is taken before", '"15":' in standby.run(drill), False)
    one.run(command(OPERATING, "A wrong clock", "pawnd-copy@main"))
    expect("and afterwards", '"15":' in standby.run(drill), True)
    one.run("pawnd-admin remove-book 15")


def a_sender_that_is_lost(one, standby):
    """It is silent from one moment on, in the middle of a sending. Its session on the receiving machine ends, and with it the
    lock on the repository."""
    before = archives(standby)
    one.run("echo 'set -a; . /etc/pawnd/offsite.conf; (head -c 4000000 /dev/urandom; sleep 900) | borg create ::lost.1.1 -' "
            ">/root/sending; systemd-run -q --unit=sending sh /root/sending")
    standby.until(f"[ -e {REPOSITORY}/lock.exclusive ]", within=120)
    one.run("systemctl kill -s STOP sending")
    standby.run("mkdir /root/it; /usr/share/pawnd/offsite/take main /root/it; rm -r /root/it")
    one.run("systemctl kill -s KILL sending; rm /root/sending; systemctl reset-failed")
    expect("what was sent before", archives(standby), before)


def a_receiver_without_room(one, standby):
    """Its daily run fails, and does not say that archives are gone."""
    before = archives(standby)
    standby.run(f"mv {REPOSITORY} /root/whole; mkdir {REPOSITORY}; size=$(du -sk /root/whole | cut -f 1); "
                f"mount -t tmpfs -o size=$((size + 8))k none {REPOSITORY}; cp -a /root/whole/. {REPOSITORY}; "
                f"chown pawnd-received: {REPOSITORY}; cat /dev/zero >{REPOSITORY}/filler || true")
    standby.run("systemctl start pawnd-received", wanted=1)
    told = standby.journal("pawnd-received")
    expect(f"why: {told}", ("No space left" in told, "archives are gone" in told), (True, False))
    standby.run(f"umount {REPOSITORY}; rmdir {REPOSITORY}; mv /root/whole {REPOSITORY}; systemctl reset-failed")
    standby.start("pawnd-received")
    expect("what is there", archives(standby), before)


def last_transaction(standby):
    return standby.run(f"tail -n 1 {REPOSITORY}/transactions").split()[1].rstrip(",")


def undo(standby, number):
    """The first machine is shut out, and the transactions after this one are undone."""
    standby.run(command(OPERATING, "An intruder on the sending machine", "undo").replace("NUMBER", number))


def let_in_again(one, standby):
    """By the commands of the page, which send a copy at once."""
    allow, begin = commands(OPERATING, "Sending again after an intruder")[:2]
    before = archives(standby)
    standby.run(allow)
    one.run(begin)
    expect("what is there", archives(standby)[:-1], before)


def an_archive_that_is_removed_before_it_was_seen(one, standby):
    """The daily run on the receiving machine never saw the archive, and removes nothing."""
    standby.start("pawnd-received")
    send(one)
    before, last = archives(standby), last_transaction(standby)
    one.run(f"{BY_KEY} borg delete ::{before[-1]}")
    expect("it seems to be gone", archives(standby), before[:-1])
    standby.run("systemctl start pawnd-received", wanted=1)
    told = standby.journal("pawnd-received")
    expect(f"why: {told}", "2 transactions and are 0 new archives" in told, True)
    standby.until("grep -q 'pawnd: pawnd-received.service failed' /root/mails")
    undo(standby, last)
    expect("it is there again", archives(standby), before)
    standby.run("systemctl reset-failed")
    standby.start("pawnd-received")
    expect("and stays", archives(standby), before)
    let_in_again(one, standby)


def an_intruder_with_the_key(one, standby):
    """An intruder with the first machine's key gets no shell and no other file, and what they remove comes back."""
    ssh = "ssh -i /etc/pawnd/offsite.key -o BatchMode=yes pawnd-received@standby "
    told = one.run(f"timeout 20 {ssh} 'cat /etc/passwd; touch /tmp/was-here' </dev/null 2>&1 || true")
    expect("a shell", ("root:" in told, standby.run("ls /tmp/was-here 2>/dev/null || true")), (False, ""))
    told = one.run("scp -i /etc/pawnd/offsite.key -o BatchMode=yes pawnd-received@standby:/etc/passwd /root/it 2>&1 || true")
    expect("a file", one.run("ls /root/it 2>/dev/null || true"), "")
    told = one.run(f"{BY_KEY} borg list --short ssh://pawnd-received@standby/var/lib/pawnd-received/other 2>&1 || true")
    expect("another repository", "not allowed" in told, True)
    before = archives(standby)
    last = last_transaction(standby)
    one.run(f"{BY_KEY} borg list --short | while read -r it; do borg delete ::$it || true; done; borg compact || true")
    expect("they seem to be gone", archives(standby), [])
    first = standby.run(f"head -n 1 {REPOSITORY}/transactions").split()[1].rstrip(",")
    told = standby.run(f"/usr/share/pawnd/offsite/undo {first}", wanted=1)
    expect(f"an undoing that would lose what was compacted since: {told}", "nothing was changed" in told, True)
    expect("the repository is as it was", archives(standby), [])
    standby.run("systemctl start pawnd-received", wanted=1)
    undo(standby, last)
    expect("they are there again", archives(standby), before)
    standby.run("systemctl reset-failed")
    standby.start("pawnd-received")
    expect("and stay", archives(standby), before)
    borg(standby, f"check --repository-only {REPOSITORY}")


def sending_begins_anew(one, standby, anew, package):
    """The first machine is installed anew, after an intruder: the last good copy comes back from the old repository, and
    what is copied from then on goes to a new one, with a new key and a new passphrase."""
    *_, aside, fetch, elsewhere, go_on, remove = commands(OPERATING, "Sending again after an intruder")
    key, old = key_of(one), archives(standby)
    one.cut()
    standby.run(aside)
    anew.line_to(standby, "10.9.0.1", "10.9.0.2")
    anew.run("echo 10.9.0.2 standby >>/etc/hosts")
    put_certbot(anew)
    anew.run(f"cp /root/packages/{os.path.basename(package)} /root/")
    for block in commands(DEPLOYING, "The first day")[:3]:
        anew.run(block)
    reach(anew, standby)
    anew.run(fetch)
    anew.run(elsewhere.replace("east", "far") + "rm /etc/pawnd/stores/far.conf; pawnd-admin reload")
    anew.run(f"umask 077; cat >/root/7.key <<<'{key}'")
    answers_again(anew)
    expect("what was sent before", [ask(anew, f"/books/7/pledges/{number}")[0] for number in (1, 2)], [200, 200])
    expect("a book that left before", anew.run("ls /var/backups/pawnd/removed/9-*Z | grep csv").strip(), "book.csv")
    keys, receiver, begin, *_ = commands(DEPLOYING, "Off the machine")
    public = anew.run(keys).strip().splitlines()[-1]
    standby.run(receiver.strip().splitlines()[-1].replace("PUBLIC-KEY", public))
    carry_passphrase(anew, standby)
    anew.run(begin)
    standby.run(go_on)
    left = {"back", "authorized_keys"} & set(standby.run("ls /root").split())
    expect("nothing that is not encrypted is left, and no line of an old key", left, set())
    standby.run("[ -s /var/lib/pawnd-received.known ]")
    expect("the new repository", len(archives(standby)), 1)
    send(anew)
    standby.start("pawnd-received")
    told = anew.run("pawnd-admin status || true")
    expect("what is wrong", [line for line in told.splitlines() if line.startswith("WRONG")], [])
    anew.run("sleep 1")
    for block in commands(OPERATING, "A leaked key"):
        anew.run(block)
    exchanged = anew.run("mv /root/7.key.new /root/7.key; cat /etc/pawnd/keys.map")
    standby.run("mkdir /root/it; /usr/share/pawnd/offsite/take main /root/it")
    expect("the exchange was sent", standby.run("cat /root/it/etc/pawnd/keys.map; rm -r /root/it"), exchanged)
    expect("by the new key", ask(anew, "/books/7/pledges/1")[0], 200)
    expect("the old repository", len(old) > 1, True)
    standby.run(remove)


def the_machine_is_lost(one, standby):
    """The second serves what was sent, by the commands of the page, and again after a boot."""
    expect("pledge 3", enter(one, 3)[0], 200)
    one.run("pawnd-admin store east; pawnd-admin book 10 --store east --name 'East Street' --key-to /root/10.key")
    one.run("pawnd-admin copy east")
    one.start("pawnd-offsite@east")
    send(one)
    expect("acknowledged, and lost", enter(one, 4)[0], 200)
    one.cut()
    take, restore, let_in = commands(OPERATING, "A lost machine")
    for name in ("east", "main"):
        standby.run(take.replace("main", name))
    for name in ("main", "east"):
        standby.run(restore.replace("main", name))
    standby.run(let_in)
    certificate = commands(DEPLOYING, "The first day")[2]
    with slow_requests(standby):
        standby.run(certificate)
    key = standby.run("cat /etc/pawnd/operator.key").strip()
    expect("the key is the first machine's", bool(re.fullmatch(r"[0-9a-f-]{36}", key)), True)
    standby.run(f"cat >/root/7.key <<<'{key_of(one)}'")
    answers_again(standby)
    expect("what was sent", [ask(standby, f"/books/7/pledges/{number}")[0] for number in (1, 2, 3, 4)], [200] * 3 + [404])
    expect("it goes on", enter(standby, 4)[0], 200)
    told = standby.run("pawnd-admin reload; pawnd-admin status || true")
    expect("the other store", bool(re.search("^east at .* answers; and through the proxy; 1 books", told, re.M)), True)
    standby.cut()
    standby.boot()
    answers_again(standby)
    timers = standby.run("systemctl list-timers --no-pager --no-legend")
    expect("it is copied there", "pawnd-copy@main.timer" in timers, True)


def key_of(one):
    """The broker's own key, from the disk of the machine that was lost."""
    with open(os.path.join(one.root, "root/7.key")) as it:
        return it.read().strip()


if __name__ == "__main__":
    main_booted(two_machines_and_a_lost_one)
