"""The first day of docs/DEPLOYING.md on a machine, and a broker's requests there."""
import contextlib
import json
import os
import time

from tests.library.checks import Failed, expect
from tests.library.operator.documented import DEPLOYING, commands

NAME = "books.example.org"
# In place of the maker of certificates, which is out of reach: a certificate by a maker of the machine's own, where
# certbot puts it. Its words are certbot's.
CERTBOT = r"""#!/bin/bash
set -e
while [ $# -gt 0 ]; do
    case $1 in -d) name=$2 ;; -w) root=$2 ;; esac
    shift
done
curl -sf -o /dev/null -H "Host: $name" "http://127.0.0.1/.well-known/acme-challenge/none" || [ $? = 22 ]
mkdir -p "$root/.well-known/acme-challenge"
echo proof-of-the-name >"$root/.well-known/acme-challenge/token"
[ "$(curl -s -H "Host: $name" http://127.0.0.1/.well-known/acme-challenge/token)" = proof-of-the-name ]
live=/etc/letsencrypt/live/$name
mkdir -p "$live" /root/maker
[ -e /root/maker/ca.pem ] || openssl req -x509 -newkey rsa:2048 -nodes -days 90 -subj "/CN=maker" \
    -keyout /root/maker/ca.key -out /root/maker/ca.pem 2>/dev/null
openssl req -new -newkey rsa:2048 -nodes -subj "/CN=$name" -keyout "$live/privkey.pem" -out /root/maker/asked 2>/dev/null
openssl x509 -req -in /root/maker/asked -CA /root/maker/ca.pem -CAkey /root/maker/ca.key -CAcreateserial -days 90 \
    -extfile <(echo "subjectAltName=DNS:$name") -out "$live/fullchain.pem" 2>/dev/null
"""


def put_certbot(machine):
    path = os.path.join(machine.root, "usr/local/bin/certbot")
    with open(path, "w") as it:
        it.write(CERTBOT)
    os.chmod(path, 0o755)


def first_day(machine, package):
    """All commands of the section in turn. The package is in the folder in which they are run."""
    put_certbot(machine)
    machine.run(f"cp /root/packages/{os.path.basename(package)} /root/")
    told = []
    for block in commands(DEPLOYING, "The first day"):
        told.append(machine.run(block))
    machine.run(f"rm /root/{os.path.basename(package)}")
    return told


def reach(*machines):
    """The roots of these machines reach each other by ssh, as the page's scp asks."""
    for machine in machines:
        machine.run("mkdir -p -m 700 /root/.ssh; [ -e /root/.ssh/id_ed25519 ] || ssh-keygen -q -t ed25519 -N '' -f "
                    "/root/.ssh/id_ed25519; systemctl start ssh")
        machine.run("printf 'Host *\\nStrictHostKeyChecking no\\nUserKnownHostsFile /dev/null\\n' >/root/.ssh/config")
    for machine in machines:
        key = machine.run("ssh-keygen -y -f /root/.ssh/id_ed25519").strip()
        for peer in machines:
            peer.run(f"cat >>/root/.ssh/authorized_keys <<<'{key}'")


def carry_passphrase(one, standby):
    """From the sending machine to the receiving one, as the page asks."""
    passphrase = one.run("cat /etc/pawnd/offsite.passphrase")
    standby.run(f"umask 077; cat >/etc/pawnd/offsite.passphrase <<<'{passphrase.strip()}'")


def ask(machine, target, *words, key="/root/7.key", trusted=True):
    """A request by the broker of a book, over TLS to the proxy of this machine: the reply's status and body, or 0 if there
    is none."""
    trust = "--cacert /root/maker/ca.pem" if trusted else "-k"
    at = f"--resolve {NAME}:443:127.0.0.1 https://{NAME}{target}"
    told = machine.run(f"""curl -s {trust} -w '\\n%{{http_code}}' -H "Pledge-Key: $(cat {key})" {' '.join(words)} {at} || true""")
    body, _, status = told.rpartition("\n")
    return int(status), body


def enter(machine, number, book=7, key="/root/7.key"):
    """A pledge is taken."""
    opening = {"article": "Gold ring", "five_days": False, "kind": "fixed", "pence": 10000, "ref": f"A{number}"}
    return ask(machine, f"/books/{book}/pledges", "-d", f"'{json.dumps(opening)}'", key=key)


def with_terms(machine, book=7, key="/root/7.key"):
    terms = """'{"keep_after":0,"keep_before":0,"rate":0,"version":1}'"""
    expect("its terms", ask(machine, f"/books/{book}/terms", "-d", terms, key=key), (200, '{"version":1}'))
    expect("a pledge", enter(machine, 1, book, key)[0], 200)


# Requests whose heads do not end. A worker of nginx that has one goes on by its settings for ten seconds after a reload.
SLOW_REQUESTS = f"""import contextlib, socket, ssl, time
kept = []
while True:
    with contextlib.suppress(OSError):
        plain = socket.create_connection(("127.0.0.1", 443), timeout=5)
        kept.append(ssl._create_unverified_context().wrap_socket(plain, server_hostname="{NAME}"))
        kept[-1].sendall(b"GET / HTTP/1.1\\r\\n")
    time.sleep(0.5)
"""


@contextlib.contextmanager
def slow_requests(machine):
    """Callers whose requests are under way come all the time within the block. What is done in it reloads nginx, and no
    worker goes on by the older settings when it ends."""
    with open(os.path.join(machine.root, "root/slow.py"), "w") as it:
        it.write(SLOW_REQUESTS)
    machine.run("systemd-run -q --unit=slow python3 /root/slow.py")
    machine.until("ss -Htn state established 'sport = :443' | grep -q .")
    workers = "cat /proc/$(cat /run/nginx.pid)/task/*/children"
    before = machine.run(workers).split()
    yield
    left = [it for it in machine.run(workers).split() if it in before]
    machine.run("systemctl stop slow")
    expect("workers of nginx by the older settings", left, [])


def answers_again(machine, wanted=200, within=60, target="/books/7/pledges/1", key="/root/7.key"):
    end = time.monotonic() + within
    while (told := ask(machine, target, key=key)[0]) != wanted:
        if time.monotonic() > end:
            raise Failed(f"{told} after {within} seconds: {machine.run('journalctl -n 30 --no-pager')}")
        time.sleep(0.2)
