"""The package from version to version on a Debian that runs systemd: an upgrade in which a unit, a timer and a
configuration file changed, the way back, what `dpkg --verify` shows, removing and purging. The books stay in all of it."""
import os
import tempfile
import time

from tests.library.checks import expect
from tests.library.operator.booted import Booted, main_booted
from tests.library.operator.first_day import answers_again, ask, enter, first_day, slow_requests, with_terms
from tests.library.operator.documented import DEPLOYING, command
from tests.library.operator.packages import make_package

CHANGED = (
    ("deploy/systemd/pawnd@.service", "\n[Service]\nEnvironment=VERSION_TWO=yes\n"),
    ("deploy/systemd/pawnd-status.timer", "\n[Timer]\nOnUnitActiveSec=7min\n"),
    ("deploy/nginx/pawnd-reply-fields.conf", "add_header X-Version two always;\n"),
    ("deploy/settings/pawnd.conf", "# Version two.\n"),
)
# A package that leaves the units, the program and the proxy's settings of the old version in force.
FAULTY = *CHANGED, ("deploy/debian/postinst", "    enable_units\n", "    enable_units\n    begin\n")


def install(one, path, *words):
    return one.run(f"apt-get -y {' '.join(words)} install /root/packages/{os.path.basename(path)} 2>&1")


def in_force(one):
    """What serves: the unit's environment in the process, the timer, and the proxy's settings."""
    pid = one.state("pawnd@main", "MainPID")[0]
    unit = "VERSION_TWO" in one.run(f"tr '\\0' '\\n' </proc/{pid}/environ")
    timer = "OnUnitActiveUSec=7min" in one.run("systemctl show -P TimersMonotonic pawnd-status.timer")
    field = "x-version: two" in one.run("curl -sk -o /dev/null -D - https://127.0.0.1/ | tr 'A-Z' 'a-z'")
    return unit, timer, field


def from_version_to_version():
    with tempfile.TemporaryDirectory() as room:
        first, second = make_package(room), make_package(room, "0.0.2", CHANGED)
        make_package(room, "0.0.2~faulty", FAULTY)
        with Booted(room) as one:
            first_day(one, first)
            with_terms(one)
            for step in (units_that_are_never_upgraded, an_upgrade, the_way_back, a_changed_file_is_kept, what_was_stopped_stays_so,
                         a_changed_file_is_replaced, removed_and_installed_again, purged_and_installed_again):
                begun = time.monotonic()
                step(one, first, second)
                print(f"        {step.__name__.replace('_', ' ')}: {time.monotonic() - begun:.1f} s", flush=True)


def read_for_long(one):
    """The store needs five seconds more from now on until it answers, as a large one does."""
    folder = os.path.join(one.root, "etc/systemd/system/pawnd@main.service.d")
    os.makedirs(folder)
    with open(os.path.join(folder, "slow.conf"), "w") as it:
        it.write("[Service]\nExecStart=\nExecStart=/bin/sh -c 'sleep 5; exec /usr/bin/pawnd serve "
                 "/var/lib/pawnd/%i/books.db ${PORT} %d/operator.key'\n")
    one.run("systemctl daemon-reload")


def units_that_are_never_upgraded(one, first, second):
    """What the next step looks at shows a package that has this fault."""
    install(one, "pawnd_0.0.2~faulty_amd64.deb")
    expect("what the fault shows", in_force(one), (False, False, False))


def an_upgrade(one, first, second):
    one.run("mkdir -p /root/both; cp /root/packages/pawnd_0.0.[12]_amd64.deb /root/both/")
    read_for_long(one)
    with slow_requests(one):
        one.run(command(DEPLOYING, "Upgrade and way back", "start pawnd-copy").replace("VERSION", "0.0.2"), folder="/root/both")
    expect("what is in force at once", in_force(one), (True, True, True))
    expect("what was acknowledged before", ask(one, "/books/7/pledges/1")[0], 200)
    one.run("pawnd-admin status; rm -r /etc/systemd/system/pawnd@main.service.d; systemctl daemon-reload")
    expect("what systemd complains of", one.complaints(), [])
    one.cut()
    one.boot()
    answers_again(one)
    expect("and after a boot", in_force(one), (True, True, True))


def the_way_back(one, first, second):
    expect("pledge 2", enter(one, 2)[0], 200)
    one.run(command(DEPLOYING, "Upgrade and way back", "allow-downgrades").replace("VERSION", "0.0.1"), folder="/root/both")
    expect("what is in force", in_force(one), (False, False, False))
    answers_again(one)
    expect("what was acknowledged before", ask(one, "/books/7/pledges/2")[0], 200)


def a_changed_file_is_kept(one, first, second):
    """A configuration file that the operator changed and the new version did too: the operator's stays, the new one
    is next to it, also where nobody could be asked. A changed file of the package's own is shown."""
    one.run("sed -i s/KEEP=30/KEEP=40/ /etc/pawnd/pawnd.conf")
    told = one.run(f"apt-get -y install /root/packages/{os.path.basename(second)} 2>&1", wanted=100)
    expect("without a terminal", "end of file on stdin at conffile prompt" in told, True)
    one.run(command(DEPLOYING, "Upgrade and way back", "--configure -a"))
    expect("what is in force", in_force(one), (True, True, True))
    answers_again(one)
    expect("the operator's", one.run("grep KEEP= /etc/pawnd/pawnd.conf").strip(), "KEEP=40")
    expect("the new one", one.run("tail -n 1 /etc/pawnd/pawnd.conf.dpkg-dist").strip(), "# Version two.")
    one.run("echo '# edited' >>/lib/systemd/system/pawnd@.service")
    told = one.run(command(DEPLOYING, "Upgrade and way back", "dpkg --verify") + "true", wanted=None)
    expect("what differs", sorted(line.split()[-1] for line in told.splitlines()),
           ["/etc/pawnd/pawnd.conf", "/lib/systemd/system/pawnd@.service"])


def what_was_stopped_stays_so(one, first, second):
    """An upgrade starts no store that was stopped on purpose, and enables no timer that was disabled."""
    one.run("systemctl stop pawnd@main; systemctl disable --now pawnd-status.timer 2>&1")
    install(one, first, "--allow-downgrades -o Dpkg::Options::=--force-confold")
    told = one.run("systemctl is-active pawnd@main || true; systemctl is-enabled pawnd-status.timer || true")
    expect("after the upgrade", told.split(), ["inactive", "disabled"])
    one.run("systemctl start pawnd@main; systemctl enable --now pawnd-status.timer 2>&1")
    answers_again(one)


def a_changed_file_is_replaced(one, first, second):
    """At a terminal the upgrade asks which file to keep. The operator takes the new one, and the old one stays next to
    it."""
    answers = "(for it in $(seq 60); do sleep 1; echo Y || exit; done) 2>/dev/null"
    path = f"/root/packages/{os.path.basename(second)}"
    told = one.run(f"{answers} | script -qefc 'apt-get -y install {path}' /dev/null")
    expect("it asks", "pawnd.conf (Y/I/N/O/D/Z)" in told, True)
    expect("what is in force", in_force(one), (True, True, True))
    answers_again(one)
    kept = one.run("grep -h KEEP= /etc/pawnd/pawnd.conf /etc/pawnd/pawnd.conf.dpkg-old").split()
    expect("the new file and the old one", kept, ["KEEP=30", "KEEP=40"])
    install(one, first, "--allow-downgrades")
    expect("after the way back", in_force(one), (False, False, False))
    answers_again(one)


def removed_and_installed_again(one, first, second):
    books = "sha256sum /var/lib/pawnd/main/books.db /etc/pawnd/operator.key"
    one.run("apt-get -y remove pawnd 2>&1")
    before = one.run(books)
    expect("no unit is left", one.run("systemctl list-units --no-legend 'pawnd*' | grep -c running || true").strip(), "0")
    expect("nginx goes on", one.run("nginx -t -q; systemctl is-active nginx").strip(), "active")
    install(one, first)
    expect("the books and the key", one.run(books), before)
    one.run(command(DEPLOYING, "The first day", "sites-enabled"))
    answers_again(one)
    expect("the timers", one.run("systemctl is-active pawnd-copy@main.timer pawnd-status.timer").split(), ["active"] * 2)


def purged_and_installed_again(one, first, second):
    kept = "find /var/lib/pawnd /var/backups/pawnd /etc/pawnd/*.key /etc/pawnd/*.map -type f ! -name '*-wal' | sort | xargs sha256sum"
    one.run("systemctl stop pawnd@main")
    before = one.run(kept)
    told = one.run("apt-get -y purge pawnd 2>&1")
    expect("it says what stays", "the books stay in /var/lib/pawnd" in told, True)
    expect("the books, the copies, the keys and the maps", one.run(kept), before)
    expect("nginx goes on", one.run("nginx -t -q; systemctl restart nginx; systemctl is-active nginx").strip(), "active")
    # A disk that is not mounted: no empty store takes the place of the books.
    one.run("mv /var/lib/pawnd /root/away")
    told = install(one, first)
    expect("no store is made where there was one", one.run("find /var/lib/pawnd -name 'books.db*'"), "")
    expect("it says so", "mount its disk" in told, True)
    one.run("rm -r /var/lib/pawnd; mv /root/away /var/lib/pawnd; systemctl reset-failed; systemctl start pawnd@main")
    one.run(command(DEPLOYING, "The first day", "sites-enabled"))
    answers_again(one)
    expect("all pledges", [ask(one, f"/books/7/pledges/{number}")[0] for number in (1, 2)], [200, 200])


if __name__ == "__main__":
    main_booted(from_version_to_version)
