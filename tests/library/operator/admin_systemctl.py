#!/usr/bin/python3 -IS
"""In systemctl's place on a machine of admin_machine.py: it starts, reloads and stops services of stores, and reloads
nginx. It stands for nft too, which shows the rule of a store's port, for journalctl, which shows the file `journal`, and
for systemd-sysusers, which does nothing."""
import contextlib
import os
import signal
import subprocess
import sys
import time

ROOM = os.environ.get("MACHINE")


def place(kind, unit):
    return os.path.join(ROOM, "units", f"{kind}-{unit}")


def named(pid):
    """A process by its number and by when it began, since another process gets its number later. None if it has ended."""
    with contextlib.suppress(OSError), open(f"/proc/{pid}/stat") as stat:
        state, *fields = stat.read().rpartition(")")[2].split()
        return None if state == "Z" else f"{pid} {fields[18]}"
    return None


def running(path):
    """The process that a file names, if it still runs."""
    with contextlib.suppress(OSError, IndexError), open(path) as file:
        name = file.read()
        if named(name.split()[0]) == name:
            return int(name.split()[0])
    return None


def pid_of(unit):
    return running(place("pid", unit))


def value_of(path, name):
    with open(path) as file:
        return next(line.strip().partition("=")[2] for line in file if line.startswith(name + "="))


def start(unit):
    # The unit of a replicated folder starts the store.
    unit = unit.replace("pawnd-replicated@", "pawnd@")
    if os.path.exists(place("masked", unit)):
        sys.exit(f"Failed to start {unit}: Unit {unit} is masked.")
    if unit.endswith(".timer") or pid_of(unit):
        return
    set_rule(unit)
    name = unit.removeprefix("pawnd@").removesuffix(".service")
    path = os.path.join(os.environ["STORES"], name, "books.db")
    if not os.path.exists(path) or not os.path.getsize(path):
        sys.exit(f"Assertion failed on job for {unit}.")
    port = value_of(os.path.join(os.environ["SETTINGS"], "stores", name + ".conf"), "PORT")
    words = [os.environ["PAWND"], "serve", path, port, os.path.join(os.environ["SETTINGS"], "operator.key")]
    null = {"stdin": subprocess.DEVNULL, "stdout": subprocess.DEVNULL, "stderr": subprocess.DEVNULL}
    begun = subprocess.Popen(words, start_new_session=True, umask=0o077, preexec_fn=with_defaults, **null)
    with open(place("pid", unit), "w") as file:
        file.write(named(begun.pid) or "")


def with_defaults():
    """A service is started as by systemd: it ignores no signal, also if the command that starts it does."""
    for number in (signal.SIGHUP, signal.SIGINT, signal.SIGTERM):
        signal.signal(number, signal.SIG_DFL)


def set_rule(unit):
    """The rule of a store's port, as its unit sets it at a start and at a reload."""
    name = unit.removeprefix("pawnd@").removesuffix(".service")
    port = value_of(os.path.join(os.environ["SETTINGS"], "stores", name + ".conf"), "PORT")
    with open(place("rule", f"pawnd-{name}"), "w") as file:
        file.write(f"meta skuid 999 tcp sport != {port} drop\n")


def show_rule(table):
    with open(place("rule", table)) as file:
        print(file.read())


def stop(unit):
    pid = pid_of(unit)
    if pid:
        os.kill(pid, signal.SIGTERM)
        while pid_of(unit):
            time.sleep(0.005)


def reload_nginx():
    with open(os.environ["NGINX_PID"]) as file:
        os.kill(int(file.read()), signal.SIGHUP)


def main(words):
    order, units = words[0], [word for word in words[1:] if not word.startswith("-")]
    for unit in units:
        unit = unit if "." in unit else unit + ".service"
        if order == "mask":
            open(place("masked", unit), "w").close()
        elif order == "unmask":
            with contextlib.suppress(FileNotFoundError):
                os.unlink(place("masked", unit))
        elif order == "enable":
            open(place("enabled", unit), "w").close()
            start(unit)
        elif order == "is-enabled":
            return 0 if os.path.exists(place("enabled", unit)) and not os.path.exists(place("masked", unit)) else 1
        elif order == "is-active":
            return 0 if pid_of(unit) or unit.endswith(".timer") and os.path.exists(place("enabled", unit)) else 3
        elif order == "reload":
            set_rule(unit) if unit.startswith("pawnd@") else reload_nginx()
        else:
            {"start": start, "stop": stop}[order](unit)
    return 0


if __name__ == "__main__":
    called = os.path.basename(sys.argv[0])
    if called == "nft":
        show_rule(sys.argv[-1])
    if called == "journalctl" and os.path.exists(os.path.join(ROOM, "journal")):
        with open(os.path.join(ROOM, "journal")) as file:
            print(file.read(), end="")
    sys.exit(main(sys.argv[1:]) if called == "systemctl" else 0)
