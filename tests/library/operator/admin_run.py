"""Runs `pawnd-admin` with something done to it: killed just before one of its steps, or with a fault planted in it.

usage: admin_run.py WORD..

KILL_AT=N ends it by SIGKILL before its N-th step; with 0 it runs to its end and lists its steps in the file STEPS, one
a line. PLANT=NAME plants the fault of that name from admin_plants.py. A step is whatever changes something: a file
that is opened for writing, renamed or removed, a folder, a program that is started.
"""
import os
import runpy
import signal
import sys

HERE = os.path.dirname(os.path.abspath(__file__))
TOP = os.path.dirname(os.path.dirname(os.path.dirname(HERE)))
STEPS = {
    "os.rename", "os.remove", "os.mkdir", "os.rmdir", "os.chown", "os.chmod", "os.link", "os.truncate",
    "subprocess.Popen", "sqlite3.connect",
}
WRITING = os.O_WRONLY | os.O_RDWR | os.O_CREAT | os.O_TRUNC
steps = []


def is_step(event, args):
    if event == "open":
        return bool(isinstance(args[2], int) and args[2] & WRITING)
    return event in STEPS or event == "ctypes.dlsym" and args[1] == "renameat2"


def watch(kill_at):
    def hook(event, args):
        if is_step(event, args):
            steps.append(f"{event} {args}")
            if len(steps) == kill_at:
                os.kill(os.getpid(), signal.SIGKILL)

    sys.addaudithook(hook)


def main():
    admin = os.path.join(TOP, "deploy/admin/pawnd-admin")
    sys.dont_write_bytecode = True
    sys.path[0] = os.path.dirname(admin)
    if "PLANT" in os.environ:
        sys.path.insert(1, TOP)
        from tests.library.operator import admin_plants

        getattr(admin_plants, os.environ["PLANT"])()
    sys.argv = [admin, *sys.argv[1:]]
    if "KILL_AT" in os.environ:
        watch(int(os.environ["KILL_AT"]))
    try:
        runpy.run_path(admin, run_name="__main__")
    finally:
        if "STEPS" in os.environ:
            told = "".join(step.replace("\n", " ") + "\n" for step in steps)
            with open(os.environ["STEPS"], "w") as file:
                file.write(told)


main()
