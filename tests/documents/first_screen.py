"""The README's first screen: `make demo` on a clean clone prints the story that is there, within five minutes where
there are four processors. `make serve` is started as it says, each of its curl lines is run, and what it prints is
compared. The service is still there 70 seconds after it said that it listens.

A line that begins with `$ curl` or `$ RECEIPT=` is run, and the lines under it are what it prints. The port, the
folder, the day, the end of the period and the receipt are those of this run in place of the README's.
"""
import os
import re
import shutil
import signal
import subprocess
import tempfile
import time

from tests.library.checks import Failed, expect, main
from tests.library.dates import six_months_after, today
from tests.library.paths import PROGRAM, TOP
from tests.library.program import free_port

PORT = "localhost:8080"
RECEIPT = re.compile(r"1-[0-9a-f]{8}(?:-[0-9a-f]{4}){3}-[0-9a-f]{12}")
STAYS = 70
SOON = 300


def steps():
    """The commands of the first screen, each with what it prints."""
    with open(os.path.join(TOP, "README.md")) as it:
        screen = it.read().split("## Run it\n")[1].split("\n## ")[0]
    found, in_step = [], False
    for line in screen.splitlines():
        if line.startswith("    $ "):
            found.append((line[6:], []))
            in_step = True
        elif in_step and line.startswith("    "):
            found[-1][1].append(line[4:])
        else:
            in_step = False
    return [(command, "\n".join(told)) for command, told in found]


def a_script_on_the_same_program(room, environment):
    """The command of docs/CHANGING.md that runs scripts on an unproved program builds nothing again."""
    words, how = ["tools/unproved", "environment"], {"cwd": room, "env": environment, "stdin": subprocess.DEVNULL}
    ran = subprocess.run(words, capture_output=True, text=True, timeout=120, **how)
    lines = ran.stdout.splitlines()
    expect("the program of the scripts", (ran.stderr, lines[0]), ("", os.path.join(room, "build/unproved/pawnd")))
    expect("how the script ended", (ran.returncode, lines[-1].endswith(" passed, 0 failed")), (0, True))


def the_demo_on_a_clean_clone():
    """It says first that nothing is proved, then its progress, and then the README's story and the run of
    docs/THEOREM.md."""
    (start, _), *lines = steps()
    expect("what it begins with", start, "make demo")
    if not shutil.which("rt") or not os.path.isdir(os.path.join(TOP, ".git")):
        print("not tried: the demo on a clean clone, since the kit or the repository is not there", flush=True)
        return
    with tempfile.TemporaryDirectory() as room:
        begun = time.monotonic()
        subprocess.run(["git", "clone", "-q", TOP, room], check=True, timeout=60)
        environment = {name: value for name, value in os.environ.items() if name != "PAWND"}
        ran = subprocess.run(
            start.split(), cwd=room, stdin=subprocess.DEVNULL, stdout=subprocess.PIPE, stderr=subprocess.PIPE,
            text=True, env=environment, timeout=1200,
        )
        taken = time.monotonic() - begun
        asks = ["git", "-C", room, "status", "--porcelain"]
        changed = subprocess.run(asks, capture_output=True, text=True, check=True, timeout=60).stdout
        a_script_on_the_same_program(room, environment)
    expect("how it ended", (ran.returncode, changed), (0, ""))
    progress = ran.stderr.splitlines()
    expect("it says how far it is", [it for it in progress if not it.startswith("building without proof: ")], [])
    expect("that it says so", len(progress) > 0, True)
    said = ran.stdout.split("\n")
    expect("its first line", all(word in said[0] for word in ("WITHOUT its proof", "rt try", "make serve")), True)
    rest = ran.stdout
    for command, told in lines:
        if command.startswith("curl "):
            shown = "".join(f"    {line}\n" for line in told.split("\n"))
            expect(f"the demo prints this for {command}: {shown}", shown in rest, True)
            rest = rest.split(shown, 1)[1]
    expect(
        "the requests of docs/THEOREM.md", re.findall(r"(?m)^(\d+)\. ", rest), [str(number) for number in range(1, 16)],
    )
    expect("its end", "23 requests, 23 with an expected reply, 23 answered as expected" in said[-4], True)
    expect("it says where the program is", said[-3].startswith("The program is /"), True)
    expect("Ann's replies when she is alone", re.findall(r"  reply (\d+): the same \d+ bytes", rest), ["5", "9", "10", "15"])
    print(f"        the demo took {taken:.0f} seconds from git clone on", flush=True)
    # Beside other work it takes as much longer as that is more than the processors can do.
    expect(
        f"within {SOON} seconds, where nothing else runs on four processors",
        taken < SOON * max(1, os.getloadavg()[1] / 4, 4 / len(os.sched_getaffinity(0))), True,
    )


STORY = """\
# A clock is taken.
2024-01-31|0|operator|POST /books/7|{"capacity":1,"key":"22222222-2222-2222-2222-222222222222","name":"High Street"}
200 OK|{"book":7}
2024-01-31|0|broker|POST /books/7/terms|{"keep_after":0,"keep_before":0,"rate":0,"version":1}
2024-01-31|1|broker|POST /books/7/pledges|{"article":"Clock","five_days":false,"kind":"fixed","pence":10000,"ref":"A1"}
200 OK|{"number":1,"receipt":"1-00000000-0000-0000-0000-000000000001"}
# And shown the next day.
2024-02-01|0|1-1|GET /books/7/held|
"""


def a_story_of_ones_own():
    """A reply that was not written down is shown, and one that differs from what was written down is reported."""
    with tempfile.TemporaryDirectory() as room:
        path = os.path.join(room, "story.txt")
        for story, status in ((STORY, 0), (STORY.replace('{"book":7}', '{"book":8}'), 2), ("x\n", 2), ("", 2)):
            with open(path, "w") as it:
                it.write(story)
            ran = subprocess.run(
                ["make", "-s", "demo", f"FILE={path}"], cwd=TOP, stdin=subprocess.DEVNULL, capture_output=True,
                text=True, env={**os.environ, "PAWND": PROGRAM}, timeout=60,
            )
            expect(f"how make ended with {story[:200]!r}", ran.returncode, status)
            if story.startswith("#"):
                for line in (
                    "A clock is taken.\n  2024-01-31  POST /books/7   with the operator's key\n",
                    "And shown the next day.\n  2024-02-01  GET /books/7/held   with receipt 1-", "    Article Clock\n",
                ):
                    expect(f"it prints {line!r}", line in ran.stdout, True)
                expect("what it prints of a reply", "NOT AS EXPECTED" in ran.stdout, story != STORY)
            else:
                expect("what it says of no story", "demo: " in ran.stderr and "Traceback" not in ran.stderr, True)


def serve(command, port, data):
    """The service, started by the README's own command, on this port and in this folder."""
    program = subprocess.Popen(
        [*command.split(), f"PORT={port}", f"DATA={data}"], cwd=TOP, stdin=subprocess.DEVNULL, stdout=subprocess.PIPE,
        stderr=subprocess.PIPE, text=True, env={**os.environ, "PAWND": PROGRAM}, start_new_session=True,
    )
    for line in program.stdout:
        if line == f"listening {port}\n":
            return program
    raise Failed(f"it ended with {program.wait()}: {program.stderr.read()}")


def ask(lines, port, folder, data):
    """Runs the lines in turn, and compares what each prints."""
    told_first = RECEIPT.search("\n".join(told for _, told in lines)).group()
    days = sorted(set(re.findall(r"\d{4}-\d\d-\d\d", "\n".join(told for _, told in lines))))
    expect("the days that it names", len(days), 2)
    shell, receipt = "", None
    for command, told in lines:
        command = command.replace(PORT, f"127.0.0.1:{port}").replace("data/", f"{data}/")
        if command.startswith("RECEIPT="):
            command = f"RECEIPT={receipt}"
        if not command.startswith("curl "):
            shell += f"{command}\n"
            continue
        ran = subprocess.run(
            ["bash", "-c", shell + command], cwd=folder, stdin=subprocess.DEVNULL, stdout=subprocess.PIPE,
            stderr=subprocess.DEVNULL, timeout=30,
        )
        said = ran.stdout.decode().strip("\n")
        receipt = next(iter(RECEIPT.findall(said)), receipt)
        told = told.replace(days[0], str(today())).replace(days[1], str(six_months_after(today())))
        expect(command, said, RECEIPT.sub(str(receipt), told).replace(told_first[2:], str(receipt)[2:]))
    if receipt is None:
        raise Failed("no receipt was issued")


def the_operators_key_is_on_no_command_line():
    """Each line that names the key's file gives curl a file to read it from."""
    naming = [command for command, _ in steps() if "operator.key" in command]
    expect("that some line names the key's file", len(naming) > 0, True)
    expect("lines that take the key out of its file", [it for it in naming if "-H @<(" not in it], [])


def the_first_screen():
    _, (start, _), *lines = steps()
    expect("what it goes on with", start, "make serve")
    with tempfile.TemporaryDirectory() as folder:
        port, data = free_port(), os.path.join(folder, "data")
        program = serve(start, port, data)
        begun = time.monotonic()
        try:
            ask(lines, port, folder, data)
            time.sleep(max(0, STAYS - (time.monotonic() - begun)))
            expect("the service after a while", program.poll(), None)
            asked = next(command for command, _ in lines if command.startswith("curl ") and "/export" in command)
            again = subprocess.run(
                ["bash", "-c", asked.replace(PORT, f"127.0.0.1:{port}")], stdout=subprocess.PIPE,
                stderr=subprocess.DEVNULL, timeout=30,
            )
            expect("a request then", again.stdout[:6], b"row,c1")
        finally:
            os.killpg(program.pid, signal.SIGTERM)
            program.communicate(timeout=30)


main(the_demo_on_a_clean_clone, a_story_of_ones_own, the_operators_key_is_on_no_command_line, the_first_screen)
