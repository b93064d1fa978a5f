"""A headless chromium, driven over HTTP by chromedriver, and nginx with the pages in front of a service whose
replies can be lost."""
import atexit
import base64
import contextlib
import functools
import json
import os
import shutil
import signal
import socket
import subprocess
import tempfile
import threading
import time
import urllib.error
import urllib.request

from tests.library.checks import Failed, expect
from tests.library.listening import Listener, read_request
from tests.library.paths import PROGRAM, TOP
from tests.library.program import Server, free_port
from tests.library.sessions import Once
from tests.library.waiting import answers, wait_for

SHOTS = os.path.join(TOP, "build/pages")
WIDTHS = (390, 1280)
PATIENCE = 10
# Counts in each page the requests whose replies have not been shown yet: a page draws what a reply says at once.
COUNTING = """
const real = window.fetch;
window.asking = 0;
window.fetch = async (...request) => {
  window.asking += 1;
  try {
    return await real(...request);
  } finally {
    setTimeout(() => { window.asking -= 1; }, 50);
  }
};
"""


class Relay(Listener):
    """A relay between nginx and the service: a request goes on, and its reply comes back, unless it is to be
    lost."""

    def __init__(self, port):
        super().__init__()
        self.to, self.losing, self.lost = port, None, 0

    @contextlib.contextmanager
    def loses(self, target, times=1):
        """The replies to so many requests whose target ends so are lost."""
        self.losing, self.lost, self.times = target.encode(), 0, times
        yield
        self.losing = None

    def carry(self, asking):
        to = ("127.0.0.1", self.to)
        with asking, contextlib.suppress(OSError), socket.create_connection(to, timeout=PATIENCE) as service:
            asking.settimeout(PATIENCE)
            head, body = read_request(asking)
            service.sendall(head + b"\r\n\r\n" + body)
            reply = b""
            while piece := service.recv(65536):
                reply += piece
            if self.losing and self.lost < self.times and head.split(b" ")[1].endswith(self.losing):
                self.lost += 1
                return
            asking.sendall(reply)


class Cut(Listener):
    """A line between the browser and nginx. It ends the connection of the first POST to a target that ends so, once nginx
    has replied, and passes nothing of the reply on. `begun` counts such requests."""

    def __init__(self, port, target):
        super().__init__()
        self.to, self.head, self.begun = port, f"{target} HTTP/1.1\r\n".encode(), 0

    @property
    def address(self):
        return f"http://localhost:{self.port}"

    def carry(self, asking):
        with asking, contextlib.suppress(OSError), socket.create_connection(("127.0.0.1", self.to)) as nginx:
            cut = threading.Event()
            threading.Thread(target=self.pass_back, args=(nginx, asking, cut), daemon=True).start()
            while piece := asking.recv(65536):
                if piece.startswith(b"POST ") and self.head in piece:
                    self.begun += 1
                    if self.begun == 1:
                        cut.set()
                nginx.sendall(piece)

    @staticmethod
    def pass_back(nginx, asking, cut):
        with contextlib.suppress(OSError):
            while (piece := nginx.recv(65536)) and not cut.is_set():
                asking.sendall(piece)
            asking.shutdown(socket.SHUT_RDWR)


@functools.cache
def release():
    """A folder as a release has it, in which `tools/pages` finds the pages built: they are built once for a script, since
    a busy machine takes seconds for that."""
    room = tempfile.mkdtemp(prefix="pawnd-pages-")
    atexit.register(shutil.rmtree, room, ignore_errors=True)
    os.chmod(room, 0o711)
    subprocess.run([os.path.join(TOP, "tools/web"), os.path.join(room, "web")], check=True, timeout=120)
    for name in ("pages", "common.sh"):
        shutil.copy(os.path.join(TOP, "tools", name), room)
    os.symlink(os.path.join(TOP, "deploy"), os.path.join(room, "deploy"))
    os.symlink(PROGRAM, os.path.join(room, "pawnd"))
    return room


class Pages:
    """The pages by `tools/pages`, in front of a service; of a store in memory, where no other is made in the room."""

    def __init__(self, served=lambda room: Server()):
        self.served = served

    def __enter__(self):
        self.stack = contextlib.ExitStack()
        self.room = self.stack.enter_context(tempfile.TemporaryDirectory())
        os.chmod(self.room, 0o711)
        self.server = self.stack.enter_context(self.served(self.room))
        self.relay = self.stack.enter_context(Relay(self.server.port))
        self.port = free_port()
        self.address = f"http://localhost:{self.port}"
        self.session = Once(self.server.port)
        self.web = os.path.join(release(), "web")
        self.nginx = subprocess.Popen(
            [os.path.join(release(), "pages")], stdin=subprocess.DEVNULL, stdout=subprocess.DEVNULL,
            stderr=subprocess.DEVNULL, start_new_session=True,
            env={
                **os.environ, "PORT": str(self.relay.port), "PAGES_PORT": str(self.port),
                "ROOM": os.path.join(self.room, "room"),
            },
        )
        self.stack.callback(self.end_nginx)
        wait_for(lambda: answers(self.address + "/"), "nginx", 30)
        return self

    def __exit__(self, *_):
        self.stack.close()

    def with_modules(self):
        """Puts the modules beside the pages that were built of them, for tests of one module alone."""
        for folder in ("shared", "broker"):
            for name in os.listdir(os.path.join(TOP, "web", folder)):
                if not os.path.exists(os.path.join(self.web, folder, name)):
                    shutil.copy(os.path.join(TOP, "web", folder, name), os.path.join(self.web, folder))
        subprocess.run(
            [
                "esbuild", os.path.join(TOP, "web/shared/qr.js"), "--bundle", "--format=esm", "--allow-overwrite",
                "--log-level=warning", f"--outfile={self.web}/shared/qr.js",
            ],
            env={**os.environ, "NODE_PATH": "/usr/share/nodejs"}, check=True, timeout=30,
        )

    def end_nginx(self):
        os.killpg(self.nginx.pid, signal.SIGTERM)
        self.nginx.wait(timeout=20)


class Browser:
    """One window of a headless chromium."""

    def __init__(self):
        self.more = []

    def __enter__(self):
        self.room = tempfile.TemporaryDirectory()
        self.port = free_port()
        self.driver = subprocess.Popen(
            ["chromedriver", f"--port={self.port}"], stdin=subprocess.DEVNULL, stdout=subprocess.DEVNULL,
            stderr=subprocess.DEVNULL, start_new_session=True,
        )
        wait_for(lambda: answers(f"http://127.0.0.1:{self.port}/status"), "chromedriver", 30)
        options = {
            "binary": shutil.which("chromium"), "prefs": {"download.default_directory": self.room.name},
            "args": [
                "--headless=new", "--no-sandbox", "--disable-gpu", "--disable-background-networking",
                "--disable-dev-shm-usage", "--lang=en-GB", "--host-resolver-rules=MAP * ~NOTFOUND, EXCLUDE localhost", *self.more,
            ],
        }
        wanted = {"browserName": "chrome", "goog:loggingPrefs": {"browser": "ALL"}, "goog:chromeOptions": options}
        self.path, self.loaded = "", 0
        self.path = "/session/" + self.ask("POST", "/session", {"capabilities": {"alwaysMatch": wanted}})["sessionId"]
        self.devtools("Page.addScriptToEvaluateOnNewDocument", source=COUNTING)
        self.resize(WIDTHS[0])
        return self

    def __exit__(self, *_):
        with contextlib.suppress(Failed, OSError):
            self.ask("DELETE", "")
        os.killpg(self.driver.pid, signal.SIGKILL)
        self.driver.wait()
        self.room.cleanup()

    def ask(self, method, what, body=None):
        asked = urllib.request.Request(
            f"http://127.0.0.1:{self.port}{self.path}{what}", None if body is None else json.dumps(body).encode(),
            {"Content-Type": "application/json"}, method=method,
        )
        try:
            with urllib.request.urlopen(asked, timeout=40) as reply:
                return json.load(reply)["value"]
        except urllib.error.HTTPError as fault:
            raise Failed(f"{what}: {json.load(fault)['value']['message'].splitlines()[0]}") from fault

    def go(self, address):
        """Loads a page anew, even where only the fragment differs: the query, which no page reads, is another each
        time."""
        self.loaded += 1
        path, *fragment = address.split("#")
        self.ask("POST", "/url", {"url": "#".join([f"{path}?{self.loaded}", *fragment])})

    def forget(self):
        """Empties what the tab keeps for the page that it shows."""
        self.run("try { sessionStorage.clear(); } catch { /* no page yet */ }")

    def run(self, script, *arguments):
        return self.ask("POST", "/execute/sync", {"script": script, "args": list(arguments)})

    def run_later(self, script, *arguments):
        """The same of a script that returns a promise."""
        whole = (
            f"const done = arguments[arguments.length - 1]; (async (...given) => {{ {script} }})(...arguments)"
            ".then(done, (fault) => done(String(fault)))"
        )
        return self.ask("POST", "/execute/async", {"script": whole, "args": list(arguments)})

    @contextlib.contextmanager
    def without_a_line(self):
        """The browser reaches no server."""
        def put(offline):
            line = {"latency": 0, "downloadThroughput": -1, "uploadThroughput": -1}
            self.devtools("Network.enable")
            self.devtools("Network.emulateNetworkConditions", offline=offline, **line)

        put(True)
        try:
            yield
        finally:
            put(False)

    def devtools(self, command, **parameters):
        return self.ask("POST", "/goog/cdp/execute", {"cmd": command, "params": parameters})

    def until(self, script, what, *arguments, patience=PATIENCE):
        return wait_for(lambda: self.run(script, *arguments), what, patience)

    def rests(self):
        """Waits until the page has shown all that it asked for, as after an act the pledge is read anew."""
        self.until("return !window.asking", "a page that has shown what it asked for")

    def element(self, selector, text=None):
        """A visible element of the page by its selector, and by its text if there is one."""
        script = """return [...document.querySelectorAll(arguments[0])].find(
            (one) => one.checkVisibility() && (arguments[1] === null || one.textContent.trim() === arguments[1]),
        ) ?? null"""
        found = self.until(script, f"{selector} {text or ''}", selector, text)
        return next(iter(found.values()))

    def press(self, selector, text=None):
        """Presses an element; once more where it was drawn anew in between."""
        for last in (False, False, True):
            try:
                self.ask("POST", f"/element/{self.element(selector, text)}/click", {})
                return
            except Failed as why:
                if last or not any(
                    word in str(why) for word in ("stale element", "not interactable", "click intercepted")
                ):
                    raise
                time.sleep(0.2)

    def keys(self, text):
        """Keys that are pressed and let go in turn, wherever the focus is."""
        strokes = [{"type": kind, "value": key} for key in text for kind in ("keyDown", "keyUp")]
        self.ask("POST", "/actions", {"actions": [{"type": "key", "id": "keys", "actions": strokes}]})

    def fill(self, form, **fields):
        """Puts texts into the fields of a form, and chooses what is chosen; a file is named."""
        self.element(form)
        for name, value in fields.items():
            if self.run(FILL, f"{form} [name={name}]", value) == "file":
                self.ask("POST", f"/element/{self.element(f'{form} [name={name}]')}/value", {"text": value})

    def text(self, selector="body"):
        return self.run("return document.querySelector(arguments[0])?.innerText ?? ''", selector)

    def says(self, part, selector="main", patience=PATIENCE):
        """Waits until the element's text holds this part."""
        end = time.monotonic() + patience
        while part not in (text := self.text(selector)):
            if time.monotonic() > end:
                raise Failed(f"{selector} does not say {part!r} but {text!r:.900}")
            time.sleep(0.03)

    def resize(self, width):
        self.devtools(
            "Emulation.setDeviceMetricsOverride", width=width, height=844 if width < 600 else 900, deviceScaleFactor=1,
            mobile=width < 600,
        )

    def shoot(self, name):
        """Pictures of the whole page at each width, where it is checked too: nothing is cut off, each field has its
        name, and texts stand out."""
        os.makedirs(SHOTS, exist_ok=True)
        for width in WIDTHS:
            self.resize(width)
            expect(f"{name}: what is wrong at {width}", self.run(CHECK, width), [])
            size = self.devtools("Page.getLayoutMetrics")["cssContentSize"]
            picture = self.devtools(
                "Page.captureScreenshot", captureBeyondViewport=True,
                clip={"x": 0, "y": 0, "width": width, "height": size["height"], "scale": 1},
            )
            with open(os.path.join(SHOTS, f"{name}-{width}.png"), "wb") as it:
                it.write(base64.b64decode(picture["data"]))
        self.resize(WIDTHS[0])

    def print(self, name):
        """The page on paper of its own size, as PDF."""
        pdf = base64.b64decode(self.devtools("Page.printToPDF", preferCSSPageSize=True, printBackground=True)["data"])
        os.makedirs(SHOTS, exist_ok=True)
        with open(os.path.join(SHOTS, f"{name}.pdf"), "wb") as it:
            it.write(pdf)
        return pdf

    def faults(self):
        """What the console complained of since it was asked last; refusals are replies, and no faults of the page."""
        return [
            entry["message"]
            for entry in self.ask("POST", "/se/log", {"type": "browser"})
            if entry["level"] != "INFO" and not ("/books/" in entry["message"] and "status of" in entry["message"])
        ]


# Puts a value into a field as a person's typing would, and returns the field's type.
FILL = r"""
const fields = [...document.querySelectorAll(arguments[0])];
const field = fields.find((one) => one.type !== "radio" || one.value === arguments[1]);
if (field.type === "radio" || field.type === "checkbox") field.checked = true;
else if (field.type !== "file") field.value = arguments[1];
field.dispatchEvent(new Event("input", { bubbles: true }));
return field.type;
"""

# What is wrong with the page as it is shown, as a list of texts.
CHECK = r"""
const wrong = [];
const width = arguments[0];
if (document.documentElement.scrollWidth > width) wrong.push(`it is ${document.documentElement.scrollWidth} wide`);
const seen = [...document.querySelectorAll("body *")].filter((one) => one.checkVisibility());
for (const one of seen) {
  if (one.matches("input, select, textarea") && one.labels.length === 0 && !one.ariaLabel) {
    wrong.push(`no label: ${one.name}`);
  }
  if (one.matches("button, a, summary") && !one.textContent.trim() && !one.ariaLabel) {
    wrong.push("a button or link without words");
  }
  if (one.matches("button, input:not([type=radio], [type=checkbox]), select") && one.offsetHeight < 36) {
    wrong.push(`too small to touch: ${one.textContent || one.name}`);
  }
}
if (seen.filter((one) => one.matches("h1")).length !== 1) wrong.push("not one heading of the page");
const colours = (text) => {
  const all = text.match(/[\d.]+/g).map(Number);
  return { rgb: all.slice(0, 3), whole: all.length === 3 || all[3] === 1 };
};
const linear = (one) => (one <= 0.04045 ? one / 12.92 : ((one + 0.055) / 1.055) ** 2.4);
const light = (rgb) => rgb.map((one) => linear(one / 255))
  .reduce((sum, one, place) => sum + one * [0.2126, 0.7152, 0.0722][place], 0);
const ratio = (first, second) => {
  const [low, high] = [light(first), light(second)].sort((one, other) => one - other);
  return (high + 0.05) / (low + 0.05);
};
const behind = (one) => {
  for (let at = one; at; at = at.parentElement) {
    const found = colours(getComputedStyle(at).backgroundColor);
    if (found.whole) return found.rgb;
  }
  return [255, 255, 255];
};
for (const one of seen) {
  const own = [...one.childNodes].some((node) => node.nodeType === 3 && node.textContent.trim());
  if (own) {
    const found = ratio(colours(getComputedStyle(one).color).rgb, behind(one));
    if (found < 4.5) wrong.push(`contrast ${found.toFixed(2)}: ${one.textContent.slice(0, 40)}`);
  }
  if (one.matches("input:not([type=radio], [type=checkbox], [type=file]), select, textarea")) {
    const found = ratio(colours(getComputedStyle(one).borderTopColor).rgb, behind(one.parentElement));
    if (found < 3) wrong.push(`edge ${found.toFixed(2)}: ${one.name}`);
  }
}
return wrong;
"""
