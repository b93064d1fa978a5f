"""The oldest browsers that the pages are made for: Safari 15.4, Chromium 100 and Firefox 100. The scripts are of their
level, nothing is used that they lack, and a page that can't start says so. And a computer whose clock is wrong."""
import os
import re
import subprocess
import tempfile

from tests.library.checks import expect, not_tried
from tests.library.dates import today
from tests.library.keys import BROKER
from tests.library.packages import BUILDING, missing, provide
from tests.library.pages.browser import Pages
from tests.library.pages.steps import (
    a_pledge_by_its_receipt, browser, files, in_words, main, make_book, no_faults, open_book, part, read,
    show_receipt, the_clock_goes_on,
)
from tests.library.paths import TOP

PARSER = {"node": "nodejs", "acorn": "node-acorn", **BUILDING}
# What came later than these browsers, in scripts and in styles.
LATER_SCRIPT = {
    "a lookbehind": r"\(\?<[=!]", "class fields": r"^  (?:static|#)", "checkVisibility": r"checkVisibility",
    "requestSubmit": r"requestSubmit", "findLast": r"findLast", "structuredClone": r"structuredClone",
    "a copy of an array": r"\.(?:toSorted|toReversed|toSpliced|with)\(", "groupBy": r"groupBy",
    "AbortSignal's own": r"AbortSignal\.", "sets": r"\.(?:union|intersection|difference)\(",
    "at once": r"withResolvers", "a reflected role": r"\.(?:ariaLabel|ariaInvalid|role) =", "the last of all": r"Array\.fromAsync",
    "popovers and views": r"showPopover|startViewTransition", "inert": r"\.inert\b",
}
LATER_STYLE = {
    ":has": r":has\(", "nesting": r"^\s*&|\{[^{}]*&[^{}]*\{", "containers": r"@container|container-type",
    "layers": r"@layer", "scopes": r"@scope", "new units": r"\d(?:dvh|svh|lvh|cqw|cqi)\b",
    "colours": r"color-mix|oklch", "subgrid": r"subgrid", "ranges": r"@media[^{]*[<>]",
}


def barred(paths, later):
    return [
        (path, what) for path in paths for what, form in later.items() if re.search(form, read(path), re.M)
    ]


def nothing_later_is_used():
    expect("scripts", barred(files(".js"), LATER_SCRIPT), [])
    expect("styles", barred(files(".css"), LATER_STYLE), [])


# Parses the files that the command line names, and counts them.
PARSE = """
const [acorn, fs] = [require("acorn"), require("fs")];
const paths = process.argv.slice(1);
for (const path of paths) {
  try {
    acorn.parse(fs.readFileSync(path, "utf8"), { ecmaVersion: 2021, sourceType: "module" });
  } catch (fault) {
    console.error(`${path}: ${fault.message}`);
  }
}
console.log(`${paths.length} parsed`);
"""


def the_scripts_are_of_their_level():
    """ECMAScript 2021: each module, and each page's own script as it is built."""
    if missing(PARSER):
        return not_tried("the level of the scripts", f"there is no {missing(PARSER)[0]}")
    with tempfile.TemporaryDirectory() as room:
        subprocess.run([os.path.join(TOP, "tools/web"), room], check=True, timeout=60)
        built = [os.path.join(room, name) for name in ("broker/broker.js", "pawn/pawn.js")]
        paths = [os.path.join(TOP, name) for name in files(".js")] + built
        ran = subprocess.run(
            ["node", "-e", PARSE, *paths], env={**os.environ, "NODE_PATH": "/usr/share/nodejs"}, capture_output=True,
            text=True, timeout=60,
        )
        expect("what is not of the level", (ran.returncode, ran.stdout, ran.stderr), (0, f"{len(paths)} parsed\n", ""))
        for path in built:
            with open(path) as it:
                text = it.read()
            expect(f"{path}: no lookbehind", re.findall(r"\(\?<[=!]", text), [])


# What keeps a script from starting: it can't be read, or the browser lacks what it needs.
NO_SCRIPT = {"urls": ["*broker.js*", "*pawn.js*"]}


def a_page_that_cant_start_says_so():
    with Pages() as pages:
        browser.devtools("Network.enable")
        for page in ("broker", "pawn"):
            browser.devtools("Network.setBlockedURLs", **NO_SCRIPT)
            browser.go(f"{pages.address}/{page}/")
            browser.devtools("Network.setBlockedURLs", urls=[])
            browser.says("This page has not started.", "body", patience=15)
            browser.says("Safari 15.4", "#starting")
            browser.shoot(f"{page}-not-started")
            browser.go(f"{pages.address}/{page}/")
            browser.until("return !document.querySelector('#starting')", "a page that has started")
        lacking = browser.devtools("Page.addScriptToEvaluateOnNewDocument", source="delete window.HTMLDialogElement;")
        browser.go(f"{pages.address}/pawn/")
        browser.says("This page has not started.", "body", patience=15)
        browser.devtools("Page.removeScriptToEvaluateOnNewDocument", **lacking)
        browser.faults()


def a_press_before_the_script_is_held():
    """What was typed and sent before the page's script has come is sent once it has, and the page says so."""
    with Pages() as pages:
        make_book(pages)
        receipt = pages.session.open_pledge(1)
        for page, form, fields, then, place in (
            ("broker", "#open", {"book": "7", "key": BROKER}, "Today,", "#today"),
            ("pawn", "#find", {"receipts": receipt, "book": "7"}, "Gold ring", "#cards"),
        ):
            browser.forget()
            browser.devtools("Network.enable")
            browser.devtools("Network.setBlockedURLs", **NO_SCRIPT)
            browser.go(f"{pages.address}/{page}/")
            browser.devtools("Network.setBlockedURLs", urls=[])
            browser.fill(form, **fields)
            browser.press(f"{form} .buttons button")
            browser.says("This is sent once the page has loaded.", form)
            expect("nothing is in the address", browser.run("return location.search.includes('key=')"), False)
            browser.run_later("await import(given[0])", f"/{page}/{page}.js?late")
            browser.says(then, place)
        browser.faults()


def a_clock_that_is_wrong_decides_nothing():
    """A till that is three days ahead says so, and computes with the service's day."""
    ahead = browser.devtools("Page.addScriptToEvaluateOnNewDocument", source=AHEAD)
    try:
        with Pages() as pages:
            make_book(pages)
            receipt = pages.session.open_pledge(1)
            open_book(pages)
            browser.says("The clock of this computer is about 3 days ahead.", "#clock-line")
            browser.says(f"the service’s day, {in_words(today())}", "#clock-line")
            browser.says(f"Today, {in_words(today())}", "#today")
            browser.shoot("broker-clock")
            part("till")
            browser.says(f"Till, today, {in_words(today())}", "#till")
            show_receipt(pages, receipt)
            browser.says("£100.00 owed today", "#cards")
            browser.says("The clock of this computer is about 3 days ahead.", "#clock-line")
            no_faults()
    finally:
        browser.devtools("Page.removeScriptToEvaluateOnNewDocument", **ahead)


AHEAD = """{
  const real = Date;
  const more = 3 * 86400000;
  window.Date = class Ahead extends real {
    constructor(...given) { if (given.length) super(...given); else super(real.now() + more); }
    static now() { return real.now() + more; }
  };
}"""


def a_clock_that_is_set_while_the_page_is_open():
    with a_pledge_by_its_receipt() as (pages, _):
        browser.says("£100.00 owed today", "#cards")
        expect("no word of a good clock", browser.text("#clock-line"), "")
        the_clock_goes_on(-7200, service=False)
        browser.press("#look-again")
        browser.says("The clock of this computer is about 2 h behind.", "#clock-line")
        browser.says(f"the service’s day, {in_words(today())}", "#clock-line")


# The time of the tests does not count what is installed for them.
provide(PARSER)
main(
    (nothing_later_is_used, the_scripts_are_of_their_level),
    (
        a_page_that_cant_start_says_so, a_press_before_the_script_is_held, a_clock_that_is_wrong_decides_nothing,
        a_clock_that_is_set_while_the_page_is_open,
    ),
)
