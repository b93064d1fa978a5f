/**
 * The broker's page: opening the book, and going from part to part. The address names the part, the pledge and the day,
 * and no secret.
 */
import { clockOf, now, onClock } from "../shared/clock.js";
import { today } from "../shared/days.js";
import { byId } from "../shared/dom.js";
import { explainWaiting, moveFocus, onSend, tell } from "../shared/forms.js";
import { startPage } from "../shared/start.js";
import { dateOf, minutesSince, setUpAge, showAge, waitingInWords } from "./age.js";
import { setUpAll, showAll } from "./all.js";
import { mayClose } from "./closing.js";
import { setUpDue, showDue } from "./due.js";
import { clearElsewhere, setUpElsewhere } from "./elsewhere.js";
import { setUpFiles } from "./files.js";
import { clearChoices, setUpFinding } from "./find.js";
import { ledger } from "./ledger.js";
import { clearPledge, leavePledge, redrawPledge, refreshPledge, showPledge } from "./pledge.js";
import { setUpScanner } from "./scanner.js";
import { askBook, begin, current, end, keepSession } from "./session.js";
import { keepShop, refuseReceipts, setUpShop, shop, showShop } from "./shop.js";
import { clearTaking, openTaking, setUpTaking, showTaking } from "./take.js";
import { clearTerms, redrawTerms, setUpTerms, showTerms } from "./terms.js";
import { redrawTill, setUpTill, showTill } from "./till.js";
import { clearToday, redrawToday, refreshToday, setUpToday, sheetReadAt, showToday } from "./today.js";

/** What each part does when it is opened. Its argument is the text after an equals sign in the address. */
const PARTS = {
  today: showToday, take: openTaking, pledge: showPledge, all: showAll, due: showDue, till: showTill, terms: showTerms,
  files: () => {}, shop: showShop,
};
/** What each part draws anew when the book was read or mended. */
const FROM_BOOK = {
  today: redrawToday, take: showTaking, pledge: redrawPledge, all: showAll, due: showDue, till: redrawTill,
  terms: redrawTerms,
};
/** These parts show nothing but the content of the book. */
const LISTS = ["all", "due", "till"];
/** Lists of these parts are emptied when another part is gone to. */
const EMPTIED = ["due", "till"];
const TICK = 20_000;
/** These parts are read again as often as this, in milliseconds, while they are shown. */
const REFRESH = 60_000;
const REFRESHED = { today: refreshToday, pledge: refreshPledge };

let day = today();
let refreshed = 0;
let isOpening = false;
/** Whether the open book was read before. */
let wasRead = false;

function place() {
  const [name, detail] = location.hash.replace("#", "").split("=");
  return PARTS[name] ? { name, detail } : { name: "today", detail: undefined };
}

/** When what a list shows was read, for paper: it lacks what other tills and pawnors did since. */
function copyInWords() {
  const { name } = place();
  if (name === "today") {
    return sheetReadAt() === null ? "" : `By the sheet as it was read ${minutesSince(sheetReadAt())} before. `;
  }
  if (!LISTS.includes(name) || ledger.book === null) return "";
  return `By the book as it was read ${minutesSince(ledger.readAt)} before. `;
}

function showWhose() {
  const { name, till } = shop();
  const whose = [`Book ${current().book}`, name, till].filter(Boolean).join(", ");
  byId("whose-book").textContent = whose;
  byId("paper-head").textContent = `${whose}. ${copyInWords()}Printed on ${dateOf(now())} at ${clockOf(now())}.`;
}

/** Marks the part that is shown among all, and moves the row of parts to it, if another was marked before. */
function mark(name) {
  const places = byId("places");
  for (const link of places.children) {
    if (link.hash !== `#${name}`) link.removeAttribute("aria-current");
    else if (!link.hasAttribute("aria-current")) {
      link.setAttribute("aria-current", "page");
      places.scrollLeft = link.offsetLeft - (places.clientWidth - link.offsetWidth) / 2;
    }
  }
}

/** Puts the page’s title, which names the pledge where one is shown, and returns the part’s heading. */
function putTitle({ name, detail }) {
  const heading = byId(name).querySelector("h1");
  heading.tabIndex = -1;
  const what = name === "pledge" && detail ? `Pledge ${detail}` : heading.textContent;
  document.title = `${what}, book ${current().book}`;
  return heading;
}

async function showPart({ focus }) {
  const open = current() !== null;
  const { name, detail } = place();
  byId("door").hidden = open;
  byId("places").hidden = byId("whose").hidden = byId("book-line").hidden = !open;
  for (const section of document.querySelectorAll("section.place")) section.hidden = !open || section.id !== name;
  if (!open) {
    document.title = "Pledge book";
    mark(null);
    return;
  }
  showWhose();
  clearElsewhere();
  mark(name);
  const heading = putTitle({ name, detail });
  if (focus) moveFocus(heading);
  if (name !== "pledge") {
    clearChoices();
    leavePledge();
  }
  for (const part of EMPTIED) if (part !== name) byId(`${part}-lists`).replaceChildren();
  refreshed = Date.now();
  await PARTS[name](detail);
  if (place().name === name && current() !== null) putTitle(place());
}

/** Opens the book: the key is tried by today's sheet, and the whole book is read after it. */
async function openBook(fields) {
  refuseReceipts({ shop: fields.shop });
  isOpening = true;
  try {
    begin(fields);
    await askBook("GET", `/days/${today()}`);
  } catch (fault) {
    end();
    throw fault;
  } finally {
    isOpening = false;
  }
  day = today();
  keepSession();
  if (fields.shop.trim()) keepShop({ name: fields.shop });
  byId("open").reset();
  const shown = showPart({ focus: true });
  ledger.read().catch(() => {});
  await shown;
  return "";
}

/** The key is hidden while it is typed, unless it is asked for; and once more after the form was sent. */
function setUpKey() {
  const [key, show] = [byId("open-key"), byId("show-key")];
  const put = () => { key.type = show.checked ? "text" : "password"; };
  show.addEventListener("change", put);
  byId("open").addEventListener("reset", () => { key.type = "password"; });
  put();
}

function closeBook() {
  end();
  wasRead = false;
  ledger.forget();
  clearPledge();
  clearTaking();
  clearToday();
  clearTerms();
  for (const list of ["due-lists", "terms-list", "till-lists", "choices"]) byId(list).replaceChildren();
  for (const notice of document.querySelectorAll(".notice")) if (notice.id !== "clock-line") tell(notice, "");
  // What was typed or chosen for one book is not left for another.
  for (const form of document.querySelectorAll("section.place form")) form.reset();
  history.replaceState(null, "", location.pathname);
  showPart({ focus: false });
}

/** Goes to a part by its tab. The tab of the part that is shown already has it shown anew. */
function goByTab({ target }) {
  if (target.hash && target.hash === location.hash) showPart({ focus: true });
}

/** A tab that was left open notices the new day and new requests, and an old book is read anew. */
function tick() {
  if (current() === null || isOpening || document.hidden) return;
  ledger.readIfOld();
  showAge();
  if (day !== today()) {
    day = today();
    showPart({ focus: false });
  } else if (REFRESHED[place().name] && Date.now() - refreshed >= REFRESH) {
    refreshed = Date.now();
    REFRESHED[place().name]();
  }
}

/** A part draws anew the content of the book, or how much of it has been read the first time. */
function drawFromBook({ sort }) {
  if (current() === null) return;
  const { name, detail } = place();
  if (ledger.book === null) {
    if (LISTS.includes(name)) FROM_BOOK[name](detail);
    return;
  }
  if (!["read", "mended"].includes(sort) || ledger.reading) return;
  FROM_BOOK[name]?.(detail);
  // During the first reading of the book, the sheets are read when the part is shown.
  if (name === "today" && sort === "read" && wasRead) refreshToday();
  wasRead = true;
}

startPage(() => {
  setUpElsewhere();
  setUpAge(() => ledger.read().catch(() => {}));
  [setUpToday, setUpTaking, setUpFinding, setUpAll, setUpDue, setUpTill, setUpTerms, setUpFiles, setUpScanner].forEach(
    (setUp) => setUp()
  );
  setUpShop(showWhose);
  explainWaiting(() => (ledger.isAwaited ? waitingInWords() : null));
  ledger.listen(drawFromBook);
  onSend(byId("open"), "broker", openBook);
  setUpKey();
  byId("close-book").addEventListener("click", async () => { if (await mayClose()) closeBook(); });
  byId("places").addEventListener("click", goByTab);
  addEventListener("hashchange", () => showPart({ focus: true }));
  addEventListener("beforeprint", () => { if (current() !== null) showWhose(); });
  document.addEventListener("visibilitychange", tick);
  onClock(() => { if (day !== today()) tick(); });
  setInterval(tick, TICK);
  showPart({ focus: false });
  if (current() !== null) ledger.read().catch(() => {});
});
