/**
 * The sheet of a day: who comes, who asked to come and waits for an answer, whose confirmed visit is past, and which
 * periods end.
 */
import { endInShort, madeInWords, turnInShort } from "../shared/after.js";
import { clockOf } from "../shared/clock.js";
import { inShort, plusDays, seenFrom, today } from "../shared/days.js";
import { byId, foreign, make } from "../shared/dom.js";
import { run, tell } from "../shared/forms.js";
import { inPounds } from "../shared/money.js";
import { isHeldOn } from "../shared/period.js";
import { readSheet } from "../shared/sheet.js";
import { STATUSES } from "../shared/statuses.js";
import { termsInWords } from "../shared/terms.js";
import { bookingInShort } from "../shared/visits.js";
import { isOverToday, windowInWords } from "../shared/windows.js";
import { putDay, setUpDayForm, showDayOf } from "./dayform.js";
import { pastVisits, waiting } from "./groups.js";
import { ledger } from "./ledger.js";
import { askBook, current } from "./session.js";
import { pledgeLink } from "./tables.js";

/** A card shows at most so many lines. */
const MOST_LINES = 40;
/** The sheets of so many days after today are looked at, too, for visits that were asked for meanwhile. */
const AHEAD = 7;

let notice;
let sheet = null;
/** When the sheet that is shown was read. */
let readAt = 0;
/** The day whose sheet was asked for last, if it could not be read; or null. */
let failed = null;
/** The sheets that were read since this part was gone to, by their days. */
const sheets = new Map();

function card(title, lines, empty) {
  const shown = lines.slice(0, MOST_LINES);
  const more = lines.length - MOST_LINES;
  if (more > 0) shown.push(make("li", {}, `and ${more} more: see “All pledges”.`));
  const body = lines.length > 0
    ? make("ul", { className: "lines" }, ...shown)
    : make("p", { className: "empty" }, empty);
  return make("section", { className: "card" }, make("h2", {}, title), body);
}

/**
 * What the book has of a pledge: its reference, what is owed, its end with the days of grace and what comes after it,
 * its visit where the line is about something else, and its terms.
 */
function detailOf(pledge, withVisit) {
  const { reference, fiveDays, state, booking, closed } = pledge;
  // On paper, “today” would be the day of the sheet.
  const now = sheet.day === today() ? "today" : `on ${inShort(today())}`;
  const owed = ledger.owed(pledge);
  const terms = ledger.termsOf(pledge);
  const end = `${endInShort(pledge)}${madeInWords(pledge)}, with ${fiveDays ? "five" : "no"} days of grace`;
  const isOpen = state === "open";
  const told = [
    isOpen ? isHeldOn(pledge, today()) && "on hold" : `${STATUSES[state].name} ${inShort(closed)}`,
    owed && `${inPounds(owed.owing)} owed ${now}`, end, isOpen && turnInShort(pledge),
    withVisit && isOpen && bookingInShort(booking), terms && termsInWords(terms),
  ];
  return make(
    "span", { className: "reference" }, "reference ", foreign(reference), `; ${told.filter(Boolean).join("; ")}`,
  );
}

/** A pledge's link with its article and what the book has of it. */
function named(number, { withVisit = false } = {}) {
  const pledge = ledger.pledge(number);
  const more = pledge ? [foreign(pledge.article), detailOf(pledge, withVisit)] : [];
  return make("span", { className: "links" }, pledgeLink(number), ...more);
}

/** The time of a visit, and whether it is over already. */
const timeOf = (visit) => `${windowInWords(visit.window)}${isOverToday(visit) ? ", which is over" : ""}`;

function windowLine({ window, capacity, pledges }) {
  const count = make("span", { className: "count" }, `${pledges.length} of ${capacity} places`);
  const time = make("span", { className: "time" }, timeOf({ day: sheet.day, window }));
  return make("li", {}, time, count, ...pledges.map((number) => named(number)));
}

const keyOf = ({ day, window }) => `${day} ${String(window).padStart(2, "0")}`;

/**
 * The visits that wait: those of the sheets that were read, and on other days those of the book in the page.
 */
function asked() {
  const others = ledger.book
    ? waiting(ledger.book, today()).map(({ number, booking }) => ({ number, ...booking })).filter(({ day }) => !sheets.has(day))
    : [];
  const read = [...sheets.values()].flatMap(
    ({ day, asked: all }) => all.map(({ number, window }) => ({ number, window, day }))
  );
  return [...others, ...read].sort((one, other) => (keyOf(one) < keyOf(other) ? -1 : 1));
}

function askedLine({ number, window, day }) {
  const now = today();
  // On the sheet of another day, “in 5 days” could be counted from that day.
  const seen = day < now ? ", which is over" : sheet.day === now ? `, ${seenFrom(now, day)}` : "";
  const time = `${inShort(day)}${seen}, ${timeOf({ day, window })}`;
  return make("li", {}, make("span", { className: "time" }, time), named(number));
}

/** Before the book was read, only the days whose sheets were read are known. */
function waitingCard() {
  const lines = asked().map(askedLine);
  if (ledger.book !== null) {
    return card("Waiting for an answer, on any day", lines, "Nobody waits for an answer, by the book as it was read.");
  }
  const whole = card("Waiting for an answer, as far as was read", lines, "Nobody asked to come, as far as was read.");
  whole.append(make("p", { className: "empty" }, "Other days, and articles, are shown once the book is read."));
  return whole;
}

/** The past visits that were confirmed: they are on no sheet of a day to come. Nothing where there is none. */
function pastCard() {
  const past = ledger.book ? pastVisits(ledger.book, today()) : [];
  if (past.length === 0) return null;
  const line = ({ number, booking: { day, window } }) => make(
    "li", {}, make("span", { className: "time" }, `${inShort(day)}, ${windowInWords(window)}`), named(number),
  );
  const made = card("Past visits that were confirmed", past.map(line), "");
  made.append(make(
    "p", { className: "empty" },
    "The book does not record whether the pawnor came. A visit that is refused on its pledge’s page leaves this list.",
  ));
  return made;
}

const endsLine = (number) => make("li", {}, named(number, { withVisit: true }));

function draw() {
  showDayOf("today", sheet.day, { isToday: "Today" });
  const coming = sheet.day < today() ? "Confirmed for this day" : "Coming";
  const cards = [
    card(coming, sheet.windows.map(windowLine), "No visit is confirmed for this day."),
    waitingCard(),
    pastCard(),
    card("Period ends", sheet.ends.map(endsLine), "No period ends on this day."),
  ].filter(Boolean);
  // Where nothing is new, whatever has the focus or is being pressed stays.
  const isNew = cards.map(({ textContent }) => textContent).join("") !== byId("sheet").textContent;
  if (isNew) byId("sheet").replaceChildren(...cards);
}

async function fetchSheet(day) {
  const session = current();
  const found = readSheet((await askBook("GET", `/days/${day}`)).text);
  if (session === current()) sheets.set(day, found);
  return found;
}

/** Whether a sheet has a request for a visit that the book in the page lacks: a pawnor asked since it was read. */
const hasNews = ({ day, asked: all }) => ledger.book !== null && all.some(({ number, window }) => {
  const booking = ledger.pledge(number)?.booking;
  return booking?.day !== day || booking.window !== window || booking.state !== "asked";
});

/** When the sheet that is shown was read, or null if none is shown. */
export const sheetReadAt = () => (sheet === null ? null : readAt);

/** A sheet was read: when what is shown was read, and that it can't be read, is no longer said. */
function noteRead() {
  readAt = Date.now();
  tell(byId("sheet-old"), "");
  if (failed === null) return;
  failed = null;
  tell(notice, "");
}

async function read(day) {
  const session = current();
  const found = await fetchSheet(day);
  if (session !== current()) return;
  sheet = found;
  noteRead();
  draw();
  if (hasNews(found)) ledger.anotherChanged();
}

/** After a look that failed: the sheet of another day goes, and that of this day says when it was read. */
function showAsOld(day) {
  if (sheet?.day === day) {
    tell(byId("sheet-old"), `What is shown was read at ${clockOf(readAt)}.`);
    return;
  }
  clearToday();
  showDayOf("today", day, { isToday: "Today" });
}

/** Reads a sheet, and shows it. */
async function show(day) {
  const session = current();
  failed = null;
  try {
    await read(day);
  } catch (fault) {
    if (session === current()) {
      showAsOld(day);
      failed = day;
    }
    throw fault;
  }
}

/**
 * Looks at the sheet that is shown, or that could not be shown, and at those of the next days, without a word; what is
 * new in them is drawn. After a look that fails, the page says when what it shows was read. The sheet that is shown may
 * have been read just now.
 */
export async function refreshToday({ isShownRead = false } = {}) {
  const day = sheet?.day ?? failed;
  if (day === null) return;
  const next = Array.from({ length: AHEAD + 1 }, (_, count) => plusDays(today(), count));
  const wanted = new Set([day, ...next]);
  if (isShownRead) wanted.delete(day);
  try {
    for (const one of wanted) await fetchSheet(one);
  } catch {
    if (sheet?.day === day) showAsOld(day);
    return;
  }
  // Where the part was gone to again meanwhile, its sheet is on its way.
  if ((sheet?.day ?? failed) !== day || !sheets.has(day)) return;
  sheet = sheets.get(day);
  noteRead();
  draw();
}

export function clearToday() {
  sheet = failed = null;
  sheets.clear();
  byId("sheet").replaceChildren();
  tell(byId("sheet-old"), "");
}

export function setUpToday() {
  notice = setUpDayForm("today", show);
}

/** The sheet of the day that the address names, or today's. */
export async function showToday(day) {
  sheets.clear();
  putDay("today", day ?? today());
  const act = async () => { await show(day ?? today()); return ""; };
  const fault = await run({ notice, within: byId("sheet-day"), reader: "broker", act });
  if (fault === null) await refreshToday({ isShownRead: true });
}

/** The list of who waits is drawn again when the book was read. */
export const redrawToday = () => { if (sheet) draw(); };
