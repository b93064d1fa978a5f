/** The book's terms: the versions that it has, and the next. */
import { refusalOf } from "../shared/codes.js";
import { byId, make } from "../shared/dom.js";
import { Lost, lookFirst } from "../shared/faults.js";
import { onSend, run, tell, underWay } from "../shared/forms.js";
import { inPounds } from "../shared/money.js";
import { confirmed, NOTHING_DONE } from "../shared/questions.js";
import { Unreadable } from "../shared/unreadable.js";
import { ledger } from "./ledger.js";
import { askBook, current, refuseOther } from "./session.js";
import { labelled } from "./tables.js";

/** Rates are kept in millionths a day, which is so many places of a per cent; charges in millionths of a penny. */
const RATE_PLACES = 4;
const CHARGE_PLACES = 6;
/** The highest rate a day that the service takes, in millionths; and the highest charge, in millionths of a penny. */
const MOST_RATE = 20_000;
const MOST_KEEPING = 10_000_000;

/** A decimal as a whole number of its last place. */
function readDecimal(text, places, field) {
  const found = new RegExp(`^(\\d{1,4})(?:\\.(\\d{1,${places}}))?$`).exec(text.trim());
  if (!found) throw new Unreadable(`Write a number such as 0 or 0.5, with at most ${places} places.`, field);
  return Number(found[1] + (found[2] ?? "").padEnd(places, "0"));
}

/** A whole number of the last place as a decimal, without zeros at its end. */
function inDecimal(value, places) {
  const digits = String(value).padStart(places + 1, "0");
  return `${digits.slice(0, -places)}.${digits.slice(-places)}`.replace(/\.?0+$/, "");
}

const readTerms = ({ rate, before, after }) => ({
  rate: readDecimal(rate, RATE_PLACES, "rate"),
  keep_before: readDecimal(before, CHARGE_PLACES, "before"),
  keep_after: readDecimal(after, CHARGE_PLACES, "after"),
});

/** What a hundred pounds cost for thirty days. */
function exampleOf(terms) {
  const interest = Math.floor((10000 * terms.rate * 30) / 1e6);
  const keeping = Math.floor((terms.keep_before * 30) / 1e6);
  return `£100.00 for 30 days: ${inPounds(interest)} of interest and ${inPounds(keeping)} for safe keeping.`;
}

const HEADS = ["Version", "Interest a day", "Keeping a day", "After the end"];

function row({ version, rate, keepBefore, keepAfter }) {
  const cells = [
    String(version), `${inDecimal(rate, RATE_PLACES)}%`, `${inDecimal(keepBefore, CHARGE_PLACES)}p`,
    `${inDecimal(keepAfter, CHARGE_PLACES)}p`,
  ];
  return labelled(make("tr", {}, ...cells.map((cell) => make("td", {}, cell))), HEADS);
}

/** The versions that the book has, by its head as it was read last. */
const known = () => ledger.head.terms;

/** Shows these versions. */
function draw() {
  const versions = known();
  const heads = HEADS.map((head) => make("th", { scope: "col" }, head));
  const table = make(
    "table", { className: "list" }, make("thead", {}, make("tr", {}, ...heads)),
    make("tbody", {}, ...versions.map(row).reverse()),
  );
  const none = make("p", { className: "empty" }, "The book has no terms yet. A pledge can be taken once it has.");
  byId("terms-list").replaceChildren(
    make("section", { className: "card" }, make("h2", {}, "The book’s terms"), versions.length > 0 ? table : none)
  );
  byId("next-version").textContent = `Version ${versions.length + 1}`;
}

async function readAnew() {
  const begun = current();
  await ledger.readHead();
  if (begun === current()) draw();
}

/** Throws where the service takes no such terms, before they are asked about. */
function refuseTerms({ rate, keep_before: before, keep_after: after }) {
  if (rate > MOST_RATE) throw refusalOf("RateTooHigh");
  if (before > MOST_KEEPING) throw refusalOf("KeepTooHigh");
  if (after > before) throw refusalOf("KeepingRate");
}

/** A version stays in the book, and each pledge that is taken from then on keeps it, so it is asked about. */
const agreedTo = (terms, version) => confirmed({
  title: "Add these terms?",
  lines: [
    exampleOf(terms),
    terms.keep_before > 0 || terms.keep_after > 0
      ? `Safe keeping: ${inDecimal(terms.keep_before, CHARGE_PLACES)}p a day, after the end `
        + `${inDecimal(terms.keep_after, CHARGE_PLACES)}p a day.`
      : null,
    `They are version ${version}. Each pledge that is taken from now on keeps them, at every till, until other terms `
      + "are added. A version can’t be changed or taken back.",
  ],
  yes: `Add version ${version}`, no: "Not now",
});

function showExample() {
  const said = byId("terms-example");
  try {
    said.textContent = exampleOf(readTerms(Object.fromEntries(new FormData(byId("new-terms")))));
  } catch {
    said.textContent = "";
  }
}

let notice;

const isSame = (one, { rate, keep_before: keepBefore, keep_after: keepAfter }) =>
  one?.rate === rate && one.keepBefore === keepBefore && one.keepAfter === keepAfter;

const LOST = "The reply was lost, so the terms may have been added. Add them again: they are not added twice.";

async function add(fields) {
  const begun = current();
  const terms = readTerms(fields);
  refuseTerms(terms);
  // Another till may have added a version since.
  await lookFirst(readAnew());
  refuseOther(begun);
  const versions = known();
  if (isSame(versions.at(-1), terms)) {
    return { sentence: `Version ${versions.length} has these terms already, so nothing was added.`, tone: "quiet" };
  }
  const body = { version: versions.length + 1, ...terms };
  if (!await agreedTo(terms, body.version)) return NOTHING_DONE;
  const done = `Version ${body.version} is in the book. It applies to pledges that are taken from now on.`;
  try {
    await askBook("POST", "/terms", { body, harmless: true, begun });
  } catch (fault) {
    if (fault instanceof Lost) return { sentence: LOST, tone: "bad" };
    throw fault;
  }
  if (begun !== current()) return done;
  byId("new-terms").reset();
  showExample();
  try {
    await readAnew();
    return done;
  } catch {
    return `${done} The list above could not be read anew just now.`;
  }
}

export function setUpTerms() {
  byId("new-terms").addEventListener("input", showExample);
  notice = onSend(byId("new-terms"), "broker", add);
}

/** Nothing of one book's terms is left for another. */
export function clearTerms() {
  byId("terms-example").textContent = "";
}

/** Shows the terms. They come first in the book, so nothing waits for the rest of it. */
export function showTerms() {
  const within = byId("new-terms");
  if (ledger.head === null) {
    const act = async () => { await readAnew(); return ""; };
    return run({ notice, within, reader: "broker", act, mayBeOvertaken: true });
  }
  // What terms that are on their way come to is reported.
  if (!underWay.has(within)) tell(notice, "");
  draw();
  return null;
}

/** The same once the book was read again: another till may have added a version. */
export function redrawTerms() {
  if (ledger.head !== null) draw();
}
