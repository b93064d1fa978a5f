/**
 * Finding a pledge by its number, the broker's reference, or a receipt or link that is scanned or typed. The service
 * alone knows numbers and receipts, so they wait for no book; a reference is looked for in the book.
 */
import { byId, foreign, make } from "../shared/dom.js";
import { moveFocus, onSearch } from "../shared/forms.js";
import { isReceiptLike, pledgeTyped, whyNotWhole } from "../shared/receipts.js";
import { Unreadable } from "../shared/unreadable.js";
import { ledger } from "./ledger.js";
import { goTo, hasGoneOn, hidePledge, openReceipt, startOfSearch } from "./pledge.js";
import { statementOf } from "./reading.js";

/** At most so many pledges are offered. */
const MOST_CHOICES = 20;

/** What was typed and opened as a number before the book was read and showed whether it is a reference, too. */
let opened = null;

function choice({ number, as }) {
  const pledge = ledger.pledge(number);
  const what = pledge ? [": ", foreign(pledge.article), ", reference ", foreign(pledge.reference)] : [];
  return make(
    "li", {}, make("a", { href: `#pledge=${number}`, className: "pledge-link" }, `Pledge ${number}`), ...what,
    `, by its ${as}`,
  );
}

const showChoices = (meant) =>
  byId("choices").replaceChildren(make("ul", { className: "lines card" }, ...meant.slice(0, MOST_CHOICES).map(choice)));

/** The pledges of a reference: by the book as it was read, or else as it is read now. */
async function named(wanted) {
  const isNew = ledger.book === null;
  await ledger.theBook();
  const found = ledger.withReference(wanted);
  if (found.length > 0 || isNew) return found;
  await ledger.awaitReading();
  return ledger.withReference(wanted);
}

/** The pledge of a number, where no other has that number as its reference. */
async function findNumber(wanted, number, begun) {
  const statement = await statementOf(number, begun.session);
  const others = ledger.withReference(wanted).filter((pledge) => pledge.number !== number);
  if (statement === null) return others.length > 0 ? offer(others, null, begun) : findReference(wanted, begun);
  if (others.length > 0) return offer(others, number, begun);
  if (ledger.book === null && !hasGoneOn(begun)) opened = { wanted, number };
  return goTo(number, begun, { statement });
}

async function findReference(wanted, begun) {
  const found = await named(wanted);
  if (found.length === 0) {
    const why = whyNotWhole(wanted);
    throw new Unreadable(
      "The book has no pledge of that number or reference. "
        + (why ? `It is no whole receipt either: ${why}` : "“All pledges” finds parts of an article or reference."),
      "wanted",
    );
  }
  return offer(found, null, begun);
}

/** Goes to the one pledge that is meant, or offers those that can be: by their reference first. */
async function offer(found, number, begun) {
  const meant = found.map((pledge) => ({ number: pledge.number, as: "reference" }));
  if (number !== null) meant.push({ number, as: "number" });
  if (meant.length === 1) return goTo(meant[0].number, begun);
  if (hasGoneOn(begun)) return { sentence: "More than one pledge can be meant. Press Find to choose.", tone: "quiet" };
  byId("found").hidden = true;
  showChoices(meant);
  moveFocus(byId("choices").querySelector("a"));
  return { sentence: "More than one pledge can be meant.", tone: "quiet" };
}

/** Finds what was typed. No pledge that was found before stays below it, nor is one shown that is still being read. */
async function find({ wanted: typed }) {
  const wanted = typed.trim();
  const begun = startOfSearch();
  clearChoices();
  hidePledge();
  if (isReceiptLike(wanted)) return openReceipt(wanted, begun);
  const number = pledgeTyped(wanted);
  return number ? findNumber(wanted, number, begun) : findReference(wanted, begun);
}

/** Once the book is read, the pledges are offered that have the number as their reference. */
function offerOthers() {
  if (opened === null || location.hash !== `#pledge=${opened.number}`) return;
  const others = ledger.withReference(opened.wanted).filter(({ number }) => number !== opened.number);
  opened = null;
  if (others.length > 0) showChoices(others.map(({ number }) => ({ number, as: "reference" })));
}

export function clearChoices() {
  opened = null;
  byId("choices").replaceChildren();
}

export function setUpFinding() {
  onSearch(byId("finding"), "broker", find);
  ledger.listen(({ sort }) => { if (sort === "read") offerOthers(); });
}
