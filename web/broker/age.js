/** How old the book in the page is, how much of it has come while it is read, and the button that reads it anew. */
import { clockOf } from "../shared/clock.js";
import { byId } from "../shared/dom.js";
import { tellFault } from "../shared/faults.js";
import { ledger } from "./ledger.js";

const MINUTE = 60_000;

/** A moment's date, in the zone of this computer as its hour is. */
export const dateOf = (time) =>
  new Date(time).toLocaleDateString("en-GB", { day: "numeric", month: "long", year: "numeric" });

/** How long something is past: less than a minute, a minute, 2 minutes. */
export function minutesSince(time) {
  const minutes = Math.floor((Date.now() - time) / MINUTE);
  if (minutes === 0) return "less than a minute";
  return minutes === 1 ? "a minute" : `${minutes} minutes`;
}

const ageInWords = (readAt) => `The book was read ${minutesSince(readAt)} ago, at ${clockOf(readAt)}.`;

const megabytes = (bytes) => (bytes / 1e6).toFixed(1);

/** How much of the book has come: "1.2 of 3.3 MB". */
function progressInWords() {
  const { progress } = ledger;
  return progress?.whole > 0 ? `${megabytes(progress.count)} of ${megabytes(progress.whole)} MB` : "it is asked for";
}

/** That a reading of the book is waited for, and how far it is. */
export const waitingInWords = () => `The book is being read: ${progressInWords()}.`;

/** Why a list of the book is not there: how far the reading is, or why there is none. */
export function missingInWords() {
  if (ledger.reading) return `${waitingInWords()} This part is filled then.`;
  return ledger.fault
    ? `The book could not be read: ${tellFault(ledger.fault, "broker")}`
    : "This part is filled once the book is read.";
}

function ageLine() {
  const { book, readAt, fault, reading } = ledger;
  if (reading) {
    return book ? `${waitingInWords()} Until then it is that of ${clockOf(readAt)}.` : waitingInWords();
  }
  const none = "The book was not read yet. Pledges are found by number or receipt, and taken.";
  const age = book ? ageInWords(readAt) : none;
  return fault ? `${age} It could not be read anew: ${tellFault(fault, "broker")}` : age;
}

/** What was said last of the book: whether it is being read, was read, or could not be. */
let spoken = null;

/** Says a sentence; aloud, by a screen reader, only where a reading began or ended: not each minute, nor each piece. */
function sayAge(text) {
  const { fault, reading, readAt } = ledger;
  const line = byId("book-age");
  const state = `${reading ? "reading" : fault ? "failed" : "read"} ${readAt}`;
  line.setAttribute("aria-live", state === spoken ? "off" : "polite");
  spoken = state;
  if (line.textContent !== text) line.textContent = text;
}

/** Says how old the book is, and why a newer one is missing. */
export function showAge() {
  const { fault, reading, progress } = ledger;
  byId("book-bar").hidden = reading === null;
  byId("book-bar").value = progress?.whole > 0 ? progress.count / progress.whole : 0;
  byId("read-book").disabled = reading !== null;
  sayAge(ageLine());
  byId("book-age").classList.toggle("stale", fault !== null && reading === null);
}

export function setUpAge(readAnew) {
  ledger.listen(showAge);
  byId("read-book").addEventListener("click", readAnew);
}
