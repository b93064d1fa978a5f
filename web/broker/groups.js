/** The groups of pledges by their status on a day, and the search for them. */
import { plusDays } from "../shared/days.js";
import { isHeldOn, statusOn } from "../shared/period.js";
import { pledgeTyped, receiptsTyped } from "../shared/receipts.js";
import { isOpen } from "../shared/statuses.js";
import { isPast, isToCome } from "../shared/visits.js";

const hasStatus = (...wanted) => (now) => (pledge) => wanted.includes(statusOn(pledge, now));

/** How many days before a period's end it is said to end soon. */
const SOON = 30;

function endsSoon(now) {
  const last = plusDays(now, SOON);
  return ({ state, ends }) => state === "open" && ends >= now && ends <= last;
}

const stillOpen = (now) => (pledge) => isOpen(statusOn(pledge, now));

const isHeld = (now) => (pledge) => isHeldOn(pledge, now);

const somebodyComes = (now) => (pledge) => isToCome(pledge.booking, now) && stillOpen(now)(pledge);
const wasToCome = (now) => (pledge) => isPast(pledge.booking, now) && stillOpen(now)(pledge);

/** The groups that a list can be narrowed to: for a day, whether a pledge is in it. */
export const GROUPS = {
  all: { name: "All", of: () => () => true },
  open: { name: "Open", of: stillOpen },
  due: { name: `Ends within ${SOON} days`, of: endsSoon },
  grace: { name: "In grace", of: hasStatus("grace") },
  sale: { name: "Can be sold", of: hasStatus("realisable") },
  passed: { name: "Passed", of: hasStatus("passed") },
  redeemed: { name: "Redeemed", of: hasStatus("redeemed") },
  sold: { name: "Sold", of: hasStatus("sold") },
  held: { name: "On hold", of: isHeld },
  comes: { name: "Visit to come", of: somebodyComes },
  past: { name: "Past visit", of: wasToCome },
};

const byEnd = (one, other) => (one.ends < other.ends ? -1 : one.ends > other.ends ? 1 : one.number - other.number);

/** The pledges of each group of what is due, the earliest end first: one of a group is in none of the others. */
export function dueOf(book, now) {
  const [week, fortnight, month] = [7, 14, SOON].map((count) => plusDays(now, count));
  const lists = { grace: [], week: [], fortnight: [], month: [], sale: [], passed: [] };
  const over = { grace: "grace", realisable: "sale", passed: "passed" };
  for (const pledge of book.pledges.filter(({ state, ends }) => state === "open" && ends <= month).sort(byEnd)) {
    const inside = pledge.ends <= week ? "week" : pledge.ends <= fortnight ? "fortnight" : "month";
    lists[over[statusOn(pledge, now)] ?? inside].push(pledge);
  }
  return lists;
}

function by(key) {
  return (one, other) => {
    const [first, second] = [key(one), key(other)];
    return first < second ? -1 : first > second ? 1 : one.number - other.number;
  };
}

/** By the day and the time of their visits. */
const byVisit = by(({ booking }) => `${booking.day} ${String(booking.window).padStart(2, "0")}`);

/** The visits that were asked for and wait for an answer, by day and time: of a passed article none is decided on. */
export const waiting = (book, now) =>
  book.pledges.filter((pledge) => pledge.booking?.state === "asked" && stillOpen(now)(pledge)).sort(byVisit);

/** The past visits that were confirmed, of pledges that are open: the last day first. */
export function pastVisits(book, now) {
  const wasConfirmed = (pledge) => pledge.booking?.state === "confirmed" && wasToCome(now)(pledge);
  return book.pledges.filter(wasConfirmed).sort(byVisit).reverse();
}

/** What a typed text is looked for in. It is made once for each pledge. */
function textOf(pledge) {
  pledge.text ??= `${pledge.number}\n${pledge.reference}\n${pledge.article}`.toLowerCase();
  return pledge.text;
}

/** Numbers in a reference count as numbers: A2 comes before A10. */
export function placeOf(pledge) {
  pledge.place ??= pledge.reference.toLowerCase().replace(/\d+/g, (digits) => digits.padStart(15, "0"));
  return pledge.place;
}

/** The orders in which a list can be shown. */
export const ORDERS = {
  newest: { name: "Newest first", compare: (one, other) => other.number - one.number },
  oldest: { name: "Oldest first", compare: null },
  ends: { name: "By the period’s end", compare: by(({ ends }) => ends) },
  reference: { name: "By reference", compare: by(placeOf) },
  article: { name: "By article", compare: by(({ article }) => article.toLowerCase()) },
  sum: { name: "Largest sum first", compare: by(({ credit }) => -credit) },
};

/** Whether a receipt is the newest one of a pledge, by the book in the page. */
const isNewestOf = (receipt) => ({ number, secrets }) => receipt === `${number}-${secrets.at(-1)?.secret}`;

/** The pledges of a book in a group that a text finds, in an order. A receipt finds the pledge whose newest it is. */
export function found(book, { text, group, order }, now) {
  const receipt = receiptsTyped(text)[0]?.receipt;
  const wanted = text.trim().toLowerCase();
  const number = pledgeTyped(wanted);
  const matches = (pledge) => wanted === "" || textOf(pledge).includes(wanted) || pledge.number === number;
  const holds = GROUPS[group].of(now);
  const hits = receipt ? book.pledges.filter(isNewestOf(receipt))
    : book.pledges.filter((pledge) => matches(pledge) && holds(pledge));
  const { compare } = ORDERS[order];
  return compare ? hits.sort(compare) : hits;
}
