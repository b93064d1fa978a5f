/** What is due: in grace, ending soon, to be sold, and passed, from the book in the page; by day, or to be pulled. */
import { turnInShort } from "../shared/after.js";
import { inShort, seenFrom, today } from "../shared/days.js";
import { byId, foreign, make } from "../shared/dom.js";
import { inPounds } from "../shared/money.js";
import { owedOn } from "../shared/owing.js";
import { firstDayAfter, lastSafeDay } from "../shared/period.js";
import { bookingInShort } from "../shared/visits.js";
import { missingInWords } from "./age.js";
import { dueOf, placeOf } from "./groups.js";
import { keep, kept } from "./kept.js";
import { ledger } from "./ledger.js";
import { articleCell, numberCell, section } from "./tables.js";

/** Paper is read on other days, so how far a day is off is on the screen alone. */
const ended = ({ ends }, now) =>
  make("span", {}, inShort(ends), make("span", { className: "screen" }, `, ${seenFrom(now, ends)}`));
const since = (pledge) => inShort(firstDayAfter(pledge));

/** Each group: its title, what is said where it is empty, and the day that counts for it. */
const SECTIONS = {
  grace: {
    title: "In their days of grace", empty: "No pledge is in its days of grace.", head: "What comes", day: turnInShort,
  },
  week: {
    title: "Ends within 7 days", empty: "No period ends within 7 days.", head: "Period’s end", day: ended,
    more: turnInShort,
  },
  fortnight: {
    title: "Ends in 8 to 14 days", empty: "No period ends on those days.", head: "Period’s end",
    day: ended, more: turnInShort,
  },
  month: {
    title: "Ends in 15 to 30 days", empty: "No period ends on those days.", head: "Period’s end",
    day: ended, more: turnInShort,
  },
  sale: { title: "Can be sold now", empty: "Nothing can be sold today.", head: "Since", day: since },
  passed: {
    title: "Passed to the shop", empty: "No article has passed to the shop.", head: "Since", day: since, isTicked: true,
  },
};

/** The numbers of the passed pledges that this shop has dealt with. This machine alone keeps them. */
const dealtWith = () => new Set(kept("dealt", []));

function tick(number, isDone) {
  const numbers = dealtWith();
  if (isDone) numbers.add(number);
  else numbers.delete(number);
  keep("dealt", [...numbers]);
}

const TICKS = "What you tick off as dealt with is kept in this browser: other tills still list it.";

/** A box that ticks off a passed pledge. */
function tickBox({ number }, isDone) {
  const box = make("input", { type: "checkbox", checked: isDone });
  box.addEventListener("change", () => { tick(number, box.checked); showDue(); });
  return make("label", { className: "choice tick screen" }, box, make("span", {}, "Dealt with"));
}

/** What is owed today; of a passed pledge, on which nothing is owed any more, what was owed on its last day. */
const sumOf = (pledge) =>
  (ledger.owed(pledge) ?? owedOn(pledge, ledger.termsOf(pledge), lastSafeDay(pledge))).owing;

/** The visit for which the article has to be kept, or whose day is over. Of a passed article nothing is fetched. */
function visitOf({ booking }, { isTicked }, now) {
  const said = isTicked ? null : bookingInShort(booking, now);
  return said && make("strong", { className: "reference" }, said);
}

function rowOf(pledge, told, now) {
  const { day, more, isTicked } = told;
  const under = more ? make("span", { className: "reference" }, more(pledge)) : null;
  return make("tr", {}, numberCell(pledge), articleCell(pledge),
    make("td", { className: "number" }, inPounds(sumOf(pledge))),
    make("td", { className: "when" }, day(pledge, now), under, visitOf(pledge, told, now),
      isTicked ? tickBox(pledge, false) : null));
}

function sectionOf(told, pledges, now) {
  const total = pledges.reduce((sum, pledge) => sum + sumOf(pledge), 0);
  return section({
    title: told.title, empty: told.empty, items: pledges,
    count: pledges.length === 0 ? "0" : `${pledges.length}: ${inPounds(total)}`,
    heads: [["No."], ["Article and reference"], [told.isTicked ? "Owed then" : "Owed", "number"], [told.head]],
    row: (pledge) => rowOf(pledge, told, now),
    under: told.isTicked && pledges.length > 0 ? [make("p", { className: "lead screen" }, TICKS)] : [],
  });
}

/** The passed pledges that were ticked off, in a fold from which they can be taken back. */
function dealtFold(pledges) {
  const lines = pledges.map((pledge) => make("li", {}, numberCell(pledge).firstChild, " ", foreign(pledge.article), " ",
    tickBox(pledge, true)));
  return make("details", { className: "action screen" },
    make("summary", {}, `Passed and dealt with: ${pledges.length}`), make("ul", { className: "lines told" }, ...lines));
}

/** By the day that counts, or by reference, as bags are pulled from their shelves. */
function inOrder(pledges) {
  if (byId("due-order").elements.order.value !== "reference") return pledges;
  const key = (pledge) => placeOf(pledge);
  return [...pledges].sort((one, other) => (key(one) < key(other) ? -1 : key(one) > key(other) ? 1 : 0));
}

export function showDue() {
  if (ledger.book === null) {
    byId("due-lead").textContent = missingInWords();
    return;
  }
  const now = today();
  const lists = dueOf(ledger.book, now);
  const done = dealtWith();
  const dealt = lists.passed.filter(({ number }) => done.has(number));
  lists.passed = lists.passed.filter(({ number }) => !done.has(number));
  byId("due-lead").textContent = `On ${inShort(now)}. Sums are what is owed today, with charges, by the book as it was `
    + "read; of what has passed to the shop, what was owed on its last day.";
  byId("due-lists").replaceChildren(
    ...Object.entries(SECTIONS).map(([name, told]) => sectionOf(told, inOrder(lists[name]), now)),
    ...(dealt.length > 0 ? [dealtFold(dealt)] : []),
  );
}

export const setUpDue = () => byId("due-order").addEventListener("change", showDue);
