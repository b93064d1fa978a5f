/** All pledges: found by number, reference, a part of the article or a receipt; narrowed to a group; in an order. */
import { endInShort } from "../shared/after.js";
import { inShort, today } from "../shared/days.js";
import { byId, foreign, make } from "../shared/dom.js";
import { makeNotice, run, tell } from "../shared/forms.js";
import { inPounds } from "../shared/money.js";
import { isHeldOn, statusOn } from "../shared/period.js";
import { isReceiptLike, whyNotWhole } from "../shared/receipts.js";
import { isOpen, STATUSES } from "../shared/statuses.js";
import { bookingInShort } from "../shared/visits.js";
import { missingInWords } from "./age.js";
import { found, GROUPS, ORDERS } from "./groups.js";
import { ledger } from "./ledger.js";
import { openReceipt } from "./pledge.js";
import { Rows } from "./rows.js";

const SUM = "The sum of a line is the credit: what was lent at first, or the limit of an account.";

/** What is said of a receipt that lists no pledge. */
const NOT_NEWEST = " By the book as it was read, no pledge has this receipt as its newest one. "
  + "Press Enter to look it up.";

const form = () => byId("searching");

let rows;

function drawRow(pledge) {
  const { number, article, reference, kind, credit, state, closed, booking } = pledge;
  const now = today();
  const status = statusOn(pledge, now);
  const visit = isOpen(status) ? bookingInShort(booking, now) : null;
  const when = state === "open" ? endInShort(pledge) : inShort(closed);
  return make("a", { href: `#pledge=${number}`, className: visit ? "row-link has-visit" : "row-link" },
    make("span", { className: "row-number" }, String(number)),
    make(
      "span", { className: "row-article" }, foreign(article),
      make("span", { className: "reference" }, foreign(reference)),
    ),
    make(
      "span", { className: "row-sum" }, inPounds(credit),
      kind === "running" ? make("span", { className: "reference" }, "limit") : null,
    ),
    make(
      "span", { className: "row-state" }, isHeldOn(pledge, now) ? make("strong", {}, "on hold, ") : null,
      STATUSES[status].name,
      make("span", { className: "reference" }, when)),
    visit && make("span", { className: "row-visit" }, visit));
}

const inThousands = (count) => count.toLocaleString("en-GB");

/** What is out on loan on these pledges, and the charges on it, as the end of a line. */
function lentOn(pledges) {
  const owed = pledges.map((pledge) => ledger.owed(pledge)).filter(Boolean);
  if (owed.length === 0) return ". Nothing is out on loan on them.";
  const lent = owed.reduce((total, { principal }) => total + principal, 0);
  const charges = owed.reduce((total, one) => total + one.charges, 0);
  const which = owed.length === 1 ? "1 open one" : `${inThousands(owed.length)} open ones`;
  return `. Out on loan on ${which}: ${inPounds(lent)}, with ${inPounds(charges)} of charges today.`;
}

/** Finds and shows what the form says. */
function search(stay = false) {
  const { book } = ledger;
  if (book === null) {
    byId("search-count").textContent = missingInWords();
    return;
  }
  const { text, group, order } = Object.fromEntries(new FormData(form()));
  const pledges = found(book, { text, group, order }, today());
  const hint = pledges.length === 0 && isReceiptLike(text) ? NOT_NEWEST : "";
  byId("search-count").textContent =
    `${inThousands(pledges.length)} of ${inThousands(book.pledges.length)} pledges${lentOn(pledges)} ${SUM}${hint}`;
  rows.show(pledges, stay);
}

const option = ([value, { name }]) => make("option", { value }, name);

export function setUpAll() {
  const { elements } = form();
  elements.group.append(...Object.entries(GROUPS).map(option));
  elements.order.append(...Object.entries(ORDERS).map(option));
  rows = new Rows({ name: "Pledges", drawRow });
  byId("all-rows").append(rows.whole);
  elements.order.addEventListener("change", () => search());
  elements.group.addEventListener(
    "change", () => { location.hash = elements.group.value === "all" ? "all" : `all=${elements.group.value}`; },
  );
  const notice = form().appendChild(makeNotice());
  elements.text.addEventListener("input", () => {
    // What was said of another text is not said of this one.
    tell(notice, "");
    search();
  });
  form().addEventListener("submit", (event) => {
    event.preventDefault();
    const text = elements.text.value;
    // A reference or an article may look like a receipt that is not whole: then it lists its pledge.
    const isCut = rows.items.length === 0 && whyNotWhole(text) !== "";
    if (isReceiptLike(text) || isCut) run({ notice, within: form(), reader: "broker", act: () => openReceipt(text) });
  });
}

/** The pledges of the group that the address names, from the first line that the list shows. */
export function showAll(group) {
  form().elements.group.value = GROUPS[group] ? group : "all";
  search(true);
}
