/** A pledge as a person reads it, for both pages. */
import { endInShort, madeInWords } from "./after.js";
import { daysBetween, inShort, inWords, sixMonthsAfter, today } from "./days.js";
import { facts, foreign, make } from "./dom.js";
import { entriesTable } from "./entries.js";
import { inPounds } from "./money.js";
import { stateOf } from "./states.js";
import { isBarred } from "./statuses.js";
import { interestInWords, keepingInWords } from "./terms.js";
import { bookingInWords, isLateVisit, isToCome } from "./visits.js";

function visitInWords(statement, known) {
  const said = bookingInWords(statement.booking);
  if (isBarred(statement) && isToCome(statement.booking)) {
    return `${said}, but nothing can be fetched while it is on hold`;
  }
  return isLateVisit(statement, known) ? `${said}, but the article may be sold before then` : said;
}

/** How much of the period is over, as a bar. */
function periodBar(statement, now) {
  const { taken, ends } = statement;
  const whole = Math.max(1, daysBetween(taken, ends));
  const bar = make("progress", { max: whole, value: Math.min(whole, Math.max(0, daysBetween(taken, now))) });
  bar.setAttribute("aria-label", "How much of the period is over");
  const end = endInShort(statement, now);
  const under = make(
    "div", { className: "period-ends" }, make("span", {}, `Taken ${inShort(taken)}`),
    make("span", {}, `${end[0].toUpperCase()}${end.slice(1)}`),
  );
  return make("div", { className: "period" }, bar, under);
}

/** The sum owed and its parts. For a closed pledge it is what was owed when it was closed. */
function owedBlock({ owed, closing }) {
  if (!owed) return null;
  const then = closing ? " then" : "";
  const parts = [
    [`Lent and not repaid${then}`, inPounds(owed.principal)],
    [`Interest and safe keeping${then}`, inPounds(owed.charges)],
  ];
  const when = closing ? [" was owed then"] : [
    make("span", { className: "screen" }, " owed today"),
    make("span", { className: "on-paper" }, ` owed on ${inShort(today())}`),
  ];
  const amount = make("p", { className: "amount" }, make("strong", {}, inPounds(owed.owing)), ...when);
  return make("div", { className: "owed" }, amount, facts(parts));
}

/** The period's end in words: six months, agreed, or extended to. */
export const endInWords = (statement, { agreed }) =>
  `${inWords(statement.ends)}${madeInWords({ ...statement, agreed })}`;

/**
 * The end that was agreed when the pledge was taken, as a fact with its name: an extension is agreed later, and an end
 * within the six months has no effect.
 */
export function agreedFact({ taken, extensions }, agreed) {
  const name = extensions.length > 0 ? "Agreed end at first" : "Agreed end";
  if (!agreed) return [name, "None: six months"];
  return [name, agreed > sixMonthsAfter(taken) ? inShort(agreed) : `${inShort(agreed)}, without effect: six months`];
}

/** What is known and the statement lacks; what is not known is left out. */
function knownFacts(statement, { reference, fiveDays, terms, agreed }) {
  return [
    reference && ["Reference", foreign(reference)],
    agreed !== undefined && agreedFact(statement, agreed),
    fiveDays !== null && ["Days of grace", fiveDays ? "Five" : "None"],
    terms && ["Interest", interestInWords(terms)], terms && ["Safe keeping", keepingInWords(terms)],
  ].filter(Boolean);
}

function factsOf(statement, known) {
  const kind = statement.kind === "fixed"
    ? `${inPounds(statement.credit)}, a fixed sum`
    : `a running account up to ${inPounds(statement.credit)}`;
  const pairs = [
    ["Credit", kind], ["Taken", inWords(statement.taken)], ["Period’s end", endInWords(statement, known)],
    ...knownFacts(statement, known),
  ];
  statement.extensions.forEach(
    ([agreed, end]) => pairs.push(["Extended", `on ${inShort(agreed)}, to ${inWords(end)}`])
  );
  if (statement.booking) pairs.push(["Visit", visitInWords(statement, known)]);
  return facts(pairs);
}

/**
 * The parts of a summary for its reader, in order. The place says where the pledge is, as texts and nodes: "Pledge
 * 3 of book 7".
 */
export function summaryOf({ statement, known, place, reader = "broker" }) {
  const now = today();
  const { badge, tone, line, more } = stateOf(statement, now, known, reader);
  return [
    make("header", { className: "head" },
      make("div", {}, make("h2", { tabIndex: -1 }, foreign(statement.article)),
        make("p", { className: "place" }, ...place)),
      make("span", { className: `badge ${tone}` }, badge)),
    make(
      "div", { className: `state ${tone}` }, make("p", { className: "line" }, line),
      make("p", { className: "more" }, more),
    ),
    ["inside", "grace"].includes(statement.status) ? periodBar(statement, now) : null,
    owedBlock(statement),
    factsOf(statement, known),
    entriesTable(statement.entries),
  ].filter((part) => part !== null);
}
