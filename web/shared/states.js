/** The status of a pledge, in words: for the broker, and for the pawnor. */
import { becomes, becomesInWords } from "./after.js";
import { countDays, daysBetween, inShort, inWords, today } from "./days.js";
import { inPounds } from "./money.js";
import { firstDayAfter, graceEnd, lastSafeDay, willPass } from "./period.js";
import { isBarred } from "./statuses.js";

/*
 * What is known of a pledge and its statement lacks: its reference, whether it has days of grace, its terms, and the end
 * that was agreed. It comes from the book, or from the link of a receipt, and each is null where it is not known.
 */

function lastsFor(now, last) {
  const left = daysBetween(now, last);
  return left === 0 ? "today is the last day" : `${countDays(left)} left`;
}

/** What the proceeds of a sale left, for its reader. */
export function saleInWords({ surplus, shortfall }, reader) {
  const whose = { broker: "which is the pawnor’s", pawnor: "which is yours: ask the shop for it" }[reader];
  if (surplus > 0) return `${inPounds(surplus)} more than was owed, ${whose}`;
  if (shortfall === 0) return "exactly what was owed";
  const less = `${inPounds(shortfall)} less than was owed`;
  return reader === "pawnor" ? `${less}. The shop’s book notes that, and keeps no debt of it` : less;
}

/** What becomes of a pledge once its time is over, for the broker. */
const turnOf = (statement, fiveDays) => {
  const first = inShort(firstDayAfter({ ends: statement.ends, fiveDays }));
  return `from ${first} on the article ${becomesInWords(statement, "broker")}`;
};

/** Until when the article is not to be sold; or, where it passes to the shop, until when the pledge can be redeemed. */
const until = (statement, last) =>
  `${willPass(statement) ? "Can be redeemed" : "To be kept"} until ${inWords(last)}`;

/** A pledge in its period: until when the article is kept, with the days of grace. */
function insideOf(statement, now, { fiveDays }) {
  const { ends } = statement;
  const state = { badge: "In its period", tone: "good" };
  if (fiveDays === null) return {
    ...state, line: `The period ends on ${inWords(ends)}`,
    more: `${lastsFor(now, ends)}; days of grace are shown once the book is read`,
  };
  const last = lastSafeDay({ ends, fiveDays });
  const grace = fiveDays ? `the period ends on ${inShort(ends)}, and five days of grace follow; ` : "";
  return {
    ...state, line: until(statement, last),
    more: `${grace}${lastsFor(now, last)}; ${turnOf(statement, fiveDays)}`,
  };
}

/** The state in a word or two, a sentence, and a tone, for the broker. */
const STATES = {
  inside: insideOf,
  grace: (statement, now) => ({
    badge: "Days of grace", tone: "warn", line: until(statement, graceEnd(statement.ends)),
    more: `the period ended on ${inWords(statement.ends)}, and days of grace run: `
      + `${lastsFor(now, graceEnd(statement.ends))}; ${turnOf(statement, true)}`,
  }),
  realisable: ({ ends }) => ({
    badge: "Period over", tone: "warn", line: `The period ended on ${inWords(ends)}`,
    more: "It can be redeemed until it is sold, and it may be sold any day",
  }),
  passed: ({ ends }) => (
    {
      badge: "Passed", tone: "ended", line: `The period ended on ${inWords(ends)}`,
      more: "The article is the shop’s now",
    }
  ),
  redeemed: ({ closing }) => (
    {
      badge: "Redeemed", tone: "ended", line: `Redeemed on ${inWords(closing.day)}`,
      more: `${inPounds(closing.paid)} was paid`,
    }
  ),
  sold: ({ closing }) => (
    {
      badge: "Sold", tone: "ended", line: `Sold on ${inWords(closing.day)} for ${inPounds(closing.net)}`,
      more: saleInWords(closing, "broker"),
    }
  ),
};

const over = (ends) => `The period ended on ${inWords(ends)}`;

/** What becomes of an article once its time is over, for the pawnor. */
const afterIt = (statement) => `after that it ${becomesInWords(statement, "pawnor")}`;

/**
 * Until when an article is not to be sold, or does not pass to the shop, and what is to be done by then: the end comes
 * even if all is paid.
 */
const safeUntil = (last, statement, toDo) =>
  `${willPass(statement) ? "Still yours" : "Kept for you"} until ${inWords(last)}`
    + (statement.owed.owing === 0 ? ": nothing is owed, but it has to be fetched by then" : toDo);

/** A pledge in its period, for the pawnor: the days of grace are those that the receipt's link says. */
function stillYours(statement, now, { fiveDays }) {
  const { ends } = statement;
  const last = lastSafeDay({ ends, fiveDays });
  const grace = {
    true: `; the period ends on ${inShort(ends)}, and five days of grace follow`, false: "",
    null: "; five days more, if your paper says that it has days of grace",
  };
  return {
    badge: "Still yours", line: safeUntil(last, statement, ""),
    more: `${lastsFor(now, last)}${grace[fiveDays]}; ${afterIt(statement)}`,
  };
}

/** What the pawnor reads in place of it. */
const FOR_PAWNOR = {
  inside: stillYours,
  grace: (statement, now) => ({
    badge: "Last days",
    line: safeUntil(graceEnd(statement.ends), statement, ": pay what is owed to have it back"),
    more: `${over(statement.ends)}, and days of grace run: ${lastsFor(now, graceEnd(statement.ends))}; `
      + afterIt(statement),
  }),
  realisable: ({ ends }) => (
    {
      badge: "May be sold", line: "You can still fetch it, until the shop sells it",
      more: `${over(ends)}. The article may be sold any day`,
    }
  ),
  sold: ({ closing }) => ({ more: saleInWords(closing, "pawnor") }),
  passed: ({ ends }) => (
    {
      badge: "No longer yours", line: "It was not redeemed in time",
      more: `${over(ends)}. The article belongs to the pawnbroker now`,
    }
  ),
};

/** Until when the time of a pledge runs, for one that is on hold. */
const TIME_OF_HELD = {
  inside: ({ ends }, grace) => `The period ends on ${inWords(ends)}${grace}; after that`,
  grace: ({ ends }) =>
    `The period ended on ${inWords(ends)}, and days of grace run until ${inWords(graceEnd(ends))}; after that`,
  realisable: ({ ends }) => `The period ended on ${inWords(ends)};`,
};

/** A pledge on hold. A hold bars what the period allows, but the time runs on. */
function heldState(statement, { fiveDays }, reader) {
  const { status } = statement;
  const follow = ", and five days of grace follow";
  const unknown = reader === "pawnor"
    ? `${follow} if your paper says so`
    : ", and days of grace are shown once the book is read";
  const grace = { true: follow, false: "", null: unknown }[fiveDays];
  const day = status === "realisable" ? " any day" : "";
  const released = reader === "pawnor" ? "the pawnbroker releases it" : "you release it";
  return {
    badge: "On hold", tone: "warn", line: `On hold: it can’t be redeemed until ${released}`,
    more: `${TIME_OF_HELD[status](statement, grace)} the article ${becomes(statement, reader)}${day}, on hold or not`,
  };
}

/** The state of a pledge as it is shown. A hold comes before all else. */
export function stateOf(statement, now, known, reader) {
  const { status } = statement;
  const state = {
    ...STATES[status](statement, now, known),
    ...(reader === "pawnor" && FOR_PAWNOR[status]?.(statement, now, known)),
  };
  return isBarred(statement) ? heldState(statement, known, reader) : state;
}

/** The status of a pledge, in a sentence without its end. */
export function stateInWords(statement, known) {
  const { line, more } = stateOf(statement, today(), known, "broker");
  return `${line}: ${more[0].toLowerCase()}${more.slice(1)}`;
}
