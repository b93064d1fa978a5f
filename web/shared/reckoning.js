/** What will be owed on another day, computed by the rules from the statement and the terms that the pledge keeps. */
import { becomesInWords } from "./after.js";
import { make } from "./dom.js";
import { inShort, inWords, today } from "./days.js";
import { buttons, field, makeNotice, run } from "./forms.js";
import { inPounds } from "./money.js";
import { firstDayFrom, owedOn } from "./owing.js";
import { firstDayAfter, lastSafeDay, willPass } from "./period.js";
import { Unreadable } from "./unreadable.js";

const LAST = "2199-12-31";

/** The sum of a day in a sentence; or, once the article has passed to the shop, that nothing is owed. */
function owedInWords({ statement, known, reader }, day, { owing, principal, charges }) {
  const time = { ends: statement.ends, fiveDays: known.fiveDays };
  const isAfter = day > lastSafeDay(time);
  const since = inShort(firstDayAfter(time));
  if (isAfter && willPass(statement)) {
    return `On ${inWords(day)} nothing will be owed: from ${since} on the article ${becomesInWords(statement, reader)}.`;
  }
  return `On ${inWords(day)} ${inPounds(owing)} will be owed, if nothing is paid or drawn before: `
    + `${inPounds(principal)} lent and ${inPounds(charges)} of interest and safe keeping.`
    + (isAfter ? ` From ${since} on it may have been sold.` : "");
}

/** Computes the sum for a day. First it computes today's, and compares that with the statement. */
function reckon({ statement, known, reader }, day) {
  const first = firstDayFrom(today(), statement);
  const now = owedOn(statement, known.terms, first);
  if (now.owing !== statement.owed.owing || now.principal !== statement.owed.principal) {
    throw new Unreadable("This page can’t compute the sum of this pledge: show the pledge again first.");
  }
  if (!day || day < first || day > LAST) {
    const from = first === today() ? "today" : inShort(first);
    throw new Unreadable(`Choose a day from ${from} on.`, "day");
  }
  const owed = owedOn(statement, known.terms, day);
  return { sentence: owedInWords({ statement, known, reader }, day, owed), tone: "quiet" };
}

/** The form that computes the sum for a day; null where nothing is owed any more, or the pledge's terms are not known. */
export function reckoningForm({ statement, known, reader }) {
  if (!known.terms || !statement.owed || statement.closing) return null;
  const day = make("input", { type: "date", name: "day", min: today(), max: LAST, required: true });
  const notice = makeNotice();
  const form = make("form", { autocomplete: "off" }, field("Day", day),
    buttons(make("button", { className: "plain" }, "Calculate")), notice);
  form.addEventListener("submit", (event) => {
    event.preventDefault();
    run({ notice, within: form, reader, act: async () => reckon({ statement, known, reader }, day.value) });
  });
  return form;
}
