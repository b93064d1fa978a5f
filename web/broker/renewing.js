/**
 * Renewing in one step: the charges of today are received, the period is extended, and the receipt is printed with its
 * new end. They are two changes of the service, so the result of each is reported.
 */
import { refusalOf } from "../shared/codes.js";
import { countDays, daysBetween, inWords, sixMonthsAfter, today } from "../shared/days.js";
import { make } from "../shared/dom.js";
import { CHANGED, Lost, lookFirst, Outdated, Refused } from "../shared/faults.js";
import { buttons, field } from "../shared/forms.js";
import { inPounds } from "../shared/money.js";
import { recordEntry } from "../shared/payments.js";
import { confirmed, NEW_DAY, NOTHING_DONE } from "../shared/questions.js";
import { barredOf, checkEnd, endLines, OLD_TAG, sendEnd } from "./extending.js";

/** The refusals of a pledge that is over; any other is out of its period. */
const REFUSED = { passed: "Passed", redeemed: "Closed", sold: "Closed" };

/** The question about both, with what is owed just now. */
const question = (now, until, isNewDay) => confirmed({
  title: "Renew this pledge?", about: now,
  lines: [
    isNewDay ? NEW_DAY : null,
    now.owed.charges > 0
      ? `${inPounds(now.owed.charges)} of interest and safe keeping was received.`
      : "No charges are owed today.",
    `${inPounds(now.owed.principal)} stays lent.`,
    ...endLines(now, until),
  ],
  yes: now.owed.charges > 0
    ? `Receive ${inPounds(now.owed.charges)}, and extend by ${countDays(daysBetween(now.ends, until))}`
    : `Extend by ${countDays(daysBetween(now.ends, until))}`,
  no: "Not now",
});

/** Another till may have renewed it. */
const outdated = ({ owed, ends }) => new Outdated(
  `${CHANGED} ${inPounds(owed.owing)} is owed now, and the period ends on ${inWords(ends)}. Look at the pledge before `
    + "you renew it.",
);

/**
 * Receives the charges. Returns a message if the renewal has to stop here, or null. A change during the question is not
 * asked about: a yes would go to the loan where the charges are paid, and move an end again that was moved.
 */
async function receive(until, now, desk) {
  if (now.owed.charges === 0) {
    compare(until, now, await lookFirst(desk.read()), false);
    return null;
  }
  const said = await recordEntry({
    shown: now, sort: "repay", pence: now.owed.charges, askFrom: Infinity, outdated, read: () => desk.read(),
    send: (body) => desk.command("repay", body, true),
  });
  return said.tone === "good" ? null : said;
}

/** Shows the paper with the new end, as far as it can be. */
async function showPaper(desk) {
  try {
    const receipt = await desk.newestReceipt();
    if (receipt === null) return " No receipt of this pledge is live, so none is printed.";
    await desk.showReceipt(receipt);
    return " The paper with the new end is below: print it, and take the old one back.";
  } catch {
    return " The paper can’t be shown just now: “Print the receipt again” shows it.";
  }
}

/** Why the second change was not made, or perhaps not. */
function whyNotExtended(fault) {
  if (fault instanceof Outdated) return "the book was closed meanwhile";
  return fault instanceof Refused ? "the service refused it" : "the service did not answer";
}

/** Throws where the pledge can't be renewed now, or where it is not as it was when `before` was read. */
function compare(until, before, now, isNewDay) {
  if (now.status !== "inside") throw refusalOf(REFUSED[now.status] ?? "PeriodOver");
  checkEnd(until, before, now);
  const isSame = isNewDay ? now.entries.length === before.entries.length : now.owed.owing === before.owed.owing;
  if (!isSame) throw outdated(now);
}

/**
 * Asks until the answer is of the day on which the charges are received: a day adds its own. Returns the pledge as it
 * was asked about, or null if the answer was no.
 */
async function agreedTo(until, shown, desk) {
  let before = shown;
  for (let day = null; ;) {
    const isNewDay = day !== null;
    day = today();
    const now = await lookFirst(desk.read());
    compare(until, before, now, isNewDay);
    if (!await question(now, until, isNewDay)) return null;
    if (day === today()) return now;
    before = now;
  }
}

async function renew({ until }, shown, desk) {
  const now = await agreedTo(until, shown, desk);
  if (now === null) return NOTHING_DONE;
  const stopped = await receive(until, now, desk);
  if (stopped) return { ...stopped, sentence: `${stopped.sentence} The period was not extended.` };
  const received = now.owed.charges > 0 ? `${inPounds(now.owed.charges)} of charges was received. ` : "";
  try {
    const ended = await sendEnd(until, desk);
    return `${received}${ended}${await showPaper(desk)} ${OLD_TAG}`;
  } catch (fault) {
    const isSure = !(fault instanceof Lost);
    const why = whyNotExtended(fault);
    return {
      sentence: `${received}The period was ${isSure ? "not" : "perhaps not"} extended: ${why}. `
        + "Find the pledge again, look at its end, and extend it by itself if it still has the old one.",
      tone: "bad",
    };
  }
}

export function renewal(statement, desk) {
  const { owed, ends } = statement;
  const until = make("input", {
    type: "date", name: "until", min: ends, max: "2199-12-31", required: true,
    defaultValue: sixMonthsAfter(ends > today() ? ends : today()),
  });
  const lead = owed.charges > 0
    ? `Receive the charges of today, ${inPounds(owed.charges)}, and agree on a later end than ${inWords(ends)}.`
    : `No charges are owed today. Agree on a later end than ${inWords(ends)}.`;
  return {
    title: "Renew",
    barred: barredOf(statement),
    parts: [
      make("p", { className: "lead" }, `${lead} Then the paper is printed with its new end.`),
      field("New end", until),
      buttons(make("button", {}, "Renew the pledge")),
    ],
    act: (fields) => renew(fields, statement, desk),
    isEntry: true,
  };
}
