/** A later end of the period. It can't be taken back, so both ends and the days between are asked about. */
import { countDays, daysBetween, inShort, inWords, plusDays } from "../shared/days.js";
import { make } from "../shared/dom.js";
import { lookFirst, orSeen, Outdated } from "../shared/faults.js";
import { buttons, field } from "../shared/forms.js";
import { willPass } from "../shared/period.js";
import { confirmed, NOTHING_DONE } from "../shared/questions.js";
import { Unreadable } from "../shared/unreadable.js";

/** An end that is more days later than this is asked about loudly. */
const LONG = 366;

export const isLong = (from, to) => daysBetween(from, to) > LONG;
export const loudLine = (text) => make("strong", { className: "loud" }, text);

/** Throws if a new end is not after the present end, or if the present end is not the one that was shown. */
export function checkEnd(until, shown, now) {
  if (now.ends !== shown.ends) throw new Outdated(
    `Since this pledge was shown here, its end was moved to ${inWords(now.ends)}: by somebody else, or by a press `
      + "whose reply was lost. Look at it before you move the end again.",
    "until",
  );
  if (until <= now.ends) throw new Unreadable(`The new end is to be after ${inShort(now.ends)}.`, "until");
}

/** Why the end of a pledge can’t be moved any more, and what can be done in place of it; or null in its period. */
export const barredOf = ({ status }) => (status === "inside"
  ? null
  : "The period is over, so its end can’t be moved any more. If the pawnor wants to go on, redeem the pledge by the "
    + "paper for what is owed, and take the article anew under another reference.");

/** The lines of a question about a new end of a pledge. */
export function endLines({ ends, taken, credit }, until) {
  const days = daysBetween(ends, until);
  return [
    `The period ends on ${inWords(ends)} now.`, `It is to end on ${inWords(until)}: ${countDays(days)} later.`,
    isLong(ends, until)
      ? loudLine(`That is more than a year later, on ${inWords(until)}: look at the year again.`)
      : null,
    willPass({ taken, ends, credit })
      ? "The article will not pass to the shop then: if it is not redeemed, it is to be sold."
      : null,
    "The end can’t be made earlier again. A mistake is set right only if the pledge is redeemed by its paper and taken "
      + "anew.",
  ];
}

const endInWords = (ends) => `The period ends on ${inWords(ends)}.`;

/** Moves the end, and returns a sentence. */
export const sendEnd = (until, desk) => orSeen(
  desk.command("extend", { until }, true).then(({ said }) => endInWords(said.ends)),
  () => desk.read(), ({ ends }) => (ends === until ? endInWords(ends) : null),
);

/** What is said of the pawnor's paper once the end is another. */
const OLD_PAPER = "The pawnor’s paper has the old end: “Print the receipt again” shows one with the new end.";
/** The bags are pulled by what their tags say. */
export const OLD_TAG = "If there is a tag on the bag, it has the old end: print it anew.";

async function extend({ until }, shown, desk) {
  if (until <= shown.ends) checkEnd(until, shown, shown);
  const now = await lookFirst(desk.read());
  checkEnd(until, shown, now);
  const days = countDays(daysBetween(now.ends, until));
  const yes = await confirmed({
    title: "Extend the period?", about: now, lines: endLines(now, until), yes: `Extend it by ${days}`,
    no: "Not now",
  });
  if (!yes) return NOTHING_DONE;
  // An end that was moved during the question is asked about anew: the days are counted from the old one.
  checkEnd(until, now, await lookFirst(desk.read()));
  return `${await sendEnd(until, desk)} ${OLD_PAPER} ${OLD_TAG}`;
}

const leadOf = ({ ends }) => make(
  "p", { className: "lead" }, `You and the pawnor agree on a later end than ${inWords(ends)}. `
    + "It can’t be made earlier again, so you are asked once more.",
);

export const extension = (statement, desk) => ({
  title: "Extend the period",
  barred: barredOf(statement),
  parts: [
    leadOf(statement),
    field("New end", make("input", {
      type: "date", name: "until", min: plusDays(statement.ends, 1), max: "2199-12-31", required: true,
    })),
    buttons(make("button", {}, "Extend"))],
  act: (fields) => extend(fields, statement, desk),
});
