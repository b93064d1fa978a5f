/** A receipt printed again, and a lost one replaced by a new one. */
import { refusalOf } from "../shared/codes.js";
import { make } from "../shared/dom.js";
import { Lost, lookFirst } from "../shared/faults.js";
import { buttons } from "../shared/forms.js";
import { SMALL_PENCE } from "../shared/period.js";
import { confirmed, NOTHING_DONE } from "../shared/questions.js";
import { isOpen } from "../shared/statuses.js";
import { ledger } from "./ledger.js";
import { SHOWS } from "./papers.js";
import { current } from "./session.js";

const lead = (text) => make("p", { className: "lead" }, text);

/** What the second paper means: until the pledge is over, either can redeem it. */
const linesOf = ({ status }) => (isOpen(status)
  ? [
    "It is the same receipt, so both papers open the pledge, and anyone who has either can redeem it.",
    "Print it only for a customer whom you know to have none, or whose paper is spoilt. Where the paper is lost, "
      + "make a new receipt in its place.",
  ]
  : ["It is the same receipt. Both papers show what became of the pledge. It can’t be redeemed any more."]);

const NONE_LIVE = { sentence: "No receipt of this pledge is live, so none is printed.", tone: "bad" };

async function printAgain(statement, desk) {
  const yes = await confirmed({
    title: "Print the receipt again?", about: statement, lines: linesOf(statement),
    yes: "Print it again", no: "Not now",
  });
  if (!yes) return NOTHING_DONE;
  const receipt = await desk.newestReceipt();
  if (receipt === null) return NONE_LIVE;
  const { status } = await desk.showReceipt(receipt);
  const now = isOpen(status) ? "It was looked at just now: it is live." : SHOWS;
  return `The receipt is below, ready to print. ${now} ${desk.toldOfReceipts()}`;
}

export const printing = (statement, desk) => ({
  title: "Print the receipt again",
  barred: null,
  parts: [
    lead("The same receipt once more. You are asked before it is shown."),
    buttons(make("button", { className: "plain" }, "Print the receipt again")),
  ],
  act: () => printAgain(statement, desk),
});

/** The newest receipt may be the lost one still, so it is not to be printed: the next press reads the book. */
const LOST = "The reply was lost, so a new receipt may have been made. Press “Make a new receipt” again: "
  + "if one was made, it is shown then, and no other is made.";

const OVERTAKEN = "A new receipt was made, but another one took its place at the same time, so it is not shown. "
  + "“Print the receipt again” shows the newest one.";

const UNSEEN = "A new receipt was made, but could not be looked at just now, so it is not shown. "
  + "Don’t ask for another: “Print the receipt again” shows it.";

/** Shows a receipt that was made just now, if it is live. */
async function showNew(receipt, paper, desk) {
  try {
    desk.refuseOtherBook();
    ledger.addReceipt(receipt, paper);
    if (!await desk.isLive(receipt)) return { sentence: OVERTAKEN, tone: "bad" };
    await desk.showReceipt(receipt);
    return "A new receipt is below. Print it: the old one is worth nothing.";
  } catch {
    return { sentence: UNSEEN, tone: "bad" };
  }
}

/** By book and pledge: how many receipts the pledge had before a declaration whose reply was lost. */
const lost = new Map();

const placeOf = (number) => `${current().book}/${number}`;

const MADE_ALREADY = "The new receipt was made already, by the press whose reply was lost. ";
const LOST_BEFORE = "The reply to the press before was lost. It has made no new receipt so far.";

/**
 * Before a declaration is sent again whose reply was lost, the book is read: a receipt that was made is shown. Returns
 * the message for that case, or null if the book has no new receipt.
 */
async function madeBefore(desk) {
  const place = placeOf(desk.number);
  if (!lost.has(place)) return null;
  await ledger.readAgain();
  if (await desk.countReceipts() <= lost.get(place)) return null;
  const receipt = await desk.newestReceipt();
  if (receipt === null) return NONE_LIVE;
  await desk.showReceipt(receipt);
  lost.delete(place);
  return `${MADE_ALREADY}It is below. ${desk.toldOfReceipts()}`;
}

async function declare({ paper }, statement, desk) {
  const place = placeOf(desk.number);
  if (paper === "written" && statement.credit > SMALL_PENCE) throw refusalOf("NotSmall");
  const made = await madeBefore(desk);
  if (made) return made;
  const count = await lookFirst(desk.countReceipts());
  const before = paper === "sworn"
    ? "You have the sworn declaration before you."
    : "You have the written statement before you.";
  const yes = await confirmed({
    title: "Make a new receipt?", about: statement,
    lines: [
      "The receipt that the pawnor had is worth nothing from then on, no matter who has it.", before,
      lost.has(place) ? LOST_BEFORE : null,
    ],
    yes: "Make a new receipt", no: "Not now",
  });
  if (!yes) return NOTHING_DONE;
  let receipt;
  try {
    receipt = (await desk.command("declare", { paper }, false)).said.receipt;
  } catch (fault) {
    if (!(fault instanceof Lost)) throw fault;
    lost.set(place, count);
    return { sentence: LOST, tone: "bad" };
  }
  lost.delete(place);
  return showNew(receipt, paper, desk);
}

function choice(value, text, checked) {
  return make(
    "label", { className: "choice" }, make("input", { type: "radio", name: "paper", value, checked }),
    make("span", {}, text),
  );
}

export const replacement = (statement, desk) => ({
  title: "Replace a lost receipt",
  barred: null,
  parts: [lead("The pawnor declares that the receipt is lost. A new one takes its place."),
    make("fieldset", {}, make("legend", {}, "Paper"), choice("sworn", "A sworn declaration", true),
      choice("written", "A written statement, for credit up to £75.00", false)),
    buttons(make("button", { className: "grave" }, "Make a new receipt"))],
  act: (fields) => declare(fields, statement, desk),
});
