/**
 * Redemption by the paper, at the counter: the receipt is looked at, the amount is compared with what is owed, and it
 * is asked once more.
 */
import { CODES, isRefusal, refusalOf } from "../shared/codes.js";
import { inWords } from "../shared/days.js";
import { make } from "../shared/dom.js";
import { CHANGED, Lost, lookFirst, Outdated } from "../shared/faults.js";
import { buttons, field } from "../shared/forms.js";
import { inPounds, readPounds } from "../shared/money.js";
import { confirmed, NOTHING_DONE } from "../shared/questions.js";
import { numberOf } from "../shared/receipts.js";
import { isOpen } from "../shared/statuses.js";
import { Unreadable } from "../shared/unreadable.js";
import { readReceipt } from "./papers.js";

export const REDEEM = "Redeem by the paper";
const ONE = "Scan or type the one receipt that the customer brings, or the link of its code.";

function receiptOf(typed, number) {
  const receipt = readReceipt(typed, "receipt", ONE);
  if (numberOf(receipt) !== number) throw new Unreadable(
    `That receipt is of pledge ${numberOf(receipt)}, and this is pledge ${number}. Find it by the receipt.`, "receipt",
  );
  return receipt;
}

/** The receipt was used before, and not by this press: a clerk may have the money in hand. */
const NOT_BY_THIS = " That was not by this press, which did nothing. Don’t hand out the article for this receipt.";

/** The present pledge that the receipt opens. If the pledge is over, the page is to show it anew beside the reason. */
async function look(desk, receipt) {
  const held = await lookFirst(desk.held(receipt));
  if (held !== null) return held;
  const { sentence, statement, later } = await desk.whyDead(receipt);
  const more = statement?.status === "redeemed" ? NOT_BY_THIS : "";
  if (statement && !isOpen(statement.status)) throw new Outdated(sentence + more, "receipt");
  throw new Unreadable(sentence, "receipt", later);
}

/**
 * The same once the question was answered. Somebody else may have redeemed the pledge while it was open, and the
 * service's refusal would not show that it was not this press.
 */
async function lookAgain(desk, receipt) {
  try {
    await look(desk, receipt);
  } catch (fault) {
    throw fault instanceof Unreadable ? new Outdated(fault.message, "receipt") : fault;
  }
}

/** Throws where the pledge can't be redeemed now for what was paid; `shown` is its statement as the page shows it. */
function compare({ status, owed, held }, paid, shown) {
  if (!isOpen(status)) throw refusalOf(status === "passed" ? "Passed" : "Closed");
  if (held) throw refusalOf("Held");
  if (paid === owed.owing) return;
  const wrong = `${inPounds(owed.owing)} is owed today, and redeeming requires all of it. You typed ${inPounds(paid)}.`;
  if (owed.owing === shown.owed.owing) throw new Unreadable(wrong, "amount");
  throw new Outdated(`${CHANGED} ${wrong}`, "amount");
}

const question = (held, paid) => confirmed({
  title: `Redeem pledge ${held.number}?`, about: held,
  lines: [
    `${inPounds(paid)} was received, and the customer gave you the receipt.`,
    "The article goes to the customer. The pledge is closed, and the receipt is worth nothing any more. "
      + "It can’t be taken back.",
  ],
  yes: `Redeem for ${inPounds(paid)}`, no: "Not now",
});

const done = ({ day, paid }) =>
  `Redeemed on ${inWords(day)}: ${inPounds(paid)} was paid. Hand out the article, and keep the receipt.`;

const NOT_SO_FAR = "The reply was lost, and the pledge is not redeemed so far. ";
const UNSEEN = "The reply was lost, so the pledge may be redeemed. ";
const AGAIN = "Don’t hand out the article yet. Press “Redeem” again: the pledge is redeemed once, however often you "
  + "press.";

/** After a lost reply the statement tells whether it was done. A second redemption of the same receipt is refused. */
async function settleLost(desk, receipt, paid) {
  desk.lostRedemptions.set(receipt, paid);
  const after = await desk.read().catch(() => null);
  if (after?.status === "redeemed") {
    return `The reply was lost, but the pledge, read again, is redeemed. ${done(after.closing)}`;
  }
  return { sentence: (after ? NOT_SO_FAR : UNSEEN) + AGAIN, tone: "bad" };
}

/**
 * The receipt was live just before, and is dead now. A browser sends a request twice by itself if it uses a connection
 * again and no byte of the reply comes: then the first one has redeemed the pledge, and this is the reply to the second.
 */
async function settleDead(desk, fault, paid) {
  const after = await desk.read().catch(() => { throw fault; });
  if (after.status !== "redeemed" || after.closing.paid !== paid) throw fault;
  return `The pledge is redeemed for ${inPounds(paid)}: most likely by this press, which the browser sent twice. `
    + "If nobody else redeemed it just now, hand out the article, and keep the receipt.";
}

/** What is said where an earlier press, whose reply was lost, has redeemed the pledge by this receipt; or null. */
async function doneBefore(desk, receipt) {
  const paid = desk.lostRedemptions.get(receipt);
  if (paid === undefined) return null;
  const { status, closing } = await lookFirst(desk.read());
  if (status !== "redeemed" || closing.paid !== paid) return null;
  desk.lostRedemptions.delete(receipt);
  return `The pledge is redeemed, by the press before, whose reply was lost. ${done(closing)}`;
}

async function redeem(fields, statement, desk) {
  const receipt = receiptOf(fields.receipt, statement.number);
  const before = await doneBefore(desk, receipt);
  if (before) return before;
  const held = await look(desk, receipt);
  const paid = readPounds(fields.amount);
  compare(held, paid, statement);
  if (!await question(held, paid)) return NOTHING_DONE;
  await lookAgain(desk, receipt);
  try {
    const { said } = await desk.redeem(receipt, paid);
    return done({ day: said.redeemed, paid: said.paid });
  } catch (fault) {
    if (fault instanceof Lost) return settleLost(desk, receipt, paid);
    if (isRefusal(fault, CODES.NoSuchReceipt)) return settleDead(desk, fault, paid);
    throw fault;
  }
}

export function redemption(statement, desk) {
  const receipt = make(
    "input", { name: "receipt", defaultValue: desk.scanned, autocapitalize: "none", spellcheck: false, required: true },
  );
  const amount = make("input", { name: "amount", inputMode: "decimal", required: true });
  const { owing } = statement.owed;
  const lead = `${inPounds(owing)} is owed today. All of it is to be received${owing === 0 ? ": type 0" : ""}.`;
  return {
    title: REDEEM,
    barred: statement.held
      ? "The pledge is on hold, so it can’t be redeemed. Find out why before you release the hold."
      : null,
    parts: [make("p", { className: "lead" }, lead),
      field("Receipt", receipt, "Scan its code, or type it from the paper."),
      field("Received, in pounds", amount), buttons(make("button", { className: "grave" }, "Redeem"))],
    act: (fields) => redeem(fields, statement, desk),
  };
}
