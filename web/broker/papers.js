/** The receipts of a pledge: which one is live, and why another is not. */
import { liveReceipt } from "../shared/book.js";
import { clockOf } from "../shared/clock.js";
import { inShort } from "../shared/days.js";
import { isFailedLook, Outdated } from "../shared/faults.js";
import { numberOf, receiptsTyped, whyNotWhole } from "../shared/receipts.js";
import { Unreadable } from "../shared/unreadable.js";
import { ledger } from "./ledger.js";
import { heldBy, statementOf } from "./reading.js";
import { current, refuseOther } from "./session.js";

const PAPERS = {
  opening: "when the pledge was taken", sworn: "on a sworn declaration", written: "on a written statement",
};

/** What the receipt of a pledge that is sold or has passed is still for. */
export const SHOWS = "The receipt only shows what became of the pledge: don’t hand out the article for it.";

/** Whether a receipt opens the pledge of this number; `begun` is the session of the act that asks. */
export const isLive = async (receipt, number, begun) => (await heldBy(receipt, begun))?.number === number;

/** The live receipt of a pledge, by the book in the page or else read anew, or null. */
export async function newestReceipt(number, begun) {
  await ledger.theBook();
  for (const again of [false, true]) {
    if (again) await ledger.awaitReading();
    refuseOther(begun);
    const pledge = ledger.pledge(number);
    const receipt = pledge && liveReceipt(pledge);
    if (receipt && await isLive(receipt, number, begun)) return receipt;
  }
  return null;
}

/** What the book has of the receipts of a pledge, in words. */
export function toldOfReceipts(number) {
  const { secrets } = ledger.pledge(number);
  const { day, paper } = secrets[secrets.length - 1];
  const count = secrets.length === 1 ? "one receipt" : `${secrets.length} receipts`;
  return `The pledge has had ${count}. The newest was made on ${inShort(day)}, ${PAPERS[paper]}.`;
}

const DEAD = "This receipt is not live: ";
const KEEP = "Don’t hand out the article for it.";
const MISREAD = "Compare it and the number of its book with the paper, letter by letter.";

/** Why a receipt is not live, by the book as it was read just now. */
function whyByBook(receipt) {
  const pledge = ledger.pledge(numberOf(receipt));
  if (!pledge) return `${DEAD}book ${current().book} has no pledge ${numberOf(receipt)}.`;
  const { number, secrets } = pledge;
  const place = secrets.findIndex(({ secret }) => receipt.endsWith(secret));
  if (place < 0) return `${DEAD}pledge ${number} never had it. ${MISREAD}`;
  const next = secrets[place + 1];
  if (next) return `${DEAD}a newer one took its place on ${inShort(next.day)}. ${KEEP}`;
  return `${DEAD}pledge ${number} was redeemed with it on ${inShort(pledge.closed)}.`;
}

/** Why a receipt that was live no longer is, by the book in the page; or null where the book does not show that. */
export function whyDeadByBook(receipt) {
  const pledge = receipt ? ledger.pledge(numberOf(receipt)) : null;
  const isKnown = pledge?.secrets.some(({ secret }) => receipt.endsWith(secret));
  return isKnown && liveReceipt(pledge) !== receipt ? whyByBook(receipt) : null;
}

/** Takes away a paper whose receipt is not live any more by the book in the page. Returns why it is not, or null. */
export function dropDeadPaper(place) {
  const why = whyDeadByBook(place.querySelector(".secret")?.textContent);
  if (why !== null) place.replaceChildren();
  return why;
}

/** The same at once, by the statement, and by the book in the page as far as it was read before. */
function whyAtOnce(receipt, statement) {
  const number = numberOf(receipt);
  if (!statement) return `${DEAD}book ${current().book} has no pledge ${number}.`;
  if (statement.status === "redeemed") {
    return `${DEAD}pledge ${number} was redeemed on ${inShort(statement.closing.day)}, and has no live receipt.`;
  }
  const secrets = ledger.pledge(number)?.secrets;
  if (!secrets) {
    return `${DEAD}a newer one took its place, a letter is wrong, or it is of another book. ${KEEP} `
      + "The book, once it is read, shows which.";
  }
  const place = secrets.findIndex(({ secret }) => receipt.endsWith(secret));
  if (place >= 0) return `${DEAD}a newer one took its place. ${KEEP}`;
  return `${DEAD}pledge ${number} never had it, by the book of ${clockOf(ledger.readAt)}. ${MISREAD}`;
}

/**
 * Why a receipt is not live: what can be said at once, the pledge's statement or null, and the sentence that the book
 * yields once it is read anew, or null where it can't be read.
 */
export async function whyDead(receipt, begun = current()) {
  const statement = await statementOf(numberOf(receipt), begun);
  const later = ledger.readAgain().then(() => whyByBook(receipt), () => null);
  return { sentence: whyAtOnce(receipt, statement), statement, later };
}

const UNREAD = "It could not be read just now whether this receipt is still live, so it was not printed. "
  + "Try again in a minute.";
const CHANGED = "The pledge has changed since this paper was made. "
  + "“Print the receipt again”, on its page, shows it as it is now.";

/** What a paper says of its pledge that may change. */
const saidOf = ({ ends, status, owed }) => `${ends} ${status} ${owed?.principal}`;

/** Throws an Unreadable where a paper is not to be printed any more, by its pledge as it is read now. */
export async function refuseOld({ receipt, statement }, begun) {
  const now = await heldBy(receipt, begun).catch((fault) => {
    throw isFailedLook(fault) ? new Outdated(UNREAD) : fault;
  });
  if (now === null) {
    const { sentence, later } = await whyDead(receipt, begun);
    throw new Unreadable(sentence, null, later);
  }
  if (saidOf(now) !== saidOf(statement)) throw new Unreadable(CHANGED);
}

const SEVERAL = "That is more than one receipt. Scan or type one at a time.";

/** The one receipt that was typed or scanned, of this book. */
export function readReceipt(typed, field, none) {
  const receipts = receiptsTyped(typed);
  const why = receipts.length === 0 && whyNotWhole(typed, { orReference: false });
  if (receipts.length > 1) throw new Unreadable(SEVERAL, field);
  if (receipts.length === 0) throw new Unreadable(why ? `That is no whole receipt. ${why}` : none, field);
  const [{ book, receipt }] = receipts;
  if (book && book !== current().book) throw new Unreadable(
    `That receipt is of book ${book}, and this is book ${current().book}. If book ${current().book} was filled from a `
      + `file of book ${book}, type the receipt from the paper, without its link.`, field,
  );
  return receipt;
}
