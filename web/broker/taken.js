/** A pledge that was taken just now: it is looked at by its receipt, and the receipt is shown with its terms. */
import { inWords } from "../shared/days.js";
import { byId, foreign, make } from "../shared/dom.js";
import { termsInWords } from "../shared/terms.js";
import { tellInUse } from "./inuse.js";
import { ledger } from "./ledger.js";
import { heldBy } from "./reading.js";
import { receiptSheet, recheckPaper } from "./receipt.js";
import { refuseOther } from "./session.js";
import { tagOf } from "./tag.js";

/** Whether a receipt is a live one of a pledge that was taken now, and the pledge is as it was sent. */
function isTakenNow({ held, opening, said, known }) {
  return said.number > known && held !== null && held.number === said.number && held.status === "inside"
    && held.entries.length === 0
    && held.article === opening.article && held.kind === opening.kind && held.credit === opening.pence
    && held.booking === null;
}

/**
 * The terms of a pledge that was taken just now: the newest ones, if no others were added meanwhile, or else those
 * that the whole book has for it.
 */
async function termsTaken(number, before) {
  const { terms } = await ledger.readHead();
  if (terms.length === before.terms.length) return terms[terms.length - 1];
  await ledger.awaitReading();
  if (ledger.pledge(number) === null) await ledger.awaitReading();
  const found = ledger.termsOf(ledger.pledge(number));
  if (!found) throw new Error("the book does not have the pledge’s terms");
  return found;
}

const TURNS = { tag: "Show the tag for the bag", receipt: "Show the receipt" };

/**
 * The receipt, and in its place the tag once a button asks for it: one paper is shown, and printed, at a time. When the
 * receipt is shown again, its pledge is read again; `notice` says why the receipt is taken away then.
 */
function inTurn(receipt, tag, notice) {
  const turn = make("button", { type: "button", className: "plain screen" }, TURNS.tag);
  tag.hidden = true;
  turn.addEventListener("click", () => {
    [tag.hidden, receipt.hidden] = [receipt.hidden, tag.hidden];
    turn.textContent = tag.hidden ? TURNS.tag : TURNS.receipt;
    if (tag.hidden) recheckPaper(receipt.parentElement).then(() => {
      // The focus was on the button, which is taken away with the receipt.
      if (!turn.isConnected && document.activeElement === document.body) notice.focus();
    });
  });
  return [turn, receipt, tag];
}

/** What is said of a running account: the clerk who pays money out at once would not record it. */
export const PAID_OUT =
  "Nothing is paid out yet: record each amount that you pay out as a drawing, on the page of the pledge.";

/** What was taken, in a sentence; loudly where its day or its terms are not those that were asked about. */
function toldOf({ number, taken, ends, kind }, terms, asked) {
  const other = [];
  if (taken !== asked.day) other.push(
    ` on ${inWords(taken)}, and not on the day that was asked about: the period ends on ${inWords(ends)}`
  );
  if (asked.version !== null && terms.version !== asked.version) other.push(
    `, under terms that were added since you were asked, version ${terms.version}: ${termsInWords(terms)}`
  );
  const sentence = `Taken as pledge ${number}${other.join("")}. Its receipt is ready to print.`
    + (kind === "running" ? ` ${PAID_OUT}` : "");
  return other.length === 0 ? sentence : { sentence, tone: "bad" };
}

/**
 * Shows that a pledge was taken, and its receipt. `asked` is the day and the version of the terms that were asked about,
 * `begun` the session in which it was taken, `notice` what says later why the receipt is taken away.
 */
export async function settle({ opening, said, known, before, asked, begun, notice }) {
  // The beginning of the book is asked for after that: the service makes the whole book for it, and more of it comes
  // than is wanted, and both would delay what the receipt opens.
  const held = await heldBy(said.receipt, begun);
  refuseOther(begun);
  if (!isTakenNow({ held, opening, said, known })) {
    ledger.anotherChanged();
    await tellInUse(said.number, opening.ref);
  }
  const link = make("a", { href: `#pledge=${said.number}`, className: "pledge-link" }, `Pledge ${said.number}`);
  const line = make("p", { className: "taken screen" }, link, " is in the book: ", foreign(opening.article), ".");
  byId("taken-receipt").replaceChildren(line);
  const terms = await termsTaken(said.number, before);
  refuseOther(begun);
  ledger.addTaken({ opening, statement: held, receipt: said.receipt, version: terms.version });
  const { ref: reference, agreed, five_days: fiveDays } = opening;
  const beside = { reference, agreed, fiveDays, terms };
  byId("taken-receipt").append(
    ...inTurn(
      receiptSheet({ statement: held, receipt: said.receipt, known: beside, said: notice }), tagOf(held, beside),
      notice,
    )
  );
  return toldOf(held, terms, asked);
}
