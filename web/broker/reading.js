/**
 * What the service returns for one pledge just now, whatever the book in the page has. `begun` is the session of an act
 * that may have begun in another book.
 */
import { CODES, isRefusal } from "../shared/codes.js";
import { readStatement } from "../shared/statement.js";
import { askBook, askHeld } from "./session.js";

/** Null in place of one refusal. */
async function orNull(asked, code) {
  try {
    return readStatement((await asked).text);
  } catch (fault) {
    if (isRefusal(fault, code)) return null;
    throw fault;
  }
}

/** The statement of a pledge, or null where the book has none of that number. */
export const statementOf = (number, begun) =>
  orNull(askBook("GET", `/pledges/${number}`, { begun }), CODES.NoSuchPledge);

/** What a receipt opens, or null where it is not live. */
export const heldBy = (receipt, begun) => orNull(askHeld(receipt, "", { begun }), CODES.NoSuchReceipt);
