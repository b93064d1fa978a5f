/** The open book: its number and its key, kept for this tab alone. */
import { ask } from "../shared/api.js";
import { Outdated } from "../shared/faults.js";
import { bookTyped, plain } from "../shared/receipts.js";
import { Unreadable } from "../shared/unreadable.js";

const KEPT = "broker";
const DIGITS = 32;
const NO_DIGIT = /[^0-9a-f]/i;
const CLOSED = "The book was closed before this was sent, so it was not done.";
let session = JSON.parse(sessionStorage.getItem(KEPT) ?? "null");

/** The session, or null where no book is open. */
export const current = () => session;

/** The digits of a key in any of its forms, also with the blanks and dashes of a word processor. */
function readKey(typed) {
  const digits = plain(typed).replace(/[\s-]/g, "");
  if (digits.length === DIGITS && !NO_DIGIT.test(digits)) return digits;
  throw new Unreadable(
    "That is no key. A key is 32 digits from 0 to 9 and a to f, with or without hyphens between them. "
      + (NO_DIGIT.test(digits) ? "A key has no other letters." : `You typed ${digits.length} digits.`),
    "key",
  );
}

export function begin({ book, key }) {
  const number = bookTyped(book);
  if (number === "") throw new Unreadable("The book is a number from 1 to 999,999,999.", "book");
  session = { book: number, key: readKey(key) };
}

/** Keeps the session for the tab, once its key was found to be right. */
export const keepSession = () => sessionStorage.setItem(KEPT, JSON.stringify(session));

export function end() {
  session = null;
  sessionStorage.removeItem(KEPT);
}

/** Throws where the book of an act that began before is not the one that is open now. */
export function refuseOther(begun) {
  if (begun === null || begun !== session) throw new Outdated(CLOSED);
}

/**
 * Asks for the open book. A body is a text, or what is sent as JSON; `begun` is the session in which the act began, if
 * that may be another one; the rest is that of `ask`.
 */
export async function askBook(method, what, { body, importKey, begun = session, ...more } = {}) {
  refuseOther(begun);
  const fields = { "Pledge-Key": session.key, ...(importKey && { "Import-Key": importKey }) };
  const sent = body === undefined || typeof body === "string" ? body : JSON.stringify(body);
  return ask({ method, path: `/books/${session.book}${what}`, fields, body: sent, ...more });
}

/** Asks for the open book as the bearer of a receipt does, who needs no key. */
export async function askHeld(receipt, what, { body, harmless, begun = session } = {}) {
  refuseOther(begun);
  const method = what === "" ? "GET" : "POST";
  const fields = { "Pledge-Receipt": receipt };
  const path = `/books/${session.book}/held${what}`;
  return ask({ method, path, fields, body: body && JSON.stringify(body), harmless });
}
