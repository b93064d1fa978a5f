/**
 * Texts that go to the service: blanks at their ends are taken off, and their length is counted in bytes as the service
 * counts it.
 */
import { Unreadable } from "./unreadable.js";

const bytesOf = (text) => new TextEncoder().encode(text).length;

/** Controls, marks without a width, and halves of a letter: a text that was pasted can have them unseen. */
const UNSEEN = /[\p{Cc}\p{Cs}\u00ad\u200b\u2060\ufeff]/u;

/** A text of at most so many bytes, from the field of this name. */
export function readText(text, { field, name, most }) {
  if (UNSEEN.test(text.replace(/[\t\n\r]/g, " "))) throw new Unreadable(
    `${name} has a mark that can’t be seen. Type it anew in place of pasting it.`, field,
  );
  const trimmed = text.trim().replace(/\s+/g, " ");
  if (trimmed === "") throw new Unreadable(`${name} is empty. Write at least a letter.`, field);
  const over = bytesOf(trimmed) - most;
  if (over > 0) throw new Unreadable(
    `${name} is too long by ${over} (${most} plain letters have room; a letter such as é or £ counts two).`, field,
  );
  return trimmed;
}

/** A text as it is compared: without regard to case, to blanks at its ends, and to how many are between two words. */
export const folded = (text) => text.trim().replace(/\s+/g, " ").toLowerCase();
