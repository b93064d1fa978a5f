/** Amounts: whole pence in the pages and the service, pounds for people. */
import { Unreadable } from "./unreadable.js";

/** Pence as people write pounds: 123456 is £1,234.56. */
export function inPounds(pence) {
  const pounds = String(Math.floor(pence / 100)).replace(/\B(?=(\d{3})+$)/g, ",");
  return `£${pounds}.${String(pence % 100).padStart(2, "0")}`;
}

const FORM = "Write the amount in pounds, as 100, 99.50 or 1,000: pence are two digits after a full stop, or none.";

/** The pence of an amount that a person typed: 100, 99.50, £1,000 or £1,000.00. */
export function readPounds(text, field = "amount") {
  const found = /^£?\s*(\d{1,3}(?:,\d{3})+|\d{1,9})(?:\.(\d\d))?$/.exec(text.trim());
  if (!found) throw new Unreadable(FORM, field);
  return Number(found[1].replaceAll(",", "")) * 100 + Number(found[2] ?? 0);
}

/** From this amount on, an entry is asked about before it is sent, where the shop did not set another sum. */
export const LARGE_PENCE = 100_000;

/** The largest amount that the service takes. */
export const MOST_PENCE = 100_000_000;
