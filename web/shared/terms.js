/** Terms in words by which a person can compute. */
import { inPounds } from "./money.js";

/** A month is shown as thirty days. */
const MONTH = 30;
const SAMPLE = 10_000;
const MILLION = 1e6;

/** Pence as people say small sums: 30p, £1.20. */
const small = (pence) => (pence < 100 ? `${pence}p` : inPounds(pence));

/** Interest, as £8.00 in 30 days on £100: whole pence, rounded down, as the service rounds. */
export function interestInWords({ rate }) {
  if (rate === 0) return "no interest";
  return `${inPounds(Math.floor((SAMPLE * rate * MONTH) / MILLION))} in 30 days on £100`;
}

const keeping = (millionths) =>
  (millionths === 0 ? "nothing" : `${small(Math.floor((millionths * MONTH) / MILLION))} in 30 days`);

/** Safe keeping up to the end of the period and after it. */
export function keepingInWords({ keepBefore, keepAfter }) {
  if (keepBefore === keepAfter) return keepBefore === 0 ? "no charge" : keeping(keepBefore);
  return `${keeping(keepBefore)}, after the end ${keeping(keepAfter)}`;
}

/** Both in a line. */
export function termsInWords(rates) {
  const { keepBefore, keepAfter } = rates;
  const interest = interestInWords(rates);
  return keepBefore === 0 && keepAfter === 0 ? interest : `${interest}; safe keeping ${keepingInWords(rates)}`;
}
