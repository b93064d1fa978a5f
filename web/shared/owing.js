/** What is owed on a day, computed by the rules in whole numbers: the statement has it for today alone. */
import { daysBetween } from "./days.js";

/** Charges are kept in millionths of a penny. */
const PENNY = 1_000_000n;

/**
 * The charges of the days after one day, up to another: interest on the loan, and safe keeping before and after the
 * end.
 */
function chargesBetween(from, to, { ends, rates, principal }) {
  const days = daysBetween(from, to);
  const before = Math.min(days, Math.max(0, daysBetween(from, ends)));
  return BigInt(days) * principal * BigInt(rates.rate) + BigInt(before) * BigInt(rates.keepBefore)
    + BigInt(days - before) * BigInt(rates.keepAfter);
}

/** What is owed on a later day, if nothing is entered between. */
function carried({ at, principal, millionths }, { ends }, rates, day) {
  if (day < at) throw new Error("what is owed is not told for a day before the last payment");
  return { at: day, principal, millionths: millionths + chargesBetween(at, day, { ends, rates, principal }) };
}

/** How much of a repayment goes to charges: whole pence of them first. */
function toCharges({ millionths }, pence) {
  const whole = millionths / PENNY;
  return pence < whole ? pence : whole;
}

/** What an entry leaves; the fraction of a penny stays. */
function afterEntry(owed, { sort, pence }) {
  const amount = BigInt(pence);
  if (sort === "draw") return { ...owed, principal: owed.principal + amount };
  const paid = toCharges(owed, amount);
  return { ...owed, principal: owed.principal - (amount - paid), millionths: owed.millionths - paid * PENNY };
}

const atFirst = ({ kind, credit, taken }) =>
  ({ at: taken, principal: kind === "fixed" ? BigInt(credit) : 0n, millionths: 0n });

/**
 * The first day from this one on for which the sum of a pledge can be computed: a clock that was ahead can have left
 * days in the book that are still to come.
 */
export function firstDayFrom(day, { taken, entries }) {
  const last = entries.at(-1)?.day ?? taken;
  return day > last ? day : last;
}

/**
 * The principal, the charges and their sum in pence on a day, of a pledge as its statement shows it and by the terms
 * that it keeps. Throws where the day is before the day taken or before an entry.
 */
export function owedOn(statement, rates, day) {
  let owed = atFirst(statement);
  for (const entry of statement.entries) owed = afterEntry(carried(owed, statement, rates, entry.day), entry);
  const { principal, millionths } = carried(owed, statement, rates, day);
  const charges = millionths / PENNY;
  return { principal: Number(principal), charges: Number(charges), owing: Number(principal + charges) };
}

/** For each entry of a pledge, how much of it went to charges, in pence: nothing of what was drawn. */
export function chargesPaid(statement, rates) {
  let owed = atFirst(statement);
  return statement.entries.map((entry) => {
    const before = carried(owed, statement, rates, entry.day);
    owed = afterEntry(before, entry);
    return entry.sort === "draw" ? 0 : Number(toCharges(before, BigInt(entry.pence)));
  });
}
