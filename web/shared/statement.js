/** The statement of one pledge, read from the exact text that the service writes. */

const MONEY = /^\d+\.\d\d$/;

/** Pence of an amount as the service writes it. */
function penceOf(text) {
  if (!MONEY.test(text)) throw new Error(`no amount: ${text}`);
  return Number(text.replace(".", ""));
}

/** The lines of a text, taken one at a time by their first word. */
class Lines {
  constructor(text) {
    this.lines = text.split("\n");
    if (this.lines.pop() !== "") throw new Error("the statement has no end");
  }

  /** What follows this word on the next line, or null where the next line begins with another. */
  find(word) {
    if (!this.lines[0]?.startsWith(`${word} `)) return null;
    return this.lines.shift().slice(word.length + 1);
  }

  take(word) {
    const found = this.find(word);
    if (found === null) throw new Error(`the statement has no ${word}`);
    return found;
  }

  /** What follows this word on each of the next lines that begin with it. */
  takeAll(word) {
    const all = [];
    for (let found = this.find(word); found !== null; found = this.find(word)) all.push(found);
    return all;
  }
}

function bookingOf(text) {
  if (text === "none") return null;
  const [day, window, state] = text.split(" ");
  return { day, window: Number(window), state };
}

function closingOf(lines) {
  const redeemed = lines.find("Redeemed")?.split(" ");
  if (redeemed) return { day: redeemed[0], paid: penceOf(redeemed[2]) };
  const sold = lines.find("Sold")?.split(" ");
  if (sold) return { day: sold[0], net: penceOf(sold[2]), surplus: penceOf(sold[4]), shortfall: penceOf(sold[6]) };
  return null;
}

function readOwed(lines) {
  return {
    principal: penceOf(lines.take("Principal")), charges: penceOf(lines.take("Charges")),
    owing: penceOf(lines.take("Owing")),
  };
}

function entryOf(text) {
  const [seq, day, sort, amount] = text.split(" ");
  return { seq: Number(seq), day, sort, pence: penceOf(amount) };
}

/**
 * The statement as values: amounts in pence, days as texts. What is owed is null once the pledge has passed. Throws
 * where it is no statement.
 */
export function readStatement(text) {
  const lines = new Lines(text);
  const number = Number(lines.take("Pledge"));
  const article = lines.take("Article");
  const [kind, credit] = lines.take("Kind").split(" ");
  const taken = lines.take("Taken");
  const ends = lines.take("Ends");
  const extensions = lines.takeAll("Extended").map((line) => line.split(" to "));
  const status = lines.take("Status");
  const owed = status === "passed" ? null : readOwed(lines);
  const held = lines.take("Held") === "yes";
  const booking = bookingOf(lines.take("Booking"));
  const closing = closingOf(lines);
  const entries = lines.takeAll("Entry").map(entryOf);
  if (lines.lines.length > 0) throw new Error("the statement goes on");
  const nextSeq = entries.length + 1;
  return {
    number, article, kind, credit: penceOf(credit), taken, ends, extensions, status, owed, held, booking, closing,
    entries, nextSeq,
  };
}
