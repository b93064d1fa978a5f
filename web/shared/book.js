/** A book, read from the text of comma-separated rows that the service exports: version 1, without extensions, or 2. */
import { endOf } from "./period.js";

/** The fields of a record that has quotes: a quote in a field is doubled. */
function quotedFields(line) {
  const fields = [];
  for (let place = 0; place <= line.length; place += 1) {
    if (line[place] !== '"') {
      const comma = line.indexOf(",", place);
      const end = comma < 0 ? line.length : comma;
      fields.push(line.slice(place, end));
      place = end;
    } else {
      let end = line.indexOf('"', place + 1);
      while (line[end + 1] === '"') end = line.indexOf('"', end + 2);
      if (end < 0) throw new Error("a quote in the book's text has no end");
      fields.push(line.slice(place + 1, end).replaceAll('""', '"'));
      place = end + 1;
    }
  }
  return fields;
}

/** Texts have no control characters, so no field holds the end of a line. */
const fieldsOf = (line) => (line.includes('"') ? quotedFields(line) : line.split(","));

function termsOf([version, rate, keepBefore, keepAfter]) {
  return { version: Number(version), rate: Number(rate), keepBefore: Number(keepBefore), keepAfter: Number(keepAfter) };
}

function pledgeOf(
  [number, reference, article, kind, credit, taken, agreed, fiveDays, version, held, changed, state, closed, amount]
) {
  return {
    number: Number(number), reference, article, kind, credit: Number(credit), taken, agreed: agreed || null,
    fiveDays: fiveDays === "yes", version: Number(version), held: held === "yes", changed, state,
    closed: closed || null, amount: amount === "" ? null : Number(amount), secrets: [], entries: [], extensions: [],
    booking: null, ends: null,
  };
}

/** What each kind of row adds to the book, to its last pledge where it is of one. */
const readers = {
  B: () => {},
  T: (book, fields) => book.terms.push(termsOf(fields)),
  P: (book, fields) => book.pledges.push(pledgeOf(fields)),
  S: (book, [, , day, paper, secret]) => book.pledges.at(-1).secrets.push({ day, paper, secret }),
  E: (book, [, seq, day, sort, pence]) => book.pledges.at(-1).entries.push(
    { seq: Number(seq), day, sort, pence: Number(pence) }
  ),
  X: (book, [, , day, end]) => book.pledges.at(-1).extensions.push([day, end]),
  K: (book, [, day, window, state]) => { book.pledges.at(-1).booking = { day, window: Number(window), state }; },
};

/** Its versions of terms and its pledges, in order. Throws where the text is not a book's, or not whole. */
export function readBook(text) {
  const lines = text.split("\n");
  if (lines.pop() !== "" || !lines.shift()?.startsWith("row,c1,")) throw new Error("the book's text is not whole");
  const book = { terms: [], pledges: [] };
  for (const line of lines) {
    const [sort, ...fields] = fieldsOf(line);
    if (!readers[sort]) throw new Error(`no row of a book: ${sort}`);
    readers[sort](book, fields);
  }
  const [, version, , pledges] = lines[0]?.split(",") ?? [];
  if (!["1", "2"].includes(version) || Number(pledges) !== book.pledges.length) {
    throw new Error("the book's text is not whole");
  }
  for (const pledge of book.pledges) pledge.ends = endOf(pledge);
  return book;
}

/** A book's terms and how many pledges it has, which its text begins with; null where they have not all come. */
export function readHead(text) {
  const [, first, ...rest] = text.split("\n");
  const [, , terms, pledges] = first?.split(",") ?? [];
  if (pledges === undefined || rest.length <= Number(terms)) return null;
  const rows = rest.slice(0, Number(terms)).map((line) => termsOf(line.split(",").slice(1)));
  return { terms: rows, count: Number(pledges) };
}

/** The receipt that opens a pledge, or null where none does: the last secret's, until the pledge is redeemed. */
export function liveReceipt({ number, state, secrets }) {
  return state === "redeemed" || secrets.length === 0 ? null : `${number}-${secrets.at(-1).secret}`;
}
