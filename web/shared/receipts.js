/** Receipts as people type, paste and scan them: alone, several on lines, or in the link of a square code. */

/** Dashes that a word processor or a keyboard puts in a hyphen's place. */
const DASHES = /[\u2010-\u2015\u2212\u00ad\ufe58\ufe63\uff0d]/g;
/** Marks that are not seen, and braces and words that the service would also read. */
const UNSEEN = /[\u200b-\u200f\u202a-\u202e\u2060\u2066-\u2069\ufeff{}]|urn:uuid:/gi;
/** A number and 32 digits, with blanks or hyphens between them and anywhere among the digits. */
const RECEIPT = /(?:^|[^0-9a-z])([1-9]\d{0,8})[\s-]+((?:[0-9a-f][\s-]*){31}[0-9a-f])(?![0-9a-z])/gi;
/** A receipt as the service writes it. */
const WHOLE = "[1-9]\\d{0,8}-[0-9a-f]{8}(?:-[0-9a-f]{4}){3}-[0-9a-f]{12}";
/** One that another follows at once: a field took two scans as one text. */
const RUN_TOGETHER = new RegExp(`(${WHOLE})(?=${WHOLE})`, "gi");
const BOOK = /^[1-9]\d{0,8}$/;
const BOOK_TYPED = /^\W*(?:book)?\W*(?:no|number)?\W*([1-9]\d{0,8})\W*$/i;
const PLEDGE_TYPED = /^(?:#|pledge\b)?\s*0*([1-9]\d{0,8})$/i;
const TERMS = /^(\d{1,5})\.(\d{1,8})\.(\d{1,8})$/;
/** The texts that a link may have in addition to the receipt, and the most letters of each. */
const LONGEST = { shop: 60, rate: 120, ref: 40 };
/** A longer link makes a code that a telephone reads badly, so it has no texts in addition to the receipt. */
const LONGEST_LINK = 280;

/** What was meant as a receipt, perhaps with too few digits, too many, or other letters. A reference is shorter. */
const MEANT = /^[^0-9a-z]*[1-9]\d{0,8}\s*-\s*((?:[0-9a-z][\s-]*){20,})$/i;
/** The same where no references are typed. */
const MEANT_OR_CUT = /^[^0-9a-z]*[1-9]\d{0,8}\s*-\s*((?:[0-9a-z][\s-]*)+)$/i;
const NO_DIGIT = /[g-z]/i;
const DIGITS = 32;

const GROUPS = /^(.{8})(.{4})(.{4})(.{4})(.{12})$/;

/** A receipt as the service writes it. */
function written(number, digits) {
  return `${number}-${digits.toLowerCase().replace(/[^0-9a-f]/g, "").replace(GROUPS, "$1-$2-$3-$4-$5")}`;
}

/** A text without marks that are not seen, and with hyphens in the place of dashes. */
export const plain = (text) => text.normalize("NFKC").replace(UNSEEN, "").replace(DASHES, "-");

/** The receipts that a text contains, in the service's own spelling. */
export function receiptsIn(text) {
  const apart = plain(text).replace(RUN_TOGETHER, "$1 ");
  return [...apart.matchAll(RECEIPT)].map(([, number, digits]) => written(number, digits));
}

/**
 * What is wrong with a text that was meant as a receipt, as a sentence; or an empty text. A short text is meant as one
 * only where no references are typed.
 */
export function whyNotWhole(text, { orReference = true } = {}) {
  const [, meant] = (orReference ? MEANT : MEANT_OR_CUT).exec(plain(text).trim()) ?? [];
  if (meant === undefined) return "";
  const [letter] = NO_DIGIT.exec(meant) ?? [];
  if (letter) return `It has the letter “${letter}”, and a receipt has only the digits 0 to 9 and a to f.`;
  const count = meant.replace(/[\s-]/g, "").length;
  return count === DIGITS ? "" : `There are ${count} digits after the number, and a receipt has ${DIGITS}.`;
}

/** The number of a receipt's pledge. */
export const numberOf = (receipt) => Number(receipt.split("-")[0]);

/** The number of a book as people type it: alone, or as the paper has it, such as “book 7”; or an empty text. */
export const bookTyped = (text) => BOOK_TYPED.exec(plain(text))?.[1] ?? "";

/** The number of a pledge as people type it: alone, as “#12” or “Pledge 12”, also with noughts before it; or null. */
export const pledgeTyped = (text) => Number(PLEDGE_TYPED.exec(text)?.[1] ?? 0) || null;

/** A link of which a program has escaped the marks between its parts. */
const ESCAPED = /receipt%3D|%26receipt/i;
/**
 * What a program may have put in the place of the `#` before the parts of a link: the last mark before them, since the
 * link may be a part of another program's address.
 */
const OTHER_HASH = /(?:%23|\?)(?=(?:(?:(?!%23)[^\s#])*(?:&|%26))?(?:book|receipt)(?:=|%3D))/i;

/** A text as it was before a program escaped all of it with per cent signs, if one did. */
function decoded(text) {
  try {
    return ESCAPED.test(text) ? decodeURIComponent(text) : text;
  } catch {
    return text;
  }
}

/**
 * A text with its links as the shop wrote them: a program may have escaped them with per cent signs, or each `&` even
 * more than once, or have put another mark in the place of the `#`.
 */
export const asWritten = (text) =>
  decoded(text.replace(OTHER_HASH, "#")).replace(/&(?:amp;)+/gi, "&").replace(OTHER_HASH, "#");

/** Marks of a sentence that follow a link, and that a link of the pages has only in another spelling. */
const AFTER_LINK = /[)\]}>»”’"'!?,;:\s]+\.?$/;
/** The same after a number, where a full stop is no part of it, either. */
const AFTER_NUMBER = /[^0-9a-z]+$/i;

function termsOf(text) {
  const [, rate, keepBefore, keepAfter] = (TERMS.exec(text) ?? []).map(Number);
  return rate === undefined ? null : { rate, keepBefore, keepAfter };
}

/** The days of grace as a link says them: true for five, false for none, null where it says nothing. */
const GRACE = { 5: true, 0: false };

/** What a link says of a pledge in addition to its receipt; here nothing. */
const UNTOLD = { shop: "", rate: "", ref: "", terms: null, fiveDays: null };

/** What a link says of the shop, the reference and the terms. A link that was cut in its terms has no grace. */
function toldIn(said) {
  const texts = Object.entries(LONGEST).map(
    ([name, longest]) => [name, (said.get(name) ?? "").trim().slice(0, longest)]
  );
  return {
    ...UNTOLD, ...Object.fromEntries(texts), terms: said.has("grace") ? termsOf(numbersIn(said, "terms")) : null,
    fiveDays: GRACE[numbersIn(said, "grace")] ?? null,
  };
}

/** What a link's fragment says, by its names in small letters. */
function saidIn(fragment) {
  const typed = new URLSearchParams(asWritten(fragment).replace(/^#/, "").replace(AFTER_LINK, ""));
  return new URLSearchParams([...typed].map(([name, value]) => [name.toLowerCase(), value]));
}

/** What a link says in numbers under this name, or an empty text. */
const numbersIn = (said, name) => (said.get(name) ?? "").trim().replace(AFTER_NUMBER, "");

/** The book that a link names, or an empty text. */
function bookIn(said) {
  const book = numbersIn(said, "book");
  return BOOK.test(book) ? book : "";
}

/**
 * What a link's fragment has of its two parts: the number of the book and the receipts, each empty if it is missing;
 * and what is wrong with the link, as a sentence, or an empty text.
 */
export function partsOf(fragment) {
  const said = saidIn(fragment);
  const book = bookIn(said);
  const receipts = said.getAll("receipt").flatMap(receiptsIn);
  const typed = numbersIn(said, "receipt");
  const wrong = [
    book === "" && "the number of the shop’s book is missing",
    receipts.length === 0 && (typed === "" ? "the receipt is missing" : "the receipt is not whole"),
  ].filter(Boolean);
  const why = receipts.length === 0 ? whyNotWhole(typed, { orReference: false }) : "";
  return { book, receipts, wrong: wrong.length === 0 ? "" : `${wrong.join(", and ")}. ${why}`.trim() };
}

/**
 * The receipts of a link's fragment with their book, and the other texts of the link. Of several receipts only the shop
 * is said: the others are of one pledge.
 */
export function ofFragment(fragment) {
  const { book, receipts, wrong } = partsOf(fragment);
  if (wrong) return [];
  const all = toldIn(saidIn(fragment));
  const told = receipts.length === 1 ? all : { ...UNTOLD, shop: all.shop };
  return receipts.map((receipt) => ({ book, receipt, ...told }));
}

const LINK = /^\S*#\S*receipt=\S+$/i;

/** The part of a text that begins with the # of its link, or an empty text. */
export const fragmentIn = (text) => text.slice(text.indexOf("#") < 0 ? text.length : text.indexOf("#"));

/** Whether a text is a link or a receipt, and not the name of anything else. */
export const isReceiptLike = (text) => LINK.test(asWritten(text).trim()) || receiptsIn(text).length > 0;

/** The parts of a typed text that can have a receipt each. */
export const linesTyped = (text) => asWritten(text).split(/[\n,;]+/);

const untold = (book, receipts) => receipts.map((receipt) => ({ book, receipt, ...UNTOLD }));

/** The receipts of a line: those of links in it, with their books, or those without a book. */
function receiptsOfLine(line) {
  const links = line.split(/\s+/).filter((word) => LINK.test(word));
  return links.length > 0 ? links.flatMap((link) => ofFragment(fragmentIn(link))) : untold(null, receiptsIn(line));
}

/** The receipts of a text whose lines have none by themselves: a mail program may have put one on two lines. */
function receiptsAcross(text) {
  if (!text.includes("#")) return untold(null, receiptsIn(text));
  const { book, receipts } = partsOf(fragmentIn(text));
  return book === "" ? [] : untold(book, receipts);
}

/** The receipts of a typed text. */
export function receiptsTyped(text) {
  const found = linesTyped(text).flatMap(receiptsOfLine);
  return found.length > 0 ? found : receiptsAcross(asWritten(text));
}

/**
 * A link for the pawnor's page. What follows the # reaches no server and no log. It says what the service does not
 * show to a pawnor: the terms, the days of grace, the shop's name and its reference, as far as there is room.
 */
export function linkTo({ origin, book, receipt, shop, reference, terms, fiveDays }) {
  const { rate, keepBefore, keepAfter } = terms;
  const more = [
    ["terms", [rate, keepBefore, keepAfter].join(".")], ["grace", fiveDays ? "5" : "0"], ["shop", shop],
    ["ref", reference],
  ];
  const linkOf = (said) => `${origin}/pawn/#${new URLSearchParams(said)}`;
  const said = [["book", book], ["receipt", receipt]];
  for (const pair of more) if (pair[1] && linkOf([...said, pair]).length <= LONGEST_LINK) said.push(pair);
  return linkOf(said);
}
