/** The receipts that this tab holds: typed, pasted, or carried by a link's fragment, which reaches no server. */
import {
  asWritten, bookTyped, fragmentIn, linesTyped, ofFragment, partsOf, receiptsTyped, whyNotWhole,
} from "../shared/receipts.js";
import { Unreadable } from "../shared/unreadable.js";

const KEPT = "receipts";
const PAGE = "/pawn/";

/** What is said of a link that is not whole; `wrong` says which part is missing. */
export const cutInWords = (wrong) => `That link is not whole, so it opens nothing: ${wrong} `
  + "Scan the square code again, or type what is missing from the paper.";
const FORM = "It is the pledge’s number, a hyphen, and 32 digits from 0 to 9 and a to f: copy it from the paper.";
const LINK = /#\S*(?:book|receipt)=/i;

/** Why a line is no whole receipt, or an empty text. A pawnor types receipts and no references. */
const whyNot = (line) => whyNotWhole(line, { orReference: false });

/** Says what is wrong where a text has no receipt at all, or a line that was meant as one is not whole. */
function refuseOthers(text, found) {
  if (found.length === 0) throw new Unreadable(
    LINK.test(text)
      ? cutInWords(partsOf(fragmentIn(text)).wrong)
      : `That is no receipt. ${whyNot(text) || FORM}`,
    "receipts",
  );
  const lines = linesTyped(text);
  const others = lines.filter((line) => receiptsTyped(line).length === 0);
  // Where no line has a receipt by itself, one is on several lines.
  const other = others.length < lines.length && others.find((line) => LINK.test(line) || whyNot(line));
  if (other) throw new Unreadable(
    `This is no receipt: ${other.trim()}. ${whyNot(other) || "The link is not whole."} `
      + "Nothing was shown: correct it, or leave it out.",
    "receipts",
  );
}

/**
 * Takes the receipts out of the address, so that no bookmark and no shared link has them: also where a program has
 * changed the link's `#`, so that they are in its query or in its path. The browser's history may keep the link.
 * Returns, too, the parts of the link, and what is wrong with it.
 */
export function takeFragment() {
  const fragment = fragmentIn(asWritten(location.href));
  if (fragment) history.replaceState(null, "", PAGE);
  const { wrong, ...parts } = partsOf(fragment);
  return { receipts: ofFragment(fragment), parts, wrong: fragment.length > 1 ? wrong : "" };
}

/**
 * The receipts that a person typed or pasted: one on each line, or links. Only a receipt without its link wants the
 * number of the book.
 */
export function ofTyped({ book, receipts }) {
  const found = receiptsTyped(receipts).map((one) => ({ ...one, book: one.book ?? bookTyped(book) }));
  refuseOthers(asWritten(receipts), found);
  if (found.some((one) => one.book === "")) throw new Unreadable(
    book.trim() === ""
      ? "Type the number of the shop’s book too: it is printed on the paper after “book”."
      : "The book is a number, which is printed on the paper after “book”.",
    "book",
  );
  return found;
}

/** The receipts that this tab held before it was loaded again. */
export const kept = () => JSON.parse(sessionStorage.getItem(KEPT) ?? "[]");

export const keep = (receipts) => sessionStorage.setItem(KEPT, JSON.stringify(receipts));
