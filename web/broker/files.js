/** The book as a file, out and in. */
import { refusalOf } from "../shared/codes.js";
import { today } from "../shared/days.js";
import { byId, foreign, make } from "../shared/dom.js";
import { Lost, lookFirst } from "../shared/faults.js";
import { onSend } from "../shared/forms.js";
import { confirmed, NOTHING_DONE } from "../shared/questions.js";
import { Unreadable } from "../shared/unreadable.js";
import { ledger } from "./ledger.js";
import { askBook, current, refuseOther } from "./session.js";

const LONGEST = 1_048_576;
const KEY_BYTES = 16;
/** A whole book goes out on a slow line for a while, and no part of the reply comes before its end. */
const PATIENCE = 300_000;

/** What the broker has to know once two books have the same receipts. */
const BOTH = "Each receipt now opens its pledge in this book, and in the book that the file came from as well, if that "
  + "still exists. Record nothing in that one any more, and ask the operator of the service to remove it. "
  + "Links and codes that were printed before name the old book, so print the receipts again.";

const LOST = "The reply was lost, so the book may have been filled. Send the same file again: it fills the book once.";

/**
 * The key of an import: the beginning of the file's SHA-256, so that the same file is the same import, whenever and
 * wherever it is sent.
 */
async function keyOf(bytes) {
  if (!crypto.subtle) throw new Unreadable(
    "A file can only be sent where this page was opened by https, or on this machine."
  );
  const digest = new Uint8Array(await crypto.subtle.digest("SHA-256", bytes));
  return [...digest.slice(0, KEY_BYTES)].map((byte) => byte.toString(16).padStart(2, "0")).join("");
}

/** The text of a file. A program that saved the file in another encoding has spoilt it: letters would be lost. */
function textOf(bytes) {
  try {
    return new TextDecoder("utf-8", { fatal: true }).decode(bytes);
  } catch {
    throw new Unreadable(
      "The file is not as it was exported: its letters are not in UTF-8. Another program may have saved it, such as a "
        + "spreadsheet. Send the file that was exported.", "file",
    );
  }
}

/** How much of the book has come, on the bar. */
function tellPart({ count, whole }) {
  byId("save-bar").hidden = false;
  byId("save-bar").value = whole > 0 ? count / whole : 0;
}

async function saveBook() {
  const { book } = current();
  const { text } = await askBook("GET", "/export", { silence: PATIENCE, watch: tellPart, isLarge: true })
    .finally(() => { byId("save-bar").hidden = true; });
  const address = URL.createObjectURL(new Blob([text], { type: "text/csv" }));
  make("a", { href: address, download: `book-${book}-${today()}.csv` }).click();
  setTimeout(() => URL.revokeObjectURL(address), 60_000);
  return `The book is saved, with ${text.split("\n").length - 2} rows. Keep the file as you keep your key.`;
}

/** The first record of an exported book. */
const HEADING = ["row", ...Array.from({ length: 14 }, (_, place) => `c${place + 1}`)].join(",");

/** The lines of a file as the service reads them, without what it leaves out. */
const linesOf = (body) =>
  body.replace(/^\ufeff/, "").split(/[\r\n]+/).filter((line) => line !== "").map((line) => line.replaceAll('"', ""));

/** How many pledges a file has, by its second line; null if it does not say. Throws where it is not a book's. */
function countIn(body) {
  const [heading, second = ""] = linesOf(body);
  if (heading !== HEADING) throw refusalOf("Columns", { row: 1 });
  const count = second.split(",")[3] ?? "";
  return /^\d+$/.test(count) ? Number(count) : null;
}

const countPledges = (count) => (count === 1 ? "1 pledge" : `${count} pledges`);

/** The imports whose replies were lost, as their books and keys. */
const lost = new Set();

/** Whether the book has something already, so that nothing of a file comes into it any more. */
const isFilled = ({ terms, count }) => terms.length + count > 0;

const filledLine = ({ count }) =>
  `Book ${current().book} is not empty: it has ${count === 0 ? "terms" : countPledges(count)}. `
    + "If it was filled from this file, nothing is changed.";

/** A book is filled once, so the file and the book, of which `head` is the beginning, are asked about. */
const agreedTo = ({ name }, count, head) => confirmed({
  title: `Fill book ${current().book} from this file?`,
  lines: [
    [foreign(name), count === null ? "." : `, with ${countPledges(count)}.`],
    isFilled(head) ? filledLine(head) : null,
    "A book is filled once: after that it can’t be emptied, or filled from another file.",
  ],
  yes: `Fill book ${current().book}`, no: "Not now",
});

/** The result of an import: the service answers a file that it has answered before in the same way. */
const tellFilled = (imported, book, isAgain) => (isAgain
  ? {
    sentence: `Nothing was changed: book ${book} was filled from this file before, with ${countPledges(imported)}. `
      + "What was done in the book since then stays.",
    tone: "quiet",
  }
  : `The book is filled: ${countPledges(imported)} came. ${BOTH}`);

async function fillBook({ file }) {
  const begun = current();
  if (!file?.name) throw new Unreadable("Choose a file.", "file");
  if (file.size > LONGEST) throw new Unreadable(
    "The file is above a mebibyte. A book as large as that is moved by the operator of the service.", "file",
  );
  const bytes = await file.arrayBuffer();
  const body = textOf(bytes);
  const count = countIn(body);
  const importKey = await keyOf(bytes);
  const head = await lookFirst(ledger.readHead());
  refuseOther(begun);
  if (!await agreedTo(file, count, head)) return NOTHING_DONE;
  const name = `${begun.book} ${importKey}`;
  let said;
  try {
    ({ said } = await askBook("POST", "/import", { body, harmless: true, importKey, silence: PATIENCE, begun }));
  } catch (fault) {
    if (!(fault instanceof Lost)) throw fault;
    lost.add(name);
    return { sentence: LOST, tone: "bad" };
  }
  if (begun === current()) ledger.read().catch(() => {});
  const wasLost = lost.delete(name);
  return tellFilled(said.imported, begun.book, isFilled(head) && !wasLost);
}

export function setUpFiles() {
  onSend(byId("exporting"), "broker", saveBook);
  onSend(byId("importing"), "broker", fillBook);
}
