/**
 * Taking a pledge, and printing its receipt. What is printed was looked at just before: a live receipt of a pledge that
 * was taken now, with the terms that it keeps. None of it waits for the whole book.
 */
import { becomesInWords } from "../shared/after.js";
import { CODES, isRefusal, refusalOf } from "../shared/codes.js";
import { inShort, inWords, sixMonthsAfter, today } from "../shared/days.js";
import { byId, foreign, make } from "../shared/dom.js";
import { Lost, lookFirst } from "../shared/faults.js";
import { fieldsOf, fillAgain, onSend, tell } from "../shared/forms.js";
import { inPounds, MOST_PENCE, readPounds } from "../shared/money.js";
import { confirmed, NEW_DAY, NOTHING_DONE } from "../shared/questions.js";
import { isReceiptLike, numberOf } from "../shared/receipts.js";
import { termsInWords } from "../shared/terms.js";
import { folded, readText } from "../shared/texts.js";
import { Unreadable } from "../shared/unreadable.js";
import { isLong, loudLine } from "./extending.js";
import { refuseInUse } from "./inuse.js";
import { ledger } from "./ledger.js";
import { dropDeadPaper } from "./papers.js";
import { openReceipt } from "./pledge.js";
import { statementOf } from "./reading.js";
import { recheckPaper } from "./receipt.js";
import { nextReference } from "./references.js";
import { askBook, current, refuseOther } from "./session.js";
import { PAID_OUT, settle } from "./taken.js";

/** From this sum on, the question says that it is large. */
const VERY_LARGE_PENCE = 1_000_000;

/** Terms that were read so many milliseconds ago are old. */
const OLD_TERMS = 60_000;

/** The tab keeps under this name what is typed in the form, and of which book, so that a reload does not empty it. */
const TYPED = "taking";

const form = () => byId("taking");
const place = () => byId("taken-receipt");

/** An opening whose reply was lost, and the number of the last pledge before it. Sent again it is taken once. */
let lost = null;
/** Whether the form was refused because the book has no terms; and the line in which that is said. */
let wantsTerms = false;
let notice;

const TERMS_FIRST = "This book has no terms yet, and a pledge keeps the terms under which it is taken. ";

/** Whether the book has no terms, as far as the page has read it. */
const hasNoTerms = () => ledger.head?.terms.length === 0;

const keepTyped = () =>
  sessionStorage.setItem(TYPED, JSON.stringify({ book: current().book, fields: fieldsOf(form()) }));

function emptyForm() {
  form().reset();
  sessionStorage.removeItem(TYPED);
}

/** Puts back what was typed before the page was loaded again. */
function fillTyped() {
  const { book, fields } = JSON.parse(sessionStorage.getItem(TYPED) ?? "{}");
  if (fields && book === current()?.book) fillAgain(form(), fields);
}

export function clearTaking() {
  lost = null;
  place().replaceChildren();
  emptyForm();
}

function readAgreed(agreed) {
  if (!agreed) return null;
  if (agreed <= today()) throw new Unreadable(
    "The agreed end is not after today, so it would count for nothing. Choose a later day, or leave it empty.",
    "agreed",
  );
  return agreed;
}

function openingOf({ article, ref, kind, amount, agreed, five }) {
  return {
    article: readText(article, { field: "article", name: "The article", most: 80 }),
    ref: readText(ref, { field: "ref", name: "The reference", most: 40 }),
    kind, pence: readPounds(amount), agreed: readAgreed(agreed), five_days: five === "yes",
  };
}

/** Throws where the service takes no such amount, before it is asked about. */
function refuseAmount({ pence }) {
  if (pence === 0 || pence > MOST_PENCE) throw refusalOf("BadAmount");
}

/** Asks, and shows all that will be entered, since nothing of it can be changed; `isNewDay` if it was asked before. */
function askOf({ article, ref, kind, pence, agreed, five_days: fiveDays }, terms, isNewDay) {
  const six = sixMonthsAfter(today());
  const end = agreed && agreed > six ? agreed : six;
  const isFixed = kind === "fixed";
  const amount = isFixed ? ` for ${inPounds(pence)}` : `, up to ${inPounds(pence)}`;
  return confirmed({
    title: `Take this pledge${amount}?`,
    lines: [
      isNewDay ? NEW_DAY : null,
      [foreign(article), ", reference ", foreign(ref), "."],
      `The period ends on ${inWords(end)}, with ${fiveDays ? "five" : "no"} days of grace.`,
      isLong(six, end) ? loudLine("That is more than a year after the six months: look at the year again.") : null,
      `After that the article ${becomesInWords({ taken: today(), ends: end, credit: pence }, "broker")}.`,
      isFixed ? `${inPounds(pence)} is lent.` : `A running account up to ${inPounds(pence)}. ${PAID_OUT}`,
      pence >= VERY_LARGE_PENCE ? "That is a large sum: look at it again." : null,
      terms ? `Interest by version ${terms.version} of the terms: ${termsInWords(terms)}.` : null,
      agreed && agreed <= six
        ? `The agreed end, ${inShort(agreed)}, counts for nothing: six months run to ${inShort(six)}.`
        : null,
      "It can’t be changed or taken back. If it is a mistake, redeem it the same day by its receipt.",
    ],
    yes: `Take it${amount}`, no: "Not now",
  });
}

/**
 * Asks until the answer is of the day on which the pledge is taken. Returns that day, and the version of the terms that
 * were shown, or null if none were; or null if the answer was no.
 */
async function agreedTo(opening) {
  for (let day = null; ;) {
    const isNewDay = day !== null;
    day = today();
    const terms = ledger.head?.terms.at(-1);
    if (!await askOf(opening, terms, isNewDay)) return null;
    if (day === today()) return { day, version: terms?.version ?? null };
  }
}

/** The number of the book's last pledge just now: what is known of it, and what others took since. */
async function lastNumber() {
  const { count } = ledger.head ?? await ledger.readHead();
  return await statementOf(count + 1) ? (await ledger.readHead()).count : count;
}

/** The pledge was taken now or before: it is not to be taken again. */
const UNSEEN = "It could not be looked at just now, so no receipt is shown. Open it in a minute: "
  + "its receipt can be printed there.";

/** Shows the receipt of what was taken, and empties the form for the next pledge. */
async function show(sent) {
  const said = await settle({ ...sent, notice });
  lost = null;
  emptyForm();
  showTaking();
  place().scrollIntoView();
  return said;
}

/** The result of an act, with a sentence before it. */
const after = (front, said) =>
  (said.sentence ? { ...said, sentence: `${front} ${said.sentence}` } : `${front} ${said}`);

const isEqual = (one, other) => JSON.stringify(one) === JSON.stringify(other);

const AGAIN = "Don’t choose another reference: press the button again. The same is not taken twice, and the receipt is "
  + "shown then.";

/** After a lost reply: the pledge is looked for by its reference in the book, which is read anew. */
async function findLost({ opening, known, before, asked }, begun) {
  try {
    await ledger.awaitReading();
    if (ledger.withReference(opening.ref).length === 0) await ledger.awaitReading();
    refuseOther(begun);
  } catch {
    if (begun !== current()) throw new Lost("no reply");
    return { sentence: `The reply was lost, so the pledge may have been taken. ${AGAIN}`, tone: "bad" };
  }
  const found = ledger.withReference(opening.ref).find(({ number }) => number > known);
  if (!found) return { sentence: `The reply was lost, and the book has no such pledge so far. ${AGAIN}`, tone: "bad" };
  const receipt = `${found.number}-${found.secrets[0].secret}`;
  const said = await show({ opening, said: { number: found.number, receipt }, known, before, asked, begun });
  return after("The reply was lost, but the pledge was taken.", said);
}

async function send(opening, { again, asked, begun }) {
  const known = again?.known ?? await lookFirst(lastNumber());
  refuseOther(begun);
  const before = again?.before ?? ledger.head;
  try {
    const { said } = await askBook("POST", "/pledges", { body: opening, harmless: true, begun });
    lost = null;
    return { opening, said, known, before, asked, begun };
  } catch (fault) {
    if (fault instanceof Lost && begun === current()) lost = { opening, known, before, asked };
    if (isRefusal(fault, CODES.RefTaken)) ledger.anotherChanged({ isMissing: true });
    throw fault;
  }
}

/** Throws where the book has no terms, also when its beginning is read anew: another till may have put some. */
async function refuseWithoutTerms() {
  if (hasNoTerms()) await lookFirst(ledger.readHead());
  warnOfTerms();
  wantsTerms = hasNoTerms();
  if (wantsTerms) throw refusalOf("NoTerms");
}

async function take(fields) {
  const begun = current();
  place().replaceChildren();
  wantsTerms = false;
  for (const typed of [fields.ref, fields.article]) if (isReceiptLike(typed)) return openReceipt(typed);
  const opening = openingOf(fields);
  refuseAmount(opening);
  const again = lost && isEqual(lost.opening, opening) ? lost : null;
  await refuseWithoutTerms();
  refuseOther(begun);
  await refuseInUse(opening.ref, again?.known);
  const asked = again ? again.asked : await agreedTo(opening);
  if (asked === null) return NOTHING_DONE;
  let sent;
  try {
    sent = await send(opening, { again, asked, begun });
  } catch (fault) {
    wantsTerms = isRefusal(fault, CODES.NoTerms);
    if (!(fault instanceof Lost) || begun !== current()) throw fault;
    return findLost(lost, begun);
  }
  if (begun !== current()) return {
    sentence: `Taken as pledge ${sent.said.number}, but the book was closed meanwhile. Open it again to print the `
      + "receipt.",
    tone: "bad",
  };
  try {
    return await show(sent);
  } catch (fault) {
    if (fault instanceof Unreadable) throw fault;
    return { sentence: `Pledge ${sent.said.number} has this reference. ${UNSEEN}`, tone: "bad" };
  }
}

/** Offers the next reference where the last ones are a series. */
function offerReference() {
  const next = ledger.book && nextReference(ledger.book.pledges);
  byId("next-reference").hidden = !next;
  if (next) byId("next-reference").replaceChildren("Use ", foreign(next));
  byId("next-reference").value = next ?? "";
}

/** Says before the form is filled that the book has no terms. */
function warnOfTerms() {
  const line = byId("terms-first");
  if (line.textContent === "" && hasNoTerms()) {
    tell(line, TERMS_FIRST, "bad");
    line.append(make("a", { href: "#terms" }, "Add terms first"));
  } else if (!hasNoTerms()) tell(line, "");
}

/** Says, while a reference is typed, that a pledge has it already. */
function warnInUse() {
  const { value } = form().elements.ref;
  const [found] = lost && folded(lost.opening.ref) === folded(value) ? [] : ledger.withReference(value);
  byId("reference-in-use").replaceChildren(
    ...(found ? [`Pledge ${found.number} has this reference: `, foreign(found.article), "."] : [])
  );
}

export function setUpTaking() {
  notice = onSend(form(), "broker", take);
  form().elements.ref.addEventListener("input", warnInUse);
  form().addEventListener("input", keepTyped);
  fillTyped();
  byId("next-reference").addEventListener("click", ({ currentTarget }) => {
    form().elements.ref.value = currentTarget.value;
    keepTyped();
    form().elements.ref.focus();
  });
}

/**
 * Shows the form. Terms that are old are read anew, as another till may have added some; and so is the pledge of the
 * paper that is shown. Nothing waits for that.
 */
export function openTaking() {
  showTaking();
  recheckPaper(place());
  if (ledger.head && performance.now() - ledger.head.began > OLD_TERMS) ledger.readHead().then(showTaking, () => {});
}

/** Takes away a paper that would be wrong if it were printed now, by the book in the page, and says why. */
function dropOldPaper() {
  let why = dropDeadPaper(place());
  const number = numberOf(place().querySelector(".secret")?.textContent ?? "");
  if (ledger.pledge(number)?.extensions.length > 0) {
    place().replaceChildren();
    why = `The period’s end was moved since pledge ${number} was taken: “Print the receipt again”, on its page, shows `
      + "the new end.";
  }
  if (why !== null) tell(notice, why);
}

export function showTaking() {
  form().elements.agreed.min = today();
  if (wantsTerms && ledger.head?.terms.length > 0) {
    wantsTerms = false;
    tell(notice, "");
  }
  dropOldPaper();
  warnOfTerms();
  offerReference();
  warnInUse();
}
