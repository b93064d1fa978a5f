/** The pawnor's page: the cards of the receipts that this tab holds, and the form that shows another. */
import { onClock } from "../shared/clock.js";
import { today } from "../shared/days.js";
import { byId, foreign } from "../shared/dom.js";
import { onSend, tell } from "../shared/forms.js";
import { inPounds } from "../shared/money.js";
import { startPage } from "../shared/start.js";
import { isBarred } from "../shared/statuses.js";
import { Card } from "./card.js";
import { cutInWords, keep, kept, ofTyped, takeFragment } from "./receipts.js";
import { inTurn } from "./turns.js";

const TICK = 20_000;
/** A tab to which one comes back after so many milliseconds is read again: a telephone keeps tabs for days. */
const LEFT = 60_000;

const cards = [];
let day = today();
let lookedAt = Date.now();

/** The tab keeps the receipts, with what this page did with them. */
const keepCards = () => keep(cards.map(({ one }) => one));

function noteChange() {
  keepCards();
  showSum();
}

function store() {
  keepCards();
  for (const button of ["look-again", "print-page"]) byId(button).hidden = cards.length === 0;
  byId("finder").open = cards.length === 0;
  byId("finder-title").textContent = cards.length === 0 ? "Show a pledge" : "Show another pledge";
  showSum();
}

const totalOf = (shown) => shown.reduce((total, { owing }) => total + owing, 0);

/** A shop as its pledges name it. */
function shopOf(those) {
  const [{ book }] = those;
  const shop = those.map((card) => card.shop).find(Boolean);
  return shop ? [" at ", foreign(shop), ` (book ${book})`] : [` in book ${book}`];
}

/** What is owed to each shop, if the pledges are of several, as texts and nodes. */
function sharesOf(shown) {
  const books = [...new Set(shown.map(({ book }) => book))];
  if (books.length < 2) return [];
  return books.flatMap((book, place) => {
    const those = shown.filter((card) => card.book === book);
    const front = place === 0 ? ": " : place === books.length - 1 ? " and " : ", ";
    return [front, inPounds(totalOf(those)), ...shopOf(those)];
  });
}

/** How many of the pledges can't be redeemed just now, although the page shows what is owed on them. */
function holdsOf(shown) {
  const count = shown.filter(({ statement }) => isBarred(statement)).length;
  if (count === 0) return "";
  return ` ${count} of them ${count === 1 ? "is" : "are"} on hold, and can’t be redeemed just now.`;
}

/**
 * What is said if a receipt is shown in two books: one was filled from the other's file, and both answer. The page
 * can't know which of them the shop goes on with.
 */
function twiceOf(shown) {
  const receipts = shown.map(({ receipt }) => receipt);
  if (new Set(receipts).size === receipts.length) return "";
  return " One of these receipts opens a pledge in two books: that is one article, and is owed once. "
    + "Ask the shop which book it goes on with.";
}

/** What is owed on several pledges together. */
function showSum() {
  const shown = cards.filter(({ owing }) => owing > 0);
  byId("sum-line").hidden = shown.length < 2;
  const missing = cards.some(({ isShown, isRedeemed }) => !isShown && !isRedeemed) ? " What can’t be shown is not in it." : "";
  byId("sum-line").replaceChildren(
    `${inPounds(totalOf(shown))} is owed today on ${shown.length} pledges together`, ...sharesOf(shown),
    `.${twiceOf(shown)}${holdsOf(shown)}${missing}`,
  );
}

function drop(card) {
  cards.splice(cards.indexOf(card), 1);
  card.element.remove();
}

function forget(card) {
  drop(card);
  store();
  byId("finder").querySelector("summary").focus();
}

/** The card of a receipt: the one that is there, or a new one at the end. */
function cardOf(one) {
  const there = cards.find(({ book, receipt }) => book === one.book && receipt === one.receipt);
  if (there) {
    there.learn(one);
    return there;
  }
  const card = new Card(one, forget, noteChange);
  cards.push(card);
  byId("cards").append(card.element);
  return card;
}

/** Looks at cards, and returns whether each shows a pledge. */
function look(some) {
  lookedAt = Date.now();
  return inTurn(some.map((card) => () => card.show()));
}

async function showFragment(notice) {
  const { receipts, parts, wrong } = takeFragment();
  if (wrong) {
    const { elements } = byId("find");
    byId("finder").open = true;
    elements.book.value ||= parts.book;
    elements.receipts.value ||= parts.receipts.join("\n");
    tell(notice, cutInWords(wrong), "bad");
  }
  if (receipts.length === 0) return;
  const some = receipts.map(cardOf);
  store();
  await look(some);
  // Among others, which this tab had before, the pledge of the link is the one that is to be seen.
  if (cards.length > some.length) some[0].focus();
}

async function find(fields) {
  const receipts = ofTyped(fields);
  // A receipt that was mistyped does not stay above the pledge of the one that is typed after it.
  const mistyped = cards.filter(({ neverOpened }) => neverOpened);
  const some = receipts.map(cardOf);
  mistyped.filter((card) => !some.includes(card)).forEach(drop);
  store();
  const found = await look(some);
  if (found.includes(false)) byId("finder").open = true;
  else byId("find").reset();
  // The form was folded away, and the focus with it.
  some[Math.max(0, found.indexOf(false))].focus();
  return "";
}

/**
 * A tab that was left open notices the new day, on which more may be owed. On a line that is away the looks take long,
 * and only a few are made at once: until then no sum of the day before is shown.
 */
function tick() {
  if (document.hidden || day === today()) return;
  day = today();
  cards.forEach((card) => card.hideOld());
  look(cards);
}

function refresh(some) {
  lookedAt = Date.now();
  return inTurn(some.map((card) => () => card.refresh()));
}

/**
 * The shop may have decided on a visit, or received a payment, since the tab was left. An act that is under way reads
 * its pledge itself, and what it reports stays.
 */
function comeBack() {
  tick();
  if (!document.hidden && Date.now() - lookedAt >= LEFT) refresh(cards.filter(({ isActing }) => !isActing));
}

/** The browser has a line again. */
const comeOnline = () => inTurn(cards.map((card) => () => card.tryAgain()));

async function lookAgain() {
  byId("look-again").disabled = true;
  await refresh(cards);
  byId("look-again").disabled = false;
}

startPage(() => {
  const notice = onSend(byId("find"), "pawnor", find);
  document.addEventListener("visibilitychange", comeBack);
  addEventListener("online", comeOnline);
  onClock(tick);
  setInterval(tick, TICK);
  byId("look-again").addEventListener("click", lookAgain);
  byId("print-page").addEventListener("click", () => print());
  addEventListener("hashchange", () => showFragment(notice));
  const before = kept().map(cardOf);
  store();
  look(before);
  showFragment(notice);
});
