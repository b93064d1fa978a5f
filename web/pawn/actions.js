/** What a pawnor may do with a pledge: ask for a time to come, take that back, pay a part, redeem. */
import { refusalOf } from "../shared/codes.js";
import { inWords, plusDays, seenFrom, today } from "../shared/days.js";
import { make } from "../shared/dom.js";
import { CHANGED, Lost, lookFirst, orSeen, Outdated } from "../shared/faults.js";
import { buttons, field, fold } from "../shared/forms.js";
import { inPounds, readPounds } from "../shared/money.js";
import { betweenLines, readUnrefused, recordEntry } from "../shared/payments.js";
import { graceEnd, lastSafeDay, willPass } from "../shared/period.js";
import { confirmed, NOTHING_DONE } from "../shared/questions.js";
import { reckoningForm } from "../shared/reckoning.js";
import { isBarred, isOpen } from "../shared/statuses.js";
import { Unreadable } from "../shared/unreadable.js";
import { isToCome } from "../shared/visits.js";
import { clock, isOverToday, minuteNow, WINDOWS, windowInWords } from "../shared/windows.js";

export const REDEEM = "Redeem";

/** A form in a fold, which acts on the card when it is sent. */
const foldOf = (card, title, parts, act) =>
  fold(
    title, make("form", { autocomplete: "off" }, ...parts), (fields, place) => card.perform(() => act(fields), place),
  );

/**
 * A visit after the period's end and its days of grace may come too late: it is asked about. Throws where the article
 * is the pawnbroker's by then.
 */
function agreedToLate(statement, { fiveDays }, day) {
  const { ends, status } = statement;
  const last = lastSafeDay({ ends, fiveDays: fiveDays ?? status === "grace" });
  if (day <= last) return true;
  const isGraceKnown = fiveDays !== null || status !== "inside";
  const passes = willPass(statement);
  const safe = isGraceKnown ? last : graceEnd(ends);
  if (passes && day > safe) throw new Unreadable(
    `From ${inWords(plusDays(safe, 1))} on the article belongs to the pawnbroker. `
      + `Choose a day up to ${inWords(last)}.`,
    "day",
  );
  const becomes = passes ? "belong to the shop" : "have been sold";
  return confirmed({
    title: "Come after the time is over?", about: statement,
    lines: status === "realisable"
      ? ["The article may be sold before you come: the time of this pledge is over."]
      : [
        `The time of this pledge is over after ${inWords(last)}. On ${inWords(day)} the article may ${becomes}.`,
        isGraceKnown ? null : "If your paper says that it has days of grace, they last five days more.",
      ],
    yes: "Ask for this day all the same", no: "Choose another day",
  });
}

/** A time of today that is over by the clock of this device is asked about: the shop's clock may be another. */
function agreedToOver(statement, day, window) {
  if (!isOverToday({ day, window })) return true;
  return confirmed({
    title: "That time is over", about: statement,
    lines: [
      `It is ${clock(minuteNow())} by the clock of this device, and you ask for today, ${windowInWords(window)}.`,
    ],
    yes: "Ask for this time all the same", no: "Choose another time",
  });
}

/** A visit that the shop has confirmed, perhaps since the pledge was shown, is given up only after a question. */
async function agreedToGiveUp(now, { title, line, yes }) {
  const { booking } = now;
  if (!isToCome(now.booking) || booking.state !== "confirmed") return true;
  return confirmed({
    title, about: now, yes, no: "Keep the visit",
    lines: [`The shop has confirmed your visit on ${inWords(booking.day)}, ${windowInWords(booking.window)}.`, line],
  });
}

/** Reads the pledge. Throws where it is over, so that nothing is asked about it any more. */
async function readOpen(card) {
  const now = await lookFirst(card.read());
  if (!isOpen(now.status)) throw refusalOf(now.status === "passed" ? "Passed" : "Closed");
  return now;
}

async function askForVisit(card, { day, window }) {
  if (!day) throw new Unreadable("Choose a day.", "day");
  if (day < today()) throw new Unreadable("That day is over. Choose a later one.", "day");
  if (!await agreedToOver(card.statement, day, Number(window))) return NOTHING_DONE;
  if (!await agreedToLate(await readOpen(card), card.known, day)) return NOTHING_DONE;
  const now = await readOpen(card);
  const isSame = now.booking?.day === day && now.booking.window === Number(window);
  if (!isSame && !await agreedToGiveUp(now, {
    title: "Give up the confirmed visit?", yes: "Ask for the new time",
    line: "It is given up as soon as you ask for another time, and the shop may refuse the new one.",
  })) return NOTHING_DONE;
  const wanted = { day, window: Number(window) };
  return orSeen(
    card.ask("/ask", wanted, true).then(({ said }) => askedInWords({ ...said, state: said.booking })),
    () => card.read(),
    ({ booking }) => (isToCome(booking) && booking.day === day && booking.window === wanted.window
      ? askedInWords(booking) : null),
  );
}

const visitInWords = ({ day, window }) => `${inWords(day)}, ${windowInWords(window)}`;

const askedInWords = (visit) => (visit.state === "confirmed"
  ? `The shop has confirmed this time already: ${visitInWords(visit)}.`
  : `Asked for ${visitInWords(visit)}. The shop says yes or no; look here again.`);

const ON_HOLD = "The pledge is on hold: nothing can be fetched until the pawnbroker releases it. Ask the shop first. ";

function timeInWords(statement) {
  if (!isToCome(statement.booking)) return "Say when you would like to fetch it. The shop confirms it or not.";
  return statement.booking.state === "confirmed"
    ? "A new time replaces your confirmed visit at once. The shop confirms the new time or not."
    : "A new time replaces the one that you asked for.";
}

const leadOf = (statement) => (isBarred(statement) ? ON_HOLD : "") + timeInWords(statement);

function visitFold(card) {
  const day = make("input", { type: "date", name: "day", min: today(), required: true });
  const times = make(
    "select", { name: "window" }, ...WINDOWS.map((window) => make("option", { value: window }, windowInWords(window)))
  );
  const title = isToCome(card.statement.booking) ? "Ask for another time" : "Ask for a time to come";
  const parts = [
    make("p", { className: "lead" }, leadOf(card.statement)), field("Day", day), field("Time", times),
    buttons(make("button", {}, "Ask for this time")),
  ];
  return foldOf(card, title, parts, (fields) => askForVisit(card, fields));
}

function cancelFold(card) {
  const { booking } = card.statement;
  if (!isToCome(booking)) return null;
  const when = `Your visit is ${seenFrom(today(), booking.day)}, on ${inWords(booking.day)}. `
    + "If you cancel it, you can ask for another.";
  const parts = [make("p", { className: "lead" }, when), buttons(make("button", {}, "Cancel the visit"))];
  return foldOf(card, "Cancel the visit", parts, async () => {
    if (!await agreedToGiveUp(await lookFirst(card.read()), {
      title: "Cancel the confirmed visit?", yes: "Cancel the visit",
      line: "Once it is cancelled, the shop may give its time to another.",
    })) return NOTHING_DONE;
    const told = (visit) => `The visit is cancelled: ${visitInWords(visit)}.`;
    return orSeen(
      card.ask("/cancel", undefined, true).then(({ said }) => told(said)), () => card.read(),
      ({ booking: after }) => (after?.state === "cancelled" ? told(after) : null),
    );
  });
}

const ALL_PAID = "That is all that is owed, but the pledge stays open after it. To have the article, choose “Redeem” "
  + "at the shop in place of this.";

async function repay(card, { amount }) {
  const pence = readPounds(amount);
  const now = await readUnrefused(() => card.read(), "repay", pence);
  const yes = await confirmed({
    title: `Record ${inPounds(pence)} as paid?`, about: card.statement,
    lines: [
      ...betweenLines(card.statement, now),
      "This page moves no money. Say yes only where the pawnbroker has received the amount.",
      "If the shop has recorded it already, say no: it would count twice.",
      pence === now.owed.owing ? ALL_PAID : null,
    ],
    yes: `Yes, ${inPounds(pence)} was received`, no: "Not yet",
  });
  if (!yes) return { sentence: "Nothing was recorded.", tone: "quiet" };
  return recordEntry({
    shown: card.statement, sort: "repay", pence, askFrom: Infinity, read: () => card.read(),
    send: (body) => card.ask("/repay", body, true),
  });
}

function repayFold(card) {
  if (card.statement.owed.owing === 0) return null;
  const amount = make("input", { name: "amount", inputMode: "decimal", required: true });
  const lead = "A part that the pawnbroker has received already. It goes to interest and safe keeping first, "
    + "then to what was lent.";
  const parts = [
    make("p", { className: "lead" }, lead), field("Amount in pounds", amount),
    buttons(make("button", {}, "Record the payment")),
  ];
  return foldOf(card, "Record a part payment", parts, (fields) => repay(card, fields));
}

/** Reads the pledge. Throws if it can't be redeemed, or if another sum is owed than is shown. */
async function readRedeemable(card) {
  const now = await readOpen(card);
  if (now.held) throw refusalOf("Held");
  const { owing } = now.owed;
  if (owing !== card.statement.owed.owing) throw new Outdated(`${CHANGED} ${inPounds(owing)} is owed now.`);
  return owing;
}

/** The receipt is worth nothing after a redemption, so at home it would be given away for nothing. */
const AT_THE_SHOP = "Do it only at the shop, when you are given the article: without this receipt you can’t show that "
  + "it is yours.";
const NOTHING_OWED = "Nothing is owed today.";

async function redeem(card) {
  const owing = await readRedeemable(card);
  const yes = await confirmed({
    title: "Redeem this pledge?", about: card.statement,
    lines: [
      ...(owing === 0 ? [NOTHING_OWED] : [
        `You say that ${inPounds(owing)} has been paid and that the pawnbroker has received it.`,
        "This page moves no money.",
      ]),
      AT_THE_SHOP,
      "The pledge is over then, and this receipt is worth nothing any more. It can’t be taken back.",
    ],
    yes: owing === 0 ? "Yes, I am given the article" : `Yes, ${inPounds(owing)} was received`, no: "Not yet",
  });
  if (!yes) return NOTHING_DONE;
  try {
    const { said } = await card.ask("/redeem", { paid: owing }, false);
    card.showRedeemed(`Redeemed on ${inWords(said.redeemed)}. ${inPounds(said.paid)} was paid.`);
  } catch (fault) {
    card.one.lostRedemption ||= fault instanceof Lost;
    throw fault;
  }
  return { sentence: "", look: false };
}

function redeemFold(card) {
  const { owed, held } = card.statement;
  const amount = owed.owing === 0
    ? NOTHING_OWED
    : `Redeeming requires all that is owed today, ${inPounds(owed.owing)}, received by the pawnbroker.`;
  const lead = held ? "The pledge is on hold, so it can’t be redeemed just now. Ask at the shop why."
    : `${amount} ${AT_THE_SHOP} You are asked once more before it is done.`;
  const button = make("button", { className: "grave", disabled: held }, `Redeem for ${inPounds(owed.owing)}`);
  return foldOf(card, REDEEM, [make("p", { className: "lead" }, lead), buttons(button)], () => redeem(card));
}

/** What will be owed on another day, if the receipt's link contains the terms. */
function reckoningFold({ statement, known }) {
  const form = reckoningForm({ statement, known, reader: "pawnor" });
  return form && make(
    "details", { className: "action" }, make("summary", {}, "See what will be owed on another day"), form,
  );
}

/** The folds for what may be done now; none where the pledge is over. */
export function actionsOf(card) {
  if (!isOpen(card.statement.status)) return [];
  const title = make("h3", {}, "What you can do now");
  return [
    title, visitFold(card), cancelFold(card), reckoningFold(card), repayFold(card), redeemFold(card),
  ].filter((part) => part !== null);
}
