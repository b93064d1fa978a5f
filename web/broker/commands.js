/**
 * The commands on a pledge, each with its form. A command that would be refused now is shown apart, with the reason in
 * place of its form.
 */
import { inWords } from "../shared/days.js";
import { make } from "../shared/dom.js";
import { lookFirst, orSeen, Outdated } from "../shared/faults.js";
import { buttons, field, fold } from "../shared/forms.js";
import { inPounds, readPounds } from "../shared/money.js";
import { recordEntry } from "../shared/payments.js";
import { confirmed, NOTHING_DONE } from "../shared/questions.js";
import { isOpen } from "../shared/statuses.js";
import { bookingInWords, isLateVisit, isPast, isPending, isToCome } from "../shared/visits.js";
import { clock, isOverToday, minuteNow, windowInWords } from "../shared/windows.js";
import { extension } from "./extending.js";
import { redemption } from "./redeem.js";
import { renewal } from "./renewing.js";
import { printing, replacement } from "./replacing.js";
import { sale } from "./sale.js";
import { askFrom } from "./shop.js";
import { slipsFold } from "./slips.js";
import { tagging } from "./tag.js";

/**
 * One command: its name, why not now or null, the parts of its form, what it does with the form's fields, and whether
 * it records an entry.
 */
function commandFold({ title, barred, parts, act, isEntry = false }, desk) {
  const content = barred ? [make("p", { className: "barred" }, barred)] : parts;
  const form = make("form", { autocomplete: "off" }, ...content);
  return fold(title, form, (fields, place) => desk.perform((noteAsked) => act(fields, noteAsked), place, isEntry));
}

const lead = (text) => make("p", { className: "lead" }, text);
const button = (text, value = "", className = "") => make("button", { value, className }, text);
const amountField = (label) => field(label, make("input", { name: "amount", inputMode: "decimal", required: true }));

const entry = (shown, desk, sort, amount) => recordEntry({
  shown, sort, pence: readPounds(amount), askFrom: askFrom(), read: () => desk.read(),
  send: (body) => desk.command(sort, body, true),
});

const repayment = (statement, desk) => ({
  title: "Repayment",
  barred: statement.owed.owing === 0 ? "Nothing is owed today." : null,
  parts: [
    lead("Money that you have received. It goes to charges first, then to what was lent."),
    amountField("Received, in pounds"), buttons(button("Record the repayment")),
  ],
  act: ({ amount }) => entry(statement, desk, "repay", amount),
  isEntry: true,
});

function drawing(statement, desk) {
  const { kind, owed, credit } = statement;
  const fixed = kind === "fixed" ? "This pledge is for a fixed sum, so nothing more can be drawn." : null;
  const left = `${inPounds(credit - owed.principal)} can still be drawn, up to the limit of ${inPounds(credit)}.`;
  return {
    title: "Drawing",
    barred: fixed ?? (statement.status === "inside" ? null : "The period is over, so nothing more is drawn."),
    parts: [
      lead(`Money that you pay out on a running account. ${left}`), amountField("Paid out, in pounds"),
      buttons(button("Record the drawing")),
    ],
    act: ({ amount }) => entry(statement, desk, "draw", amount),
    isEntry: true,
  };
}

const visitOn = ({ day, window }) => `${inWords(day)}, ${windowInWords(window)}`;
const isSameVisit = (one, other) =>
  one?.day === other?.day && one?.window === other?.window && one?.state === other?.state;

const decidedInWords = (visit) => `The visit on ${visitOn(visit)} is ${visit.state}.`;

/** What is said where the visit, read again after a decision, is not as it was decided. */
function overtaken(decided, now) {
  const isDecision = now && isSameVisit({ ...decided, state: now.state }, now) && now.state !== "cancelled";
  const what = isDecision ? "Another decision was made at the same time." : "The pawnor changed the visit meanwhile.";
  return { sentence: now ? `${what} Now it is: ${bookingInWords(now)}.` : what, tone: "bad" };
}

/** A refused visit can't be confirmed after that, so it is asked about. */
const agreedToRefuse = (now) => confirmed({
  title: "Refuse this visit?", about: now,
  lines: [
    `${bookingInWords(now.booking)}.`,
    "A visit that was refused can’t be confirmed after that: the pawnor has to ask for it again.",
  ],
  yes: "Refuse the visit", no: "Not now",
});

/** A visit at a time that is over is asked about: nobody may come to it any more. */
const agreedToOver = (now) => confirmed({
  title: "Confirm a visit whose time is over?", about: now,
  lines: [`${bookingInWords(now.booking)}.`, `It is ${clock(minuteNow())} by the clock of this device.`],
  yes: "Confirm it all the same", no: "Not now",
});

/** The question about a decision, or null if it needs none. */
function questionOf(yes, { booking }) {
  if (!yes) return agreedToRefuse;
  return isOverToday(booking) ? agreedToOver : null;
}

/** Reads the pledge. Throws if its visit is not the one that is shown. */
async function readVisit(shown, desk) {
  const now = await lookFirst(desk.read());
  const { booking } = now;
  if (isSameVisit(shown, booking)) return now;
  const present = booking ? ` Now it is: ${bookingInWords(booking)}.` : "";
  throw new Outdated(`The visit was changed since it was shown, so nothing was decided.${present}`
    + (isPending(booking) ? " Decide on this one." : ""));
}

/** Decides on the visit that is shown, if it is still the pledge's visit; and reports the one that was decided on. */
async function decide(shown, yes, desk) {
  const now = await readVisit(shown, desk);
  const question = questionOf(yes, now);
  if (question) {
    if (!await question(now)) return NOTHING_DONE;
    await readVisit(shown, desk);
  }
  const { booking } = now;
  const wanted = { ...booking, state: yes ? "confirmed" : "refused" };
  return orSeen(
    sendDecision(booking, yes, desk), () => desk.read(),
    (after) => (isSameVisit(wanted, after.booking) ? decidedInWords(wanted) : null),
  );
}

async function sendDecision(booking, yes, desk) {
  const { said } = await desk.command("decide", { yes }, true);
  const after = await desk.read().catch(() => null);
  const decided = { day: said.day, window: said.window, state: said.booking };
  if (after && !isSameVisit(decided, after.booking)) return overtaken(decided, after.booking);
  const done = decidedInWords(decided);
  if (said.day === booking.day && said.window === booking.window) return done;
  return {
    sentence: `${done} It is another one than was shown: the pawnor changed it at the same time. `
      + `Decide again if it does not suit.`,
    tone: "bad",
  };
}

/** Why the article may not be fetched on a visit that is to come. */
function doubtsAbout(statement, known) {
  const { booking, ends, held } = statement;
  if (!isToCome(booking)) return [];
  return [
    isLateVisit(statement, known)
      ? `That is after the period’s end, ${inWords(ends)}: the article may have been sold by then.` : null,
    held ? "The pledge is on hold: nothing can be fetched until you release it." : null,
  ].filter(Boolean);
}

function visit(statement, desk) {
  const { booking } = statement;
  const title = "Visit";
  if (!isPending(booking)) return { title, barred: "No visit of this pledge waits for an answer." };
  return {
    title, barred: null,
    parts: [
      lead(`${bookingInWords(booking)}.`),
      ...doubtsAbout(statement, desk.known).map(lead),
      // What is confirmed already, or was asked for a day that is over, can only be refused.
      buttons(
        isPast(booking) || booking.state === "confirmed" ? null : button("Confirm", "yes"),
        button("Refuse", "no", "plain"),
      ),
    ],
    act: ({ button: value }) => decide(booking, value === "yes", desk),
  };
}

const holdInWords = (held) => (held ? "The pledge is on hold: it can’t be redeemed." : "The hold is released.");

const hold = ({ held }, desk) => ({
  title: held ? "Release the hold" : "Put on hold",
  barred: null,
  parts: [
    lead(held
      ? "Once the hold is released, the pledge can be redeemed again."
      : "While the pledge is on hold, it can’t be redeemed, and its time runs on."),
    buttons(button(held ? "Release" : "Hold"))],
  act: () => orSeen(
    desk.command(held ? "release" : "hold", undefined, true).then(({ said }) => holdInWords(said.held)),
    () => desk.read(), (after) => (after.held === held ? null : holdInWords(after.held)),
  ),
});

const ALL = [
  visit, repayment, drawing, redemption, renewal, extension, hold, printing, tagging, replacement, sale,
];

/**
 * The folds of all commands: those for now first. Of a pledge that is over only the receipt can be printed, if it has
 * one.
 */
export function commandsOf(statement, desk) {
  const over = make("p", { className: "empty" }, "This pledge is over: nothing more is done on it.");
  if (!isOpen(statement.status)) {
    return statement.status === "redeemed" ? [over] : [over, commandFold(printing(statement, desk), desk)];
  }
  const all = ALL.map((of) => of(statement, desk));
  const now = all.filter(({ barred }) => !barred).map((one) => commandFold(one, desk));
  const later = all.filter(({ barred }) => barred).map((one) => commandFold(one, desk));
  return [
    make("h2", {}, "What you can do now"), ...now, slipsFold(statement),
    ...(later.length > 0 ? [make("h3", {}, "Not now"), ...later] : [])
  ];
}
