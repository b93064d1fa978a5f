/** The sale of an article whose period is over. */
import { CODES, isRefusal, refusalOf } from "../shared/codes.js";
import { inWords } from "../shared/days.js";
import { make } from "../shared/dom.js";
import { CHANGED, lookFirst, orSeen, Outdated } from "../shared/faults.js";
import { buttons, field } from "../shared/forms.js";
import { inPounds, MOST_PENCE, readPounds } from "../shared/money.js";
import { betweenLines } from "../shared/payments.js";
import { firstDayAfter, willPass } from "../shared/period.js";
import { confirmed, NOTHING_DONE } from "../shared/questions.js";
import { saleInWords } from "../shared/states.js";
import { bookingInWords, isToCome } from "../shared/visits.js";

/** Why the article can't be sold now: the first day on which it can, or that it never will be. */
function barredOf(statement, { fiveDays }) {
  const { status, ends } = statement;
  if (status === "realisable") return null;
  if (fiveDays === null && status === "inside") {
    return `The period ends on ${inWords(ends)}. The first day of a sale is shown once the book is read.`;
  }
  const first = inWords(firstDayAfter({ ends, fiveDays: fiveDays ?? status === "grace" }));
  // In the days of grace the end can't be moved any more.
  const unless = `if it is not redeemed${status === "inside" ? " or extended" : ""} before`;
  return willPass(statement)
    ? `It is not sold: ${unless}, the article passes to the shop on ${first}.`
    : `It can be sold from ${first} on, ${unless}.`;
}

/** What the proceeds leave, and whose that is. */
function outcome(net, owing) {
  if (net > owing) return `The surplus is ${inPounds(net - owing)}: it is the pawnor’s.`;
  if (net < owing) {
    return `That is ${inPounds(owing - net)} less than is owed. The book notes the shortfall, and keeps no debt of it.`;
  }
  return "That is exactly what is owed.";
}

const done = (closing) => `Sold for ${inPounds(closing.net)}: ${saleInWords(closing, "broker")}.`;

const isSale = ({ status, closing }, net) => status === "sold" && closing.net === net;

/**
 * The pledge could be sold just before, and is closed now: by another till, or by this press, which a browser sends twice
 * by itself if it uses a connection again and no byte of the reply comes.
 */
async function settleClosed(desk, fault, net) {
  if (!isRefusal(fault, CODES.Closed)) throw fault;
  const after = await desk.read().catch(() => { throw fault; });
  if (!isSale(after, net)) throw fault;
  return `${done(after.closing)} Most likely the browser sent this press twice; the sale is recorded once.`;
}

/** What the service answers to a sale where the pledge was closed, or has passed. */
const REFUSED = { passed: "Passed", redeemed: "Closed", sold: "Closed" };

/** The present pledge. Throws where its article can't be sold. */
async function look(desk) {
  const now = await lookFirst(desk.read());
  if (now.status !== "realisable") throw refusalOf(REFUSED[now.status] ?? "NotRealisable");
  return now;
}

/** What the question says of the pledge and a day does not change by itself. */
const askedOf = ({ entries, held, booking }) => JSON.stringify([entries, held, isToCome(booking) ? booking : null]);

/**
 * Throws where the pledge is not as it was asked about: the service would take the sale, at other figures than the
 * question named, and it can't be taken back.
 */
function refuseChanged(asked, now) {
  if (askedOf(asked) === askedOf(now)) return;
  throw new Outdated([
    `${CHANGED} The sale was not recorded. ${inPounds(now.owed.owing)} is owed now.`, now.held ? "It is on hold." : "",
    isToCome(now.booking) ? `The pawnor is to come for it: ${bookingInWords(now.booking)}.` : "",
    "Look at the pledge before you record the sale.",
  ].filter(Boolean).join(" "));
}

/** Asks first, in a question that names what came in since the pledge was shown with the form. */
async function sell({ amount }, { shown, desk, noteAsked }) {
  const net = readPounds(amount);
  if (net > MOST_PENCE) throw refusalOf("BadAmount");
  const now = await look(desk);
  const { owed, held, booking } = now;
  noteAsked(now);
  const yes = await confirmed({
    title: "Record the sale?", about: now,
    lines: [
      ...betweenLines(shown, now),
      `The article was sold, and ${inPounds(net)} is left after the costs of the sale.`,
      `${inPounds(owed.owing)} is owed today. ${outcome(net, owed.owing)}`,
      held ? "Find out why it is on hold before the article is sold." : null,
      isToCome(booking) ? `The pawnor is to come for it: ${bookingInWords(booking)}.` : null,
      "The pledge is closed by it. It can’t be taken back.",
    ],
    yes: `Sold for ${inPounds(net)}`, no: "Not now",
  });
  if (!yes) return NOTHING_DONE;
  refuseChanged(now, await look(desk));
  return orSeen(
    desk.command("sell", { net }, false).then(({ said }) => done(said), (fault) => settleClosed(desk, fault, net)),
    () => desk.read(), (after) => (isSale(after, net) ? done(after.closing) : null),
  );
}

export const sale = (statement, desk) => ({
  title: "Sale",
  barred: barredOf(statement, desk.known),
  parts: [make("p", { className: "lead" }, "What the article brought, less the costs of its sale. It may be nothing."),
    field("Net proceeds, in pounds", make("input", { name: "amount", inputMode: "decimal", required: true })),
    buttons(make("button", { className: "grave" }, "Record the sale"))],
  act: (fields, noteAsked) => sell(fields, { shown: statement, desk, noteAsked }),
});
