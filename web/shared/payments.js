/**
 * Drawings and repayments, recorded so that two clerks, or a clerk and a pawnor, don't take one for the other.
 *
 * The service can't distinguish two equal entries of one number: it answers the second as it answered the first. So
 * the pledge is read before, and what came in between is shown; and it is read after, and compared with what it must
 * have then.
 */
import { refusalOf } from "./codes.js";
import { daysBetween, inWords, today } from "./days.js";
import { entryInWords } from "./entries.js";
import { Lost, lookFirst } from "./faults.js";
import { inPounds, LARGE_PENCE, MOST_PENCE } from "./money.js";
import { confirmed } from "./questions.js";
import { isBarred, isOpen } from "./statuses.js";

const NOTHING = { sentence: "Nothing was recorded.", tone: "quiet" };
const WORDS = {
  draw: { name: "drawing", done: "Drawn", as: "paid out" },
  repay: { name: "repayment", done: "Repaid", as: "received" },
};

/** From so many days before the end of its period on, a repayment says that it does not move that end. */
const NEAR = 30;

/** How many of the entries that came in between are listed line by line. */
const TOLD = 5;

const isSame = (one, other) => one.seq === other.seq && one.sort === other.sort && one.pence === other.pence;

/** Entries as sentences: the last ones, and how many others there are. */
function listed(entries) {
  const lines = entries.slice(-TOLD).map(entryInWords);
  return entries.length > TOLD ? [`${entries.length - TOLD} other entries.`, ...lines] : lines;
}

/** What else has changed since the pledge was shown, as sentences. */
function otherChanges(shown, now) {
  const lines = [];
  if (now.ends !== shown.ends) lines.push(`The period ends on ${inWords(now.ends)} now.`);
  else if (now.status !== shown.status) {
    lines.push(shown.status === "grace" ? "The days of grace are over." : "The period is over.");
  }
  if (now.held !== shown.held) lines.push(now.held ? "The pledge was put on hold." : "The hold was released.");
  return lines;
}

/** What is owed now on an open pledge. The statement of a closed one has the sum that was owed when it was closed. */
const owedLine = ({ status, owed }) =>
  (isOpen(status) ? `${inPounds(owed.owing)} is owed now.` : "Nothing more is done on this pledge.");

const SINCE = "Since this pledge was shown here, this happened:";

/** What others recorded since the pledge was shown, and what is owed now on an open one, as a text; or an empty one. */
export function othersInWords(shown, now) {
  const entries = now.entries.slice(shown.entries.length);
  if (entries.length === 0) return "";
  return [SINCE, ...listed(entries), ...(isOpen(now.status) ? [owedLine(now)] : [])].join(" ");
}

/** What came in since the pledge was shown, as the lines of a question; or none. */
export function betweenLines(shown, now) {
  const lines = [...listed(now.entries.slice(shown.entries.length)), ...otherChanges(shown, now)];
  return lines.length > 0 ? [SINCE, ...lines] : [];
}

/** The refusal that the pledge, as it was read just now, must bring; or null. */
function refusedNow({ status, owed, kind, credit }, sort, pence) {
  if (!isOpen(status)) return refusalOf(status === "passed" ? "Passed" : "Closed");
  if (sort === "draw" && kind === "fixed") return null;
  if (pence === 0 || pence > MOST_PENCE) return refusalOf("BadAmount");
  if (sort === "repay") return pence > owed.owing ? refusalOf("OverOwing", { total: owed.owing }) : null;
  return owed.principal + pence > credit ? refusalOf("OverLimit") : null;
}

/** Reads the pledge, and throws the refusal that it must bring. */
export async function readUnrefused(read, sort, pence) {
  const now = await lookFirst(read());
  const refused = refusedNow(now, sort, pence);
  if (refused) throw refused;
  return now;
}

/**
 * Whether an entry is unlike the pledge: an amount above its charges and half of the loan, or above half of its limit;
 * or money that is paid out while the pledge is on hold.
 */
function isUnlike(now, sort, pence) {
  const { owed, credit } = now;
  if (!owed) return false;
  if (sort === "draw" && isBarred(now)) return true;
  return sort === "repay" ? pence > owed.charges + owed.principal / 2 : pence > credit / 2;
}

/** How an entry that should not have been made is set right, since none can be taken back. */
function mending({ kind, owed, status }, sort, pence) {
  if (sort === "draw") return "An entry can’t be taken back: money drawn by mistake is recorded as repaid.";
  if (pence === owed?.owing) {
    return "That is all that is owed, but the pledge stays open after it. If the article goes out today, redeem the "
      + "pledge by the paper in place of this.";
  }
  if (kind === "running" && status === "inside") {
    return "An entry can’t be taken back: what was repaid by mistake is drawn again, up to the limit of the account.";
  }
  const why = kind === "running" ? "once the period is over" : "on a fixed sum";
  return `An entry can’t be taken back, and nothing is drawn again ${why}.`;
}

/**
 * The question about an amount: where something came in between, or where the amount is large or unlike the pledge;
 * else null.
 */
function questionOf({ shown, now, sort, pence, askFrom }) {
  const [entries, between] = [now.entries.slice(shown.entries.length), betweenLines(shown, now)];
  const amount = inPounds(pence);
  const mine = `your ${WORDS[sort].name} of ${amount}`;
  const mayBeListed = entries.some((one) => one.sort === sort);
  if (between.length > 0) return {
    title: "Something came in between", about: now,
    lines: [
      ...between, owedLine(now),
      mayBeListed ? `Is ${mine} another one? If it is listed here already, record nothing.`
        : `Do you still want to record ${mine}?`,
    ],
    yes: `Yes, record ${amount}${mayBeListed ? " as well" : ""}`, no: "No, record nothing",
  };
  if (pence < askFrom && !(Number.isFinite(askFrom) && isUnlike(now, sort, pence))) return null;
  return {
    title: `Record ${amount} as ${WORDS[sort].as}?`, about: now, lines: [owedLine(now), mending(now, sort, pence)],
    yes: `Record ${amount}`, no: "Not now",
  };
}

/**
 * Reads the pledge and asks, until nothing has come in between while a question was open: an equal entry would not be
 * recorded. Returns the pledge as it is then, or null if an answer was no. If there is an `outdated`, the fault that it
 * makes of the pledge is thrown in place of a question.
 */
async function agreedTo({ shown, read, sort, pence, askFrom, outdated }) {
  let [known, from] = [shown, askFrom];
  for (;;) {
    const now = await readUnrefused(read, sort, pence);
    const question = questionOf({ shown: known, now, sort, pence, askFrom: from });
    if (question === null) return now;
    if (outdated) throw outdated(now);
    if (!await confirmed(question)) return null;
    [known, from] = [now, Infinity];
  }
}

/**
 * What is wrong where the pledge, read after the entry, is not as it must be then; or null. A new day adds charges of
 * its own.
 */
function checkEntry({ now, after, said, day }) {
  const others = after.entries.length - now.entries.length - 1;
  const mine = after.entries.find(({ seq }) => seq === said.seq);
  if (!mine || !isSame(mine, said)) return "But the pledge, read again, does not have it. Look at its entries";
  if (others > 0) {
    const what = others === 1 ? "another entry" : `${others} other entries`;
    return `But somebody else recorded ${what} at the same time. Look at the entries`;
  }
  const change = said.sort === "draw" ? said.pence : -said.pence;
  const wanted = now.owed.owing + change;
  if (day !== today() || !after.owed || after.owed.owing === wanted) return null;
  return `But ${inPounds(after.owed.owing)} is owed, where ${inPounds(wanted)} was to be. Look at the entries`;
}

/**
 * What is owed after an entry; and near the end that a repayment does not move it: charges that are paid may be taken
 * for a renewal.
 */
function leftInWords(sort, after) {
  const isNear = isOpen(after.status) && daysBetween(today(), after.ends) <= NEAR;
  const stays = `This does not move the end of the period, ${inWords(after.ends)}.`;
  return sort === "repay" && isNear ? `${owedLine(after)} ${stays}` : owedLine(after);
}

/**
 * The result of an entry that the service took. If the pledge can't be read after it, the entry must not be made again.
 */
function tellOf({ now, after, said, day }) {
  const done = `${WORDS[said.sort].done}: ${inPounds(said.pence)}, on ${inWords(said.day)}.`;
  if (!after) return { sentence: `${done} It is recorded, but the pledge can’t be read just now.`, tone: "good" };
  const wrong = checkEntry({ now, after, said, day });
  return wrong
    ? { sentence: `${done} ${wrong} before you do more.`, tone: "bad" }
    : { sentence: `${done} ${leftInWords(said.sort, after)}`, tone: "good" };
}

/** What a look says of an entry whose reply was lost. */
function tellLost({ now, after, entry }) {
  const found = after.entries.find(({ seq }) => seq === entry.seq);
  if (found && isSame(found, entry)) {
    return {
      sentence: `The reply was lost, but the pledge, read again, has the entry. `
        + `${entryInWords(found)} ${leftInWords(entry.sort, after)}`,
      tone: "good",
    };
  }
  if (after.entries.length > now.entries.length) return {
    sentence: "The reply was lost, and the pledge has an entry of somebody else. "
      + "Look at the entries before you do more.",
    tone: "bad",
  };
  return {
    sentence: "The reply was lost, and the pledge does not have the entry so far. "
      + "Look at it again in a minute before you record it again.",
    tone: "bad",
  };
}

/**
 * Records an entry on a pledge: `read` returns its present statement, `send` sends the body, `sort` is draw or
 * repay. An amount from `askFrom` on, or one that is unlike the pledge, is asked about; where it was asked about
 * already, `askFrom` is Infinity. Returns the message, with its tone. Throws the service's refusal, or Lost or
 * NotReached, or what `outdated` returns.
 */
export async function recordEntry({ shown, read, send, sort, pence, askFrom = LARGE_PENCE, outdated = null }) {
  const now = await agreedTo({ shown, read, sort, pence, askFrom, outdated });
  if (now === null) return NOTHING;
  const entry = { seq: now.nextSeq, sort, pence };
  const day = today();
  try {
    const { said } = await send({ seq: entry.seq, pence });
    const after = await read().catch(() => null);
    return tellOf({ now, after, said, day });
  } catch (fault) {
    if (!(fault instanceof Lost)) throw fault;
    const after = await read().catch(() => { throw fault; });
    return tellLost({ now, after, entry });
  }
}
