/** Visits: whether the pawnor is to come, and the words for a visit wherever its pledge is shown. */
import { inShort, inWords, today } from "./days.js";
import { lastSafeDay } from "./period.js";
import { isOverToday, windowInWords } from "./windows.js";

/**
 * By the state of a booking: its words in a sentence; and, if a visit can still come of it, in a list before and after
 * its day.
 */
const STATES = {
  asked: { said: "asked for, not confirmed yet", short: "visit asked for", past: "unanswered visit of" },
  confirmed: { said: "confirmed", short: "visit confirmed for", past: "past visit of" },
  refused: { said: "refused by the shop" },
  cancelled: { said: "cancelled" },
};

/** Whether a visit was asked for or confirmed, and neither refused nor cancelled: it can be decided on, on any day. */
export const isPending = (booking) => Boolean(booking && STATES[booking.state].short);

/** Whether the pawnor is to come, or asked to. */
export const isToCome = (booking, now = today()) => isPending(booking) && booking.day >= now;

/** Whether it is a past visit: its day is over. The book does not record whether the pawnor came. */
export const isPast = (booking, now = today()) => isPending(booking) && booking.day < now;

/** A visit in a sentence. */
export function bookingInWords(booking) {
  const said = `${inWords(booking.day)}, ${windowInWords(booking.window)}: ${STATES[booking.state].said}`;
  if (isPast(booking)) return `${said}, on a day that is over`;
  return isPending(booking) && isOverToday(booking) ? `${said}, at a time that is over` : said;
}

/** A visit in a line of a list, where one is to come or is past; else null. */
export function bookingInShort(booking, now = today()) {
  if (!isPending(booking)) return null;
  const { short, past } = STATES[booking.state];
  return `${isPast(booking, now) ? past : short} ${inShort(booking.day)}`;
}

/**
 * Whether a visit is to come, on a day on which the article may have been sold. Where the days of grace are not known,
 * they count.
 */
export const isLateVisit = ({ booking, ends }, { fiveDays }) => isToCome(booking) && !isOverToday(booking)
  && booking.day > lastSafeDay({ ends, fiveDays: fiveDays ?? true });
