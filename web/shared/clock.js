/**
 * The service's clock. A computer's own clock may be wrong by days, so each reply's Date is compared with it, and the
 * pages compute with the service's day.
 */

/** From this many milliseconds on, the page reports the difference. */
const TOLD = 120_000;
const SECOND = 1000;

/** By how many milliseconds the service's clock is ahead of this computer's. */
let ahead = 0;
const listeners = [];

/** Calls the listener whenever the difference was found to be another. */
export const onClock = (listener) => listeners.push(listener);

/** The service's time, in milliseconds. */
export const now = () => Date.now() + ahead;

/** The hour of a moment, in the zone of this computer. */
export const clockOf = (time) => new Date(time).toLocaleTimeString("en-GB", { hour: "2-digit", minute: "2-digit" });

/** By how many milliseconds this computer's clock is wrong; 0 where it is as good as right. */
export const wrongBy = () => (Math.abs(ahead) < TOLD ? 0 : -ahead);

/**
 * Compares a reply's Date, which is cut to the second, with this computer's clock when the request was sent and when
 * the reply came.
 */
export function compareClock(date, sent, came) {
  const told = Date.parse(date ?? "");
  if (Number.isNaN(told)) return;
  const nearest = Math.min(Math.max(ahead, told - came), told + SECOND - sent);
  if (nearest === ahead) return;
  ahead = nearest;
  listeners.forEach((listener) => listener());
}
