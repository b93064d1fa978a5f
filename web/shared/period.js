/**
 * When a pledge's period ends, and the pledge's status on a day, by the rules, for pledges of the book in the page.
 */
import { plusDays, sixMonthsAfter } from "./days.js";
import { isBarred } from "./statuses.js";

/** Up to this credit, an article whose period of six months is over is the broker's. */
export const SMALL_PENCE = 7500;
const GRACE_DAYS = 5;

/** The last day of grace, where the five days apply. */
export const graceEnd = (ends) => plusDays(ends, GRACE_DAYS);

/** The latest of the six months' last day, the agreed end, and the end of the last extension. */
export function endOf({ taken, agreed, extensions }) {
  return [sixMonthsAfter(taken), agreed ?? "", extensions.at(-1)?.[1] ?? ""].sort().at(-1);
}

/** The last day on which the pledge is neither to be sold nor the broker's. */
export const lastSafeDay = ({ ends, fiveDays }) => (fiveDays ? graceEnd(ends) : ends);

/** The day on which the article passes to the broker, or can be sold first. */
export const firstDayAfter = (pledge) => plusDays(lastSafeDay(pledge), 1);

/** Whether the article is the broker's once the period is over, and is not to be sold. */
export const willPass = ({ taken, ends, credit }) => credit <= SMALL_PENCE && ends === sixMonthsAfter(taken);

/** inside, grace, passed, realisable, redeemed or sold. */
export function statusOn(pledge, day) {
  if (pledge.state !== "open") return pledge.state;
  if (day <= pledge.ends) return "inside";
  if (day <= lastSafeDay(pledge)) return "grace";
  return willPass(pledge) ? "passed" : "realisable";
}

/** Whether a hold bars something on a day. */
export const isHeldOn = (pledge, day) => isBarred({ held: pledge.held, status: statusOn(pledge, day) });
