/**
 * The windows of a day, 0 to 15. The service knows their numbers alone: what hours they are is the shop's to say, here.
 */

import { today } from "./days.js";

const FIRST = 9 * 60;
const LENGTH = 30;

/** A minute of a day as a clock shows it. */
export const clock = (minutes) =>
  `${String(Math.floor(minutes / 60)).padStart(2, "0")}:${String(minutes % 60).padStart(2, "0")}`;

/** 10:30 to 11:00, for window 3. */
export const windowInWords = (window) => `${clock(FIRST + window * LENGTH)} to ${clock(FIRST + (window + 1) * LENGTH)}`;

/** The minute of the day at which a window ends. */
export const endOf = (window) => FIRST + (window + 1) * LENGTH;

/** The minute of the day by the clock of this device. The shop's clock may be another. */
export function minuteNow() {
  const now = new Date();
  return now.getHours() * 60 + now.getMinutes();
}

/** Whether there is a visit, of today, whose time is over. */
export const isOverToday = (visit) => visit?.day === today() && endOf(visit.window) <= minuteNow();

/** All windows in order. */
export const WINDOWS = Array.from({ length: 16 }, (_, window) => window);
