/** Days are texts such as 2026-11-26, in the calendar of the service: UTC. */
import { now } from "./clock.js";

const WEEKDAYS = ["Sunday", "Monday", "Tuesday", "Wednesday", "Thursday", "Friday", "Saturday"];
const MONTHS = [
  "January", "February", "March", "April", "May", "June", "July", "August", "September", "October", "November",
  "December",
];
const ONE_DAY = 86_400_000;

const dateOf = (day) => new Date(`${day}T00:00:00Z`);
const dayOf = (date) => date.toISOString().slice(0, 10);

/** The service's day now, whatever this computer's clock says. */
export const today = () => dayOf(new Date(now()));

/** Thursday 26 November 2026. */
export function inWords(day) {
  const date = dateOf(day);
  return `${WEEKDAYS[date.getUTCDay()]} ${date.getUTCDate()} ${MONTHS[date.getUTCMonth()]} ${date.getUTCFullYear()}`;
}

/** 26 November 2026, where the day of the week doesn't matter. */
export const inShort = (day) => inWords(day).split(" ").slice(1).join(" ");

/** How many days the second is after the first. */
export const daysBetween = (first, second) => Math.round((dateOf(second) - dateOf(first)) / ONE_DAY);

/** The day so many days later. */
export const plusDays = (day, count) => dayOf(new Date(dateOf(day).getTime() + count * ONE_DAY));

/** The same day six months later, cut to its month's last day. A book asks for the same days again and again. */
export function sixMonthsAfter(day) {
  if (!later.has(day)) later.set(day, countSixMonths(day));
  return later.get(day);
}

const later = new Map();

function countSixMonths(day) {
  const [year, month, date] = day.split("-").map(Number);
  const last = new Date(Date.UTC(year, month + 6, 0)).getUTCDate();
  return dayOf(new Date(Date.UTC(year, month - 1 + 6, Math.min(date, last))));
}

/** 1 day, 2 days, 1,000 days. */
export const countDays = (count) => (count === 1 ? "1 day" : `${count.toLocaleString("en-GB")} days`);

/** When a day is, seen from another: today, tomorrow, in 12 days, 3 days ago. */
export function seenFrom(from, day) {
  const count = daysBetween(from, day);
  if (count === 0) return "today";
  if (count === 1) return "tomorrow";
  if (count === -1) return "yesterday";
  return count > 0 ? `in ${countDays(count)}` : `${countDays(-count)} ago`;
}
