/** The end of a pledge, and what becomes of its article after it: one wording for each, wherever a pledge is shown. */
import { inShort, sixMonthsAfter, today } from "./days.js";
import { firstDayAfter, statusOn, willPass } from "./period.js";

/** By whether the article passes to the shop: what becomes of it, for each reader. */
const BECOMES = {
  true: { broker: "is the shop’s", pawnor: "belongs to the pawnbroker", more: "can’t be redeemed any more" },
  false: { broker: "may be sold", pawnor: "may be sold", more: "can be redeemed until it is sold" },
};

/** What becomes of the article after its time: that it “may be sold”. */
export const becomes = (pledge, reader) => BECOMES[willPass(pledge)][reader];

/** The same, with whether the pledge can be redeemed then. */
export const becomesInWords = (pledge, reader) =>
  `${becomes(pledge, reader)}, and ${BECOMES[willPass(pledge)].more}`;

/** Why the end is not that of the six months: an agreed end within them has no effect. */
export function madeInWords({ ends, taken, extensions, agreed }) {
  if (extensions.length > 0) return ", as extended";
  return agreed === ends && ends > sixMonthsAfter(taken) ? ", as agreed" : "";
}

/** The end in a list or under a bar: “ends” or “ended”, and the day. */
export const endInShort = ({ ends }, now = today()) => `${ends < now ? "ended" : "ends"} ${inShort(ends)}`;

/** By the status: what comes of the article after its time, or has come, in a list of the broker's. */
const TURNS = {
  passed: "passed to the shop on", realisable: "can be sold since", passes: "passes to the shop on",
  sale: "can be sold from",
};

/** What comes after the time of a pledge that is not closed, in a list of the broker's. */
export function turnInShort(pledge, now = today()) {
  const turn = TURNS[statusOn(pledge, now)] ?? TURNS[willPass(pledge) ? "passes" : "sale"];
  return `${turn} ${inShort(firstDayAfter(pledge))}`;
}
