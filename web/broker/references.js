/** The broker's references: the next free one of a series. */
import { folded } from "../shared/texts.js";

const SERIES = /^(.*?)(\d{1,9})(\D{0,3})$/;
/** So many pledges before the last are looked at. */
const LOOKED_AT = 12;

const partsOf = (reference) => {
  const found = SERIES.exec(reference.trim());
  return found && { front: found[1], count: Number(found[2]), width: found[2].length, back: found[3] };
};

const isNext = (one, other) =>
  one && other && one.front === other.front && one.back === other.back && other.count === one.count + 1;

const written = ({ front, back, width }, count) => `${front}${String(count).padStart(width, "0")}${back}`;

/** The reference after the last of a series which no pledge has, or null where the last ones are none. */
export function nextReference(pledges) {
  const last = pledges.slice(-LOOKED_AT).map(({ reference }) => partsOf(reference));
  if (last.length < 2 || !isNext(last.at(-2), last.at(-1))) return null;
  const taken = new Set(pledges.map(({ reference }) => folded(reference)));
  let count = last.at(-1).count + 1;
  while (taken.has(folded(written(last.at(-1), count)))) count += 1;
  return written(last.at(-1), count);
}
