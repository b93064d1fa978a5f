/** The payments and drawings of a pledge: the last ones, and the earlier ones when they are asked for, or printed. */
import { make } from "./dom.js";
import { inShort } from "./days.js";
import { inPounds } from "./money.js";
import { printWhole } from "./printing.js";

/** How many entries are shown first, and how many more each time. */
const FIRST = 12;
const MORE = 100;

const line = ({ day, sort, pence }) => make("tr", {},
  make("td", {}, inShort(day)), make("td", {}, sort === "draw" ? "Drawn" : "Repaid"),
  make("td", { className: "number" }, inPounds(pence)));

const captionOf = (shown, whole) =>
  (shown < whole ? `The last ${shown} of ${whole} payments and drawings` : "Payments and drawings");

/** The table of the entries, the newest first, with a button for the earlier ones; or null where there are none. */
export function entriesTable(entries) {
  if (entries.length === 0) return null;
  const caption = make("caption");
  const body = make("tbody");
  const more = make("button", { type: "button", className: "plain screen" });
  const newest = [...entries].reverse();
  const draw = (count) => {
    const shown = Math.min(count, newest.length);
    while (body.rows.length > shown) body.lastChild.remove();
    body.append(...newest.slice(body.rows.length, shown).map(line));
    caption.textContent = captionOf(shown, newest.length);
    more.hidden = shown === newest.length;
    more.textContent = `Show ${Math.min(MORE, newest.length - shown)} earlier ones`;
  };
  let wanted = FIRST;
  draw(wanted);
  more.addEventListener("click", () => { wanted += MORE; draw(wanted); });
  const whole = make("div", { className: "entries" }, make("table", {}, caption, body), more);
  printWhole(whole, () => draw(newest.length), () => draw(wanted));
  return whole;
}

/** An entry as a line of a sentence. */
export const entryInWords = ({ day, sort, pence }) =>
  `${sort === "draw" ? "Drawn" : "Repaid"}: ${inPounds(pence)}, on ${inShort(day)}.`;
