/** Tables of pledges in sections: the first rows, the others when they are asked for, and all of them on paper. */
import { today } from "../shared/days.js";
import { foreign, make } from "../shared/dom.js";
import { isHeldOn } from "../shared/period.js";
import { printWhole } from "../shared/printing.js";

/** How many rows a section shows first, so that six sections are not above some two hundred rows. */
const FIRST = 20;
const MORE = 100;

export const pledgeLink = (number) =>
  make("a", { href: `#pledge=${number}`, className: "pledge-link" }, `Pledge ${number}`);

/** A pledge's article with its reference under it, and whether the pledge is on hold, as a cell. */
export const articleCell = (pledge) => make(
  "td", { className: "article" }, foreign(pledge.article),
  make("span", { className: "reference" }, foreign(pledge.reference)),
  isHeldOn(pledge, today()) ? make("strong", { className: "reference" }, "On hold") : null,
);

export const numberCell = ({ number }) =>
  make("td", {}, make("a", { href: `#pledge=${number}`, className: "pledge-link" }, String(number)));

/** A row whose cells have their heads: on a narrow screen the cells are one under the other. */
export function labelled(row, heads) {
  [...row.cells].forEach((cell, place) => { cell.dataset.head = heads[place]; });
  return row;
}

/**
 * A section with a table: its title, its heads, its items with what makes a row of one, what is said where there are
 * none, and nodes under the title.
 */
export function section({ title, heads, items, row, empty, count = String(items.length), under = [] }) {
  const heading = make("h2", {}, title, make("span", { className: "count" }, count));
  if (items.length === 0) return make(
    "section", { className: "card" }, heading, ...under, make("p", { className: "empty" }, empty),
  );
  const body = make("tbody");
  const more = make("button", { type: "button", className: "plain screen" });
  let wanted = FIRST;
  const draw = (most) => {
    const shown = Math.min(most, items.length);
    while (body.rows.length > shown) body.lastChild.remove();
    body.append(...items.slice(body.rows.length, shown).map((item) => labelled(row(item), heads.map(([head]) => head))));
    more.hidden = shown === items.length;
    more.textContent = `Show ${Math.min(MORE, items.length - shown)} more of ${items.length - shown}`;
  };
  draw(wanted);
  more.addEventListener("click", () => { wanted += MORE; draw(wanted); });
  const cells = heads.map(([head, className = ""]) => make("th", { scope: "col", className }, head));
  const table = make("table", { className: "list" }, make("thead", {}, make("tr", {}, ...cells)), body);
  const whole = make("section", { className: "card" }, heading, ...under, table, more);
  printWhole(whole, () => draw(items.length), () => draw(wanted));
  return whole;
}
