/** A long list of which the rows in view are drawn and no others. All rows are of one height. */
import { make } from "../shared/dom.js";
import { printWhole } from "../shared/printing.js";

/** How many rows are drawn beyond each edge of what is in view. */
const BEYOND = 8;
/** At most so many rows go on paper. */
const ON_PAPER = 2000;
const HEIGHT = 64;

export class Rows {
  /** A list of what `drawRow` makes of an item. `name` is said to screen readers. */
  constructor({ name, drawRow }) {
    Object.assign(this, { drawRow, items: [], drawn: new Map() });
    this.canvas = make("ul", { className: "rows-canvas" });
    this.canvas.setAttribute("role", "list");
    this.over = make("p", { className: "rows-over", hidden: true });
    this.element = make("div", { className: "rows", tabIndex: 0 }, this.canvas);
    this.element.setAttribute("role", "group");
    this.element.setAttribute("aria-label", name);
    this.whole = make("div", {}, this.element, this.over);
    this.element.addEventListener("scroll", () => this.draw(), { passive: true });
    new ResizeObserver(() => this.draw()).observe(this.element);
    printWhole(this.whole, () => this.drawForPaper(), () => this.drawForScreen());
  }

  /** Shows these items, from the first, or from the one at which the list was. */
  show(items, stay) {
    const focused = [...this.drawn].find(([, row]) => row.contains(document.activeElement))?.[0];
    this.items = items;
    this.clear();
    this.canvas.style.setProperty("height", `${items.length * HEIGHT}px`);
    if (!stay) this.element.scrollTop = 0;
    this.draw();
    this.drawn.get(focused)?.firstChild.focus({ preventScroll: true });
  }

  clear() {
    for (const row of this.drawn.values()) row.remove();
    this.drawn.clear();
  }

  /** Draws what is in view, and takes away what no longer is. A row that has the focus stays. */
  draw() {
    const first = Math.max(0, Math.floor(this.element.scrollTop / HEIGHT) - BEYOND);
    const last = Math.min(
      this.items.length, Math.ceil((this.element.scrollTop + this.element.clientHeight) / HEIGHT) + BEYOND,
    );
    for (const [place, row] of this.drawn) {
      if ((place < first || place >= last) && !row.contains(document.activeElement)) {
        row.remove();
        this.drawn.delete(place);
      }
    }
    for (let place = first; place < last; place += 1) if (!this.drawn.has(place)) this.put(place);
  }

  put(place) {
    const row = make("li", { className: "row" }, this.drawRow(this.items[place]));
    row.setAttribute("aria-setsize", String(this.items.length));
    row.setAttribute("aria-posinset", String(place + 1));
    row.style.setProperty("top", `${place * HEIGHT}px`);
    this.drawn.set(place, row);
    const after = [...this.drawn.keys()].filter((other) => other > place).sort((one, other) => one - other)[0];
    this.canvas.insertBefore(row, this.drawn.get(after) ?? null);
  }

  drawForPaper() {
    this.clear();
    for (let place = 0; place < Math.min(this.items.length, ON_PAPER); place += 1) this.put(place);
    this.over.hidden = this.items.length <= ON_PAPER;
    this.over.textContent = `The first ${ON_PAPER} of ${this.items.length}.`;
  }

  drawForScreen() {
    this.clear();
    this.over.hidden = true;
    this.draw();
  }
}
