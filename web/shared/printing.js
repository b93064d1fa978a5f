/**
 * Paper: what a screen shows in part is printed whole, and where a receipt or a tag is shown, it alone is printed. An
 * element that is marked so gets an event before and after the printing.
 */

const WHOLE = "print-whole";
/** What is printed alone, and each element round it. */
const ALONE = "paper-path";

/** Draws all before the page is printed, and what the screen had after it. */
export function printWhole(element, drawAll, drawBack) {
  element.classList.add(WHOLE);
  element.addEventListener("beforeprint", drawAll);
  element.addEventListener("afterprint", drawBack);
}

/** Marks the paper of the part that is shown, if it has one, with the elements round it. */
function markPaper() {
  for (const one of document.querySelectorAll(`.${ALONE}`)) one.classList.remove(ALONE);
  const papers = [...document.querySelectorAll("section.place:not([hidden]) .paper")];
  document.body.classList.toggle("prints-paper", papers.length > 0);
  for (const paper of papers) {
    for (let at = paper; at !== null; at = at.parentElement) at.classList.add(ALONE);
  }
}

for (const name of ["beforeprint", "afterprint"]) {
  addEventListener(name, () => {
    markPaper();
    for (const element of document.getElementsByClassName(WHOLE)) {
      if (element.getClientRects().length > 0) element.dispatchEvent(new Event(name));
    }
  });
}
