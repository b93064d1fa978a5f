/** The line above all parts: what came of an act whose form is out of sight, or whose book was closed meanwhile. */
import { byId, make } from "../shared/dom.js";
import { tell, watchActs } from "../shared/forms.js";
import { current } from "./session.js";

/** Says something of the part or the pledge at this address of the page, after a link to it. */
export function sayElsewhere({ hash, name, text, tone }) {
  const line = byId("elsewhere");
  tell(line, `: ${text}`, tone);
  line.prepend(make("a", { href: hash }, name));
}

/** Says it of a book that is not open any more. */
function sayOfClosed({ book }, { about, text, tone }) {
  const pledge = about === null ? "" : `, pledge ${about}`;
  tell(byId("elsewhere"), `Book ${book}${pledge}: ${text}`, tone);
}

/**
 * Reports the result of an act that began in this session, if its form is out of sight. An act on a pledge does so
 * itself, as long as its book is open.
 */
function report(begun, { notice, about, isLook, text, tone }) {
  if (begun === null) return false;
  const isNews = text !== "" && !isLook;
  if (begun !== current()) {
    if (isNews) sayOfClosed(begun, { about, text, tone });
    return true;
  }
  const part = notice.closest("section.place");
  if (isNews && about === null && part?.hidden) {
    sayElsewhere({ hash: `#${part.id}`, name: part.querySelector("h1").textContent, text, tone });
  }
  return false;
}

/** Says nothing more of what is shown now. */
export function clearElsewhere() {
  const line = byId("elsewhere");
  if (line.querySelector("a")?.hash === location.hash) tell(line, "");
}

export const setUpElsewhere = () => watchActs({ mark: current, report });
