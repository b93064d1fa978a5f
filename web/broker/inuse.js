/** A reference that a pledge has already: which pledge, since when, and its status. */
import { inShort, inWords } from "../shared/days.js";
import { byId, foreign, make } from "../shared/dom.js";
import { stateInWords } from "../shared/states.js";
import { Unreadable } from "../shared/unreadable.js";
import { ledger } from "./ledger.js";
import { statementOf } from "./reading.js";
import { current, refuseOther } from "./session.js";

/** Shows which pledge has a reference, since when, and its status, and says so. */
export async function tellInUse(number, reference) {
  const begun = current();
  const statement = await statementOf(number);
  refuseOther(begun);
  const link = make("a", { href: `#pledge=${number}`, className: "pledge-link" }, `Open pledge ${number}`);
  byId("taken-receipt").replaceChildren(make("section", { className: "card screen" },
    make("h2", {}, "This reference is in use already"),
    make(
      "p", {}, foreign(reference), ` is pledge ${number}: `, foreign(statement.article),
      `, taken on ${inWords(statement.taken)}.`,
    ),
    make(
      "p", {},
      `${stateInWords(statement, ledger.known(number))}. If this is the pledge that you mean, open it: `,
      "its receipt can be printed again there, where it has one.",
    ),
    make("p", {}, link)));
  throw new Unreadable(
    `Pledge ${number} has this reference since ${inShort(statement.taken)}. `
      + "Nothing new was taken, and nothing is printed. If it is the pledge that you mean, open it; if not, choose "
      + "another reference.",
    "ref",
  );
}

/** Refuses a reference that the book in the page has already, except for a pledge that came after this number. */
export async function refuseInUse(reference, after = Infinity) {
  const [found] = ledger.withReference(reference);
  if (found && found.number <= after) await tellInUse(found.number, found.reference);
}
