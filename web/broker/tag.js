/** A tag for the bag: the pledge's number, reference, article and end, on a small paper of its own. */
import { becomes } from "../shared/after.js";
import { refusalOf } from "../shared/codes.js";
import { inShort } from "../shared/days.js";
import { byId, foreign, make } from "../shared/dom.js";
import { isFailedLook, Outdated } from "../shared/faults.js";
import { buttons, makeNotice, run } from "../shared/forms.js";
import { inPounds } from "../shared/money.js";
import { lastSafeDay } from "../shared/period.js";
import { isOpen } from "../shared/statuses.js";
import { Unreadable } from "../shared/unreadable.js";
import { statementOf } from "./reading.js";
import { current } from "./session.js";

const UNREAD = "It could not be read just now whether this tag is still right, so it was not printed. "
  + "Try again in a minute.";
const CHANGED = "The pledge has changed since this tag was made. "
  + "“Print a tag for the bag”, on its page, shows it as it is now.";

/** Throws an Unreadable where another moved the end of the pledge since its tag was made, or closed the pledge. */
async function refuseOld({ number, ends }, begun) {
  const now = await statementOf(number, begun).catch((fault) => {
    throw isFailedLook(fault) ? new Outdated(UNREAD) : fault;
  });
  if (now?.ends !== ends || !isOpen(now.status)) throw new Unreadable(CHANGED);
}

/** The button that prints a tag if it is still right, with its notice; else the tag is taken away. */
function printing({ statement, sheet, readAnew }) {
  const begun = current();
  const notice = makeNotice();
  const button = make("button", { type: "button" }, "Print the tag");
  const place = make("div", { className: "buttons screen" }, button);
  button.addEventListener("click", async () => {
    const fault = await run({ notice, within: place, reader: "broker", act: () => refuseOld(statement, begun) });
    if (fault === null) window.print();
    else if (fault instanceof Unreadable) {
      [sheet, button].forEach((one) => one.remove());
      readAnew?.(statement.number);
    }
  });
  return [place, notice];
}

/**
 * The tag of a pledge, with a button that prints it. If the tag is taken away, `readAnew`, if there is one, reads the
 * pledge again that is shown beside it.
 */
export function tagOf(statement, { reference, fiveDays }, readAnew) {
  const { number, article, kind, ends, credit, taken } = statement;
  const until = lastSafeDay({ ends, fiveDays });
  const sum = `${kind === "running" ? "Up to " : ""}${inPounds(credit)}`;
  const sheet = make("article", { className: "paper tag" },
    make("p", { className: "tag-number" }, String(number)),
    make("p", { className: "tag-reference" }, foreign(reference)),
    make("p", { className: "tag-article" }, foreign(article)),
    make("p", {}, `Book ${current().book}. ${sum}, taken ${inShort(taken)}.`),
    make("p", { className: "tag-end" }, `Until ${inShort(until)}${fiveDays ? ", with grace" : ""}`),
    make("p", {}, `After that it ${becomes(statement, "broker")}.`));
  return make("div", { className: "receipt" }, ...printing({ statement, sheet, readAnew }), sheet);
}

export const tagging = (_, desk) => ({
  title: "Print a tag for the bag",
  barred: desk.known.reference === null ? "The reference is shown once the book is read." : null,
  parts: [
    make("p", { className: "lead" }, "Number, reference, article and end, without the receipt. It opens nothing."),
    buttons(make("button", { className: "plain" }, "Show the tag")),
  ],
  act: async () => {
    const now = await desk.read();
    if (!isOpen(now.status)) throw refusalOf(now.status === "passed" ? "Passed" : "Closed");
    byId("new-receipt").replaceChildren(tagOf(now, desk.known, desk.readAnew));
    byId("new-receipt").scrollIntoView();
    return "The tag is below, ready to print.";
  },
});
