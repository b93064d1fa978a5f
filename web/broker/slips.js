/** How a slip is mended within the rules: no entry, no end and no pledge is ever taken back. */
import { today } from "../shared/days.js";
import { make } from "../shared/dom.js";
import { inPounds } from "../shared/money.js";

const TITLE = "If something was entered by mistake";

/** The ways for this pledge, in sentences. */
function waysOf({ kind, taken, owed, status }) {
  const anew = "redeem the pledge by its own receipt for what is owed, and take it anew under another reference";
  const agreed = `If the pawnor agrees and brings the paper: ${anew} for the sum that should be owed.`;
  const running = status === "inside"
    ? "A drawing of too much is recorded as repaid, and a repayment of too much is drawn again, up to the limit of the "
      + "account: charges that it paid may not fit under it. If that is done on the same day, as much is owed then as "
      + "before, but charges that were owed are part of the loan after it, and bear interest. What does not fit is not "
      + `drawn again. ${agreed}`
    : "A drawing of too much is recorded as repaid. A repayment of too much can’t be drawn again, since the period is "
      + `over. ${agreed}`;
  return [
    taken === today()
      ? `A pledge that was taken by mistake today: ${anew}, unless it was taken twice. ${inPounds(owed.owing)} is owed `
        + "today."
      : null,
    kind === "running"
      ? running
      : `A repayment of too much can’t be drawn again on a fixed sum. ${agreed}`,
    `An end that is too late: if the pawnor agrees and brings the paper, ${anew}.`,
    "A hold is released, and a visit that was confirmed can still be refused. A visit that was refused can’t be "
      + "confirmed: the pawnor asks for it again.",
  ].filter(Boolean);
}

export function slipsFold(statement) {
  const ways = waysOf(statement).map((way) => make("li", {}, way));
  return make(
    "details", { className: "action" }, make("summary", {}, TITLE),
    make("div", { className: "told" }, make("p", { className: "lead" }, "Nothing in the book is ever taken back."),
      make("ul", {}, ...ways)),
  );
}
