/** A receipt on paper: one page of A5, with the square code of the pawnor's link. */
import { becomesInWords } from "../shared/after.js";
import { inShort, inWords, today } from "../shared/days.js";
import { facts, foreign, make } from "../shared/dom.js";
import { makeNotice, run, tell, tellLater } from "../shared/forms.js";
import { inPounds } from "../shared/money.js";
import { pictureOf } from "../shared/qr.js";
import { linkTo } from "../shared/receipts.js";
import { isOpen } from "../shared/statuses.js";
import { agreedFact, endInWords } from "../shared/summary.js";
import { interestInWords, keepingInWords } from "../shared/terms.js";
import { Unreadable } from "../shared/unreadable.js";
import { refuseOld } from "./papers.js";
import { current } from "./session.js";
import { shop } from "./shop.js";

/** What the bearer of the paper can do with it, while the article can be redeemed and after. */
const CARE = "Keep this paper safe. Anyone who has it can redeem the pledge. If it is lost, tell the shop at once: "
  + "a new receipt makes this one worthless.";
const SPENT = "The pledge can’t be redeemed any more. The link above shows what became of it.";

const codeOf = (link) => make(
  "figure", {}, pictureOf(link, "The square code of the link below"),
  make("figcaption", {}, "Point a telephone’s camera here to see the pledge."),
);

/** The credit; and once something was repaid or drawn, what is still lent on the day of printing. */
function creditFacts({ kind, credit, entries, owed, closing }) {
  const isFirst = entries.length === 0;
  const name = kind === "running" ? "Credit up to" : isFirst ? "Lent" : "Lent at first";
  const rest = isFirst || !owed || closing ? [] : [[`Lent and not repaid on ${inShort(today())}`, inPounds(owed.principal)]];
  return [[name, inPounds(credit)], ...rest];
}

function factsOf(statement, { fiveDays, agreed, terms }) {
  const { taken, ends } = statement;
  return facts([
    ...creditFacts(statement),
    ["Taken on", inWords(taken)],
    [ends < today() ? "Period ended on" : "Period ends on", endInWords(statement, { agreed })],
    ["Days of grace after it", fiveDays ? "Five" : "None"],
    isOpen(statement.status) && ["After that", `The article ${becomesInWords(statement, "pawnor")}`],
    agreedFact(statement, agreed),
    ["Interest", interestInWords(terms)],
    ["Safe keeping", keepingInWords(terms)],
  ].filter(Boolean));
}

function headOf(number, reference) {
  const { name, address } = shop();
  const which = make(
    "p", { className: "which" }, `Pawn receipt: book ${current().book}, pledge ${number}, reference `,
    foreign(reference),
  );
  return make(
    "header", {},
    make(
      "div", {}, make("p", { className: "shop" }, foreign(name || "Pawnbroker")),
      address && make("p", { className: "shop-address" }, foreign(address)),
    ),
    which,
  );
}

/** By the element of a receipt: the look at its pledge, which takes away a paper that is not to be printed. */
const looks = new WeakMap();

/** Looks at the pledge of the receipt that a place shows, to which the clerk comes back. */
export const recheckPaper = (place) => looks.get(place.querySelector(".receipt"))?.().catch(() => {});

/** The button that prints a receipt if it may still be printed, with its notice; `said` is that of the whole part. */
function printing({ statement, receipt, said, readAnew }, whole) {
  const begun = current();
  const notice = makeNotice();
  const button = make("button", { type: "button" }, "Print the receipt");
  const look = async () => {
    try {
      await refuseOld({ receipt, statement }, begun);
      return "";
    } catch (fault) {
      if (fault instanceof Unreadable && whole.isConnected) {
        whole.parentElement.replaceChildren();
        tell(said, fault.message, "bad");
        tellLater(said, fault);
        readAnew?.(statement.number);
      }
      throw fault;
    }
  };
  looks.set(whole, look);
  button.addEventListener("click", async () => {
    const fault = await run({ notice, within: whole, reader: "broker", act: look });
    if (fault === null) window.print();
    else if (!whole.isConnected) said.focus();
  });
  return [make("div", { className: "buttons screen" }, button), notice];
}

/**
 * The receipt of a pledge, with a button that prints it: by its statement, the receipt's text, what the book has of the
 * pledge and its statement lacks, and the notice that says why the paper is taken away. Then `readAnew`, if there is
 * one, reads the pledge again that is shown beside the paper.
 */
export function receiptSheet({ statement, receipt, known, said, readAnew }) {
  const { name, till } = shop();
  const { terms, fiveDays, reference } = known;
  const { origin } = location;
  const link = linkTo({ origin, book: current().book, receipt, shop: name, reference, terms, fiveDays });
  const sign = (who) => make("div", { className: "sign" }, who);
  const sheet = make("article", { className: "paper" },
    headOf(statement.number, reference),
    make("h2", {}, foreign(statement.article)),
    make("div", { className: "body" }, factsOf(statement, known), codeOf(link)),
    make("p", { className: "label" }, "Receipt"), make("p", { className: "secret" }, receipt),
    make("p", { className: "label" }, "See your pledge at"), make("p", { className: "address" }, link),
    make("p", { className: "care" }, isOpen(statement.status) ? CARE : SPENT),
    make("div", { className: "signs" },
      sign(till ? `For the shop, ${till}` : "For the shop"), sign("Customer’s name"), sign("Received by")));
  const whole = make("div", { className: "receipt" });
  whole.append(...printing({ statement, receipt, said, readAnew }, whole), sheet);
  return whole;
}
