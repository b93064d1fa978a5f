/**
 * The till: what was taken, drawn, repaid, redeemed and sold on a day, so that the drawer can be compared with the
 * book. What was repaid and redeemed is divided into charges and the sum that was lent.
 */
import { inWords, today } from "../shared/days.js";
import { byId, facts, make } from "../shared/dom.js";
import { buttons, field, onSend } from "../shared/forms.js";
import { inPounds, readPounds } from "../shared/money.js";
import { chargesPaid, owedOn } from "../shared/owing.js";
import { missingInWords } from "./age.js";
import { putDay, setUpDayForm, showDayOf } from "./dayform.js";
import { keep, kept } from "./kept.js";
import { ledger } from "./ledger.js";
import { shop } from "./shop.js";
import { articleCell, numberCell, section } from "./tables.js";

/** The day whose till is drawn, or null. */
let drawn = null;

const sum = (lines, name = "pence") => lines.reduce((total, line) => total + (line[name] ?? 0), 0);

/** The charges in each entry of a pledge, and in what was paid when it was redeemed; and what its sale left. */
function chargesOf(pledge) {
  const terms = ledger.termsOf(pledge);
  const last = terms && pledge.closed ? owedOn(pledge, terms, pledge.closed) : null;
  return {
    inEntries: terms ? chargesPaid(pledge, terms) : [],
    atLast: last && pledge.state === "redeemed" ? last.charges : 0,
    left: last && pledge.state === "sold" ? pledge.amount - last.owing : 0,
  };
}

function addEntries(lists, pledge, day) {
  if (!pledge.entries.some((entry) => entry.day === day)) return;
  const { inEntries } = chargesOf(pledge);
  pledge.entries.forEach(({ day: on, sort, pence }, place) => {
    if (on === day) lists[sort === "draw" ? "drawn" : "repaid"].push({ pledge, pence, charges: inEntries[place] });
  });
}

/** What was done on a day, as lines of a pledge and an amount. Nothing is paid out when a running account is opened. */
function tillOf(book, day) {
  const lists = { taken: [], drawn: [], repaid: [], redeemed: [], sold: [] };
  for (const pledge of book.pledges) {
    if (pledge.taken === day) lists.taken.push({ pledge, pence: pledge.kind === "fixed" ? pledge.credit : 0 });
    addEntries(lists, pledge, day);
    if (pledge.closed === day) {
      const { atLast, left } = chargesOf(pledge);
      lists[pledge.state].push({ pledge, pence: pledge.amount, charges: atLast, left, surplus: Math.max(0, left) });
    }
  }
  const sums = Object.fromEntries(Object.entries(lists).map(([name, lines]) => [name, sum(lines)]));
  const charges = { repaid: sum(lists.repaid, "charges"), redeemed: sum(lists.redeemed, "charges") };
  return {
    lists, sums, charges, surplus: sum(lists.sold, "surplus"), out: sums.taken + sums.drawn,
    in: sums.repaid + sums.redeemed + sums.sold,
  };
}

/** Each list: its title, which way the money went, what is said where it is empty, and whether charges are in it. */
const SECTIONS = {
  taken: { title: "Taken", way: "Paid out", empty: "No pledge was taken." },
  drawn: { title: "Drawn", way: "Paid out", empty: "Nothing was drawn." },
  repaid: { title: "Repaid", way: "Received", empty: "Nothing was repaid.", isParted: true },
  redeemed: { title: "Redeemed", way: "Received", empty: "No pledge was redeemed.", isParted: true },
  sold: { title: "Sold", way: "Net proceeds", empty: "Nothing was sold." },
};

function rowOf({ pledge, pence, charges, left }, isParted) {
  const told = isParted ? `${inPounds(charges)} charges, ${inPounds(pence - charges)} loan`
    : left ? `${inPounds(Math.abs(left))} ${left > 0 ? "surplus" : "shortfall"}` : null;
  const parts = told && make("span", { className: "reference" }, told);
  return make(
    "tr", {}, numberCell(pledge), articleCell(pledge), make("td", { className: "number" }, inPounds(pence), parts),
  );
}

function sectionOf([name, { title, way, empty, isParted }], { lists, sums }) {
  return section({
    title, empty, items: lists[name], count: `${lists[name].length}: ${inPounds(sums[name])}`,
    heads: [["No."], ["Article and reference"], [way, "number"]], row: (line) => rowOf(line, isParted),
  });
}

/** What was received in two parts, as lines under it. */
const partsOf = (name, { sums, charges }) => [
  ["of which charges", inPounds(charges[name])], ["of which loans", inPounds(sums[name] - charges[name])],
];

/** A till has a name only in a shop that has more than one. */
const drawers = () => FLOATS[shop().till ? "several" : "one"];

/** The float: what the drawer had when the day began, or all drawers. This machine keeps it, for this day alone. */
const floatOf = (day) => kept(drawers().name, {})[day] ?? null;

/** Keeps it, or no longer keeps it, for null. */
function keepFloat(day, pence) {
  const days = Object.entries({ ...kept(drawers().name, {}), [day]: pence }).sort().slice(-31);
  keep(drawers().name, Object.fromEntries(days));
}

/**
 * What the float is of, and the name under which it is kept. The book does not say at which till something was done, so
 * of several only the sum is known.
 */
const FLOATS = {
  one: {
    name: "float", label: "Float: in the drawer when the day began, in pounds", keep: "Keep the float",
    drawer: "The drawer has", with: "With its float of", should: "it should have",
  },
  several: {
    name: "floats", label: "Floats: in the drawers of all tills when the day began, in pounds",
    keep: "Keep the floats",
    drawer: "The drawers of all tills together have", with: "With their floats of", should: "they should have",
  },
};

const floatField = () => byId("till-lists").querySelector(".float [name=amount]");

const shownFloat = (pence) => (pence === null ? "" : inPounds(pence).slice(1));

function floatForm(day) {
  const amount = make("input", {
    name: "amount", inputMode: "decimal", defaultValue: shownFloat(floatOf(day)),
  });
  const form = make("form", { className: "screen float", autocomplete: "off" },
    field(drawers().label, amount, "Kept in this browser, for this day. It may be left empty."),
    buttons(make("button", { className: "plain" }, drawers().keep)));
  onSend(form, "broker", async (fields) => {
    const pence = fields.amount.trim() === "" ? null : readPounds(fields.amount);
    keepFloat(day, pence);
    amount.value = shownFloat(pence);
    show(day);
    return "";
  });
  return form;
}

/** By how much the drawer changed, or all drawers together; and what should be in it where its float is known. */
function drawerLine(till, day) {
  const words = drawers();
  const change = till.in - till.out;
  const by = `${inPounds(Math.abs(change))} ${change < 0 ? "less" : "more"} than`;
  const line = `${words.drawer} ${change === 0 ? "as much as" : by} at the day’s beginning, by the book.`;
  const float = floatOf(day);
  if (float === null) return line;
  const should = float + change;
  const has = should < 0 ? `${inPounds(-should)} less than nothing: count again` : inPounds(should);
  return `${line} ${words.with} ${inPounds(float)} ${words.should} ${has}.`;
}

/** What is said where a sale left a surplus: no entry of the book says that it was paid to the pawnor. */
const surplusLine = ({ surplus }) => (surplus === 0 ? ""
  : ` Of the proceeds ${inPounds(surplus)} is surplus, which is the pawnors’. The book does not record when you pay it `
    + "to them: what you have paid of it is no longer in the drawer.");

/** The sums in a card: what came in, what went out, and by how much the drawer changed. */
function sumsCard(till, day) {
  const { sums } = till;
  const told = facts([
    ["Taken: lent on fixed sums", inPounds(sums.taken)],
    ["Drawn", inPounds(sums.drawn)],
    ["Paid out", inPounds(till.out)],
    ["Repaid", inPounds(sums.repaid)], ...partsOf("repaid", till),
    ["Redeemed", inPounds(sums.redeemed)], ...partsOf("redeemed", till),
    ["Sold, net", inPounds(sums.sold)],
    ["Received", inPounds(till.in)],
  ]);
  for (const row of told.children) if (row.firstChild.textContent.startsWith("of which ")) row.classList.add("part");
  const title = make(
    "h2", {}, day === today() ? "Sums of today" : `Sums of ${inWords(day)}`,
    shop().till && make("span", { className: "count" }, "of all tills"),
  );
  const line = make("p", { className: "example" }, drawerLine(till, day), surplusLine(till));
  return make("section", { className: "card sums" }, title, told, line, floatForm(day));
}

function show(day) {
  showDayOf("till", day, { name: "Till", isToday: "today" });
  if (ledger.book === null) {
    byId("till-lists").replaceChildren(make("p", { className: "empty" }, missingInWords()));
    return;
  }
  const till = tillOf(ledger.book, day);
  const typed = floatField()?.value;
  byId("till-lists").replaceChildren(
    sumsCard(till, day), ...Object.entries(SECTIONS).map((one) => sectionOf(one, till))
  );
  if (typed !== undefined && day === drawn) floatField().value = typed;
  drawn = day;
}

export const setUpTill = () => setUpDayForm("till", async (day) => show(day));

/** The till of the day that the address names, or of today. */
export function showTill(day) {
  putDay("till", day ?? today());
  show(day ?? today());
}

/** The same once the book was read or mended; what was typed stays. */
export const redrawTill = (day) => show(day ?? today());
