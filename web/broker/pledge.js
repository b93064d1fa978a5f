/** One pledge of the book, with its statement and its commands. What is said of it was read just then. */
import { clockOf } from "../shared/clock.js";
import { refusalOf } from "../shared/codes.js";
import { inShort, today } from "../shared/days.js";
import { byId, foreign, make } from "../shared/dom.js";
import { CHANGED, Outdated, Refused } from "../shared/faults.js";
import {
  buttons, fieldsOf, foldOf, makeNotice, moveFocus, outcomeOf, redrawFolds, run, sayAfter, tell, tellLater,
} from "../shared/forms.js";
import { inPounds } from "../shared/money.js";
import { othersInWords } from "../shared/payments.js";
import { numberOf } from "../shared/receipts.js";
import { reckoningForm } from "../shared/reckoning.js";
import { isOpen } from "../shared/statuses.js";
import { summaryOf } from "../shared/summary.js";
import { Unreadable } from "../shared/unreadable.js";
import { commandsOf } from "./commands.js";
import { sayElsewhere } from "./elsewhere.js";
import { ledger } from "./ledger.js";
import { heldBy, statementOf } from "./reading.js";
import {
  dropDeadPaper, isLive, newestReceipt, readReceipt, SHOWS, toldOfReceipts, whyDead, whyDeadByBook,
} from "./papers.js";
import { receiptSheet, recheckPaper } from "./receipt.js";
import { REDEEM } from "./redeem.js";
import { askBook, askHeld, current, refuseOther } from "./session.js";

const ONE = "That is no whole receipt.";
const ANOTHER = "Another pledge was opened meanwhile, so the receipt is not shown: “Print the receipt again” shows it.";

/** The pledge that is shown, and what the forms of its commands use. */
class Desk {
  constructor() {
    this.notice = makeNotice();
    // The number of the pledge on which an act is under way, whose forms are not drawn anew meanwhile; or null.
    this.actingOn = null;
    this.perform = this.perform.bind(this);
    this.readAnew = this.readAnew.bind(this);
    this.forget();
  }

  /**
   * `paper` is a receipt that was found live, until the clerk goes on; `fresh` a statement that was read just before
   * its pledge is shown; `message` what is said of a pledge once it is shown; `drawn` the number whose forms are on the
   * page; `wanted` the number that was asked for last; `sought` the one that the form of the search found;
   * `lostRedemptions`, by their receipts, what was paid by redemptions whose replies were lost; `saidOn` the day on
   * which the notice was filled; `ofReceipt` what was said last of a receipt that was found; `readAt` when the
   * statement was read; `saidOld` what was said where it could not be read again; `isOutdated` whether the statement is
   * known to be out of date.
   */
  forget() {
    Object.assign(this, {
      statement: null, drawn: null, paper: null, fresh: null, message: null, isDrawnByBook: false, wanted: null,
      sought: null, lostRedemptions: new Map(), saidOn: null, ofReceipt: null, readAt: 0, saidOld: "",
      isOutdated: false,
    });
    tell(this.notice, "");
  }

  get number() {
    return this.statement.number;
  }

  /** What the book has of the pledge and its statement lacks. */
  get known() {
    return ledger.known(this.number);
  }

  /** The present statement of the pledge. Throws if the book was closed meanwhile, so that nothing is asked about it. */
  async read(number = this.number) {
    const statement = await statementOf(number, this.session);
    if (this.session) this.refuseOtherBook();
    if (statement === null) throw refusalOf("NoSuchPledge");
    return statement;
  }

  /**
   * The desk for the forms of the pledge that is shown now: an act that was begun in them stays with this pledge and
   * this book, whatever is opened meanwhile.
   */
  ofShown() {
    return Object.create(this, { number: { value: this.number }, session: { value: current() } });
  }

  /** Throws where the book of the forms is not the one that is open now. */
  refuseOtherBook() {
    refuseOther(this.session);
  }

  /** Asks for a command on the pledge. */
  command(name, body, harmless) {
    return askBook("POST", `/pledges/${this.number}/${name}`, { body, harmless, begun: this.session });
  }

  redeem(receipt, paid) {
    return askHeld(receipt, "/redeem", { body: { paid }, harmless: false, begun: this.session });
  }

  async held(receipt) {
    const held = await heldBy(receipt, this.session);
    this.refuseOtherBook();
    return held;
  }

  whyDead(receipt) {
    return whyDead(receipt, this.session);
  }

  isLive(receipt) {
    return isLive(receipt, this.number, this.session);
  }

  newestReceipt() {
    return newestReceipt(this.number, this.session);
  }

  toldOfReceipts() {
    return toldOfReceipts(this.number);
  }

  /** The receipt that was scanned for this pledge, or an empty text. */
  get scanned() {
    return this.paper && this.statement && numberOf(this.paper) === this.number ? this.paper : "";
  }

  place() {
    const { reference } = this.known;
    const which = `Pledge ${this.number} of book ${current().book}`;
    return [which, ...(reference ? [", reference ", foreign(reference)] : [])];
  }

  /**
   * Draws the pledge anew. A fold that is open stays open, but for the one in which something was just done; and the
   * focus stays where it was.
   */
  draw(done = null) {
    const { statement } = this;
    const focused = document.activeElement;
    this.drawStatement();
    this.drawReckoning();
    const commands = byId("commands");
    redrawFolds(commands, () => commands.replaceChildren(this.notice, ...commandsOf(statement, this.ofShown())), done);
    byId("found").hidden = false;
    if (focused === this.notice) focused.focus({ preventScroll: true });
  }

  /** Draws the statement, which says so if it is known to be out of date. */
  drawStatement() {
    const { statement, known } = this;
    const place = byId("statement");
    const wasRead = place.contains(document.activeElement);
    this.isDrawnByBook = known.reference !== null;
    const [head, ...rest] = summaryOf({ statement, known, place: this.place() });
    place.replaceChildren(head, ...(this.isOutdated ? [this.outdatedLine()] : []), ...rest);
    if (wasRead) place.querySelector("h2").focus({ preventScroll: true });
  }

  /** The line that says that the statement is out of date, with the button that reads the pledge again. */
  outdatedLine() {
    const { number } = this;
    const notice = makeNotice();
    const said = `This is out of date: the pledge has changed since it was read at ${clockOf(this.readAt)}.`;
    const button = make("button", { type: "button", className: "plain" }, "Read the pledge again");
    const line = make("div", { className: "inline" }, make("p", { className: "loud", role: "status" }, said));
    line.append(buttons(button), notice);
    button.addEventListener("click", () => run({
      notice, within: line, reader: "broker", act: () => this.look(number), about: number, mayBeOvertaken: true,
    }));
    return line;
  }

  /** Draws the form that computes what will be owed, with the day that was typed. */
  drawReckoning() {
    const place = byId("owed-on");
    const typed = place.querySelector("[name=day]")?.value;
    const form = reckoningForm({ statement: this.statement, known: this.known, reader: "broker" });
    const title = make("h2", {}, "What will be owed on another day");
    place.replaceChildren(
      ...(form ? [make("section", { className: "card screen", id: "reckoning" }, title, form)] : [])
    );
    if (form && typed) form.elements.day.value = typed;
  }

  /** Shows the present pledge, with what may be done. What this page did itself is no news. */
  async look(number, { own = false, done = null } = {}) {
    const session = current();
    const found = this.fresh?.number === number ? this.fresh : await this.read(number);
    this.fresh = null;
    if (session !== current() || this.wanted !== number) return;
    const news = ledger.isNews(found, own);
    // What was typed for one pledge is not carried to another.
    if (this.drawn !== number) byId("commands").replaceChildren();
    this.drawn = number;
    this.statement = found;
    this.readAt = Date.now();
    this.isOutdated = false;
    ledger.mend(found);
    this.draw(done);
    if (news) ledger.anotherChanged({ isMissing: ledger.pledge(number) === null });
  }

  /**
   * Runs an act on the pledge, shows the pledge as it is then, and reports the result; and what others recorded
   * meanwhile. An act that records an entry has asked about that, unless a refusal came before its question. Another
   * act whose question names that calls the function that it gets, with the statement that it asks about.
   */
  async perform(act, { form, notice: line, title }, isEntry = false) {
    const { number, statement: shown } = this;
    const fields = fieldsOf(form);
    byId("new-receipt").replaceChildren();
    tell(this.notice, "");
    tell(byId("elsewhere"), "");
    const session = current();
    let said;
    let known = shown;
    const noteAsked = (asked) => { known = asked; };
    this.actingOn = number;
    const fault = await run({
      notice: line, within: byId("commands"), reader: "broker", about: number,
      act: async () => { said = await act(noteAsked); return said; },
    });
    if (this.actingOn === number) this.actingOn = null;
    if (session !== current()) return;
    if (this.wanted !== number || byId("pledge").hidden) this.sayElsewhere(number, { said, fault });
    if (fault instanceof Unreadable || this.statement?.number !== number) return;
    let place = title;
    try {
      await this.look(number, { own: !(fault instanceof Refused || fault instanceof Outdated), done: title });
    } catch {
      // The forms may be drawn anew once the book is read: the result of the act is reported above them.
      place = null;
      tell(line, "");
    }
    if (this.wanted !== number) {
      this.sayElsewhere(number, { said, fault });
      return;
    }
    this.saidOn = today();
    const isAsked = fault instanceof Outdated || (isEntry && !(fault instanceof Refused));
    const more = isAsked ? "" : othersInWords(known, this.statement);
    sayAfter({
      within: byId("commands"), notice: this.notice, title: place, fields, said, fault, reader: "broker", more,
    });
  }

  /** Reports the result of an act above all parts, where its pledge is not the one that is shown. */
  sayElsewhere(number, { said, fault }) {
    const { text, tone } = outcomeOf({ said, fault, reader: "broker" });
    if (text === "") return;
    sayElsewhere({ hash: `#pledge=${number}`, name: `Pledge ${number}`, text, tone });
    this.read(number).then((found) => ledger.mend(found), () => ledger.anotherChanged());
  }

  /** Waits for a copy of the book that has the pledge, and returns how many receipts the pledge has had by it. */
  async countReceipts() {
    await ledger.theBook();
    if (ledger.pledge(this.number) === null) await ledger.awaitReading();
    this.refuseOtherBook();
    return ledger.pledge(this.number)?.secrets.length ?? 0;
  }

  /** Shows a receipt that was found live, with the pledge as it is now, to be printed. Returns the pledge. */
  async showReceipt(receipt) {
    await this.countReceipts();
    const statement = await this.read();
    const { known } = this;
    if (!known.terms) throw new Error("the book does not have the pledge’s terms");
    if (this.wanted !== this.number || this.statement?.number !== this.number) throw new Outdated(ANOTHER);
    const { notice: said, readAnew } = this;
    byId("new-receipt").replaceChildren(receiptSheet({ statement, receipt, known, said, readAnew }));
    byId("new-receipt").scrollIntoView();
    return statement;
  }

  /**
   * Whether the pledge may be read again by itself. Not while a form is open: what came in between is asked about when
   * the form is sent.
   */
  get isIdle() {
    return this.statement !== null && this.wanted === this.number && this.actingOn === null
      && byId("commands").querySelector("details[open]") === null && document.querySelector("dialog") === null;
  }

  /** Says that the pledge could not be read again, where nothing else is said; or no longer says it, for null. */
  tellOld(readAt) {
    if (this.notice.textContent !== this.saidOld && this.notice.textContent !== "") return;
    this.saidOld = readAt === null
      ? "" : `The pledge could not be read again just now: what is shown was read at ${clockOf(readAt)}.`;
    tell(this.notice, this.saidOld);
  }

  /** Reads the pledge again that is shown, and draws it if it has changed. */
  async refresh() {
    if (!this.isIdle) return;
    recheckPaper(byId("new-receipt"));
    const { statement, number } = this;
    let found;
    try {
      found = await this.read();
    } catch {
      if (this.isIdle && this.statement === statement) this.tellOld(this.readAt);
      return;
    }
    if (!this.isIdle || this.statement !== statement) return;
    this.tellOld(null);
    this.readAt = Date.now();
    if (!this.isOutdated && JSON.stringify(found) === JSON.stringify(statement)) return;
    // Its paper may have another sum, or another end.
    byId("new-receipt").replaceChildren();
    await this.showChanged(found);
  }

  /** Shows the pledge as it was read again. What was said before may name another sum or end; a warning stays. */
  async showChanged(found) {
    this.fresh = found;
    await this.look(found.number);
    if (this.notice.classList.contains("bad")) return;
    tell(this.notice, CHANGED);
    this.saidOn = today();
  }

  /**
   * Reads the pledge of this number again at once, if it is the one that is shown: its paper is not right any more. If
   * a form is open, the statement says that it is out of date, and the form asks about the change when it is sent.
   */
  async readAnew(number) {
    const { statement } = this;
    if (statement?.number !== number) return;
    const found = await this.read(number).catch(() => null);
    if (this.statement !== statement || JSON.stringify(found) === JSON.stringify(statement)) return;
    if (found !== null && this.isIdle) {
      await this.showChanged(found);
      return;
    }
    this.isOutdated = true;
    this.drawStatement();
    // Such as that the tag is ready to print.
    if (!this.notice.classList.contains("bad")) tell(this.notice, "");
  }

  /** Takes away the paper, and the word that a receipt is live, where the book shows that it is not live any more. */
  dropDead() {
    const ofScanned = whyDeadByBook(this.scanned);
    const why = dropDeadPaper(byId("new-receipt")) ?? (this.notice.textContent === this.ofReceipt ? ofScanned : null);
    if (ofScanned !== null) this.paper = null;
    if (why === null) return;
    tell(this.notice, why, "bad");
    this.readAnew(this.number);
  }

  /** Forgets the receipt that was found, and leaves none in the form: its paper may be gone with the customer. */
  dropReceipt() {
    this.paper = null;
    const field = byId("commands").querySelector("[name=receipt]");
    if (field) field.value = field.defaultValue = "";
  }

  /** Takes away what was said on another day, or of a receipt: it names what was owed then. */
  clearOld() {
    if (this.saidOn !== today() || this.notice.textContent === this.ofReceipt) tell(this.notice, "");
  }

  /** Says what was to be said once the pledge is shown; else the pledge that was found has the focus. */
  sayMessage() {
    const said = this.message?.number === this.number ? this.message : null;
    if (said === null) {
      if (!byId("found").contains(document.activeElement)) moveFocus(byId("statement").querySelector("h2"));
      return;
    }
    this.message = null;
    const details = said.fold && foldOf(byId("commands"), said.fold);
    if (details) {
      details.open = true;
      // A form that was open already has kept its field.
      details.querySelector("[name=receipt]").value = this.scanned;
    }
    [this.saidOn, this.ofReceipt] = [today(), said.message];
    tell(this.notice, said.message, said.tone);
    moveFocus(this.notice);
    tellLater(this.notice, said);
  }
}

const desk = new Desk();

/** Another till, or the pawnor, may have changed the pledge that is shown. */
export const refreshPledge = () => desk.refresh();

/** The clerk has gone to another part. */
export const leavePledge = () => desk.dropReceipt();

export function clearPledge() {
  desk.forget();
  byId("found").hidden = true;
  for (const part of ["statement", "owed-on", "commands", "new-receipt"]) byId(part).replaceChildren();
  byId("finding").reset();
}

/** The search that began last. One that it has overtaken shows and opens nothing any more. */
let lastSearch = null;

/** Where the clerk is when a search begins: what it finds is opened only if the clerk is still there. */
export function startOfSearch() {
  lastSearch = { session: current(), hash: location.hash };
  return lastSearch;
}

/** Whether the clerk has gone to another part, pledge or book since a search began, or has begun another search. */
export const hasGoneOn = (begun) =>
  begun !== lastSearch || begun.session !== current() || begun.hash !== location.hash;

const NOT_OPENED = "It was found after you had gone on, so it was not opened.";

/**
 * Goes to a pledge that a search found, by the address; or shows it as it is now, if the page is there already. Its
 * statement may have been read just now; `paper` and `message` are those of the desk, if it was found by its receipt.
 * If the clerk has gone on meanwhile, it says so and goes nowhere; after a search that another one overtook, it says
 * nothing. The empty form is no place to go back to.
 */
export async function goTo(number, begun, { statement = null, ...more } = {}) {
  const hash = `#pledge=${number}`;
  if (begun !== lastSearch) return "";
  if (hasGoneOn(begun) && !(begun.session === current() && location.hash === hash)) {
    if (begun.session === current()) sayElsewhere({ hash, name: `Pledge ${number}`, text: NOT_OPENED, tone: "quiet" });
    return "";
  }
  if (!more.paper) desk.dropReceipt();
  Object.assign(desk, { fresh: statement, sought: number, ...more });
  if (location.hash === hash) await showPledge(String(number));
  else if (location.hash === "#pledge") location.replace(hash);
  else location.hash = hash;
  return "";
}

/** What is said of a receipt that still shows its pledge, although the pledge is over. */
const overMessage = (closing) => (closing
  ? `The article was sold on ${inShort(closing.day)}. ${SHOWS}`
  : `The period is over, and the article is the shop’s. ${SHOWS}`);

/** What is said of a live receipt. On a hold, or once the pledge is over, the article is not given back for it. */
function liveMessage({ status, owed, held, closing }) {
  if (!isOpen(status)) return { message: overMessage(closing), tone: "bad", fold: null };
  const live = `This receipt is live. ${inPounds(owed.owing)} is owed today.`;
  const barred = `${live} But the pledge is on hold: don’t hand out the article.`;
  if (held) return { message: barred, tone: "bad", fold: null };
  return { message: live, tone: "good", fold: REDEEM };
}

/** Opens the pledge of a receipt, or of the link of its code, and says whether the receipt is live. */
export async function openReceipt(typed, begun = startOfSearch()) {
  const receipt = readReceipt(typed, "wanted", ONE);
  const number = numberOf(receipt);
  const held = await heldBy(receipt, begun.session);
  if (held !== null) {
    return goTo(number, begun, { statement: held, paper: receipt, message: { number, ...liveMessage(held) } });
  }
  const { sentence, statement, later } = await whyDead(receipt, begun.session);
  if (statement === null) throw new Unreadable(sentence, "wanted", later);
  const message = { number, message: sentence, tone: "bad", fold: null, later };
  return goTo(number, begun, { statement, paper: null, message });
}

/** Shows no pledge any more. */
export function hidePledge() {
  byId("found").hidden = true;
  byId("new-receipt").replaceChildren();
  desk.dropReceipt();
  desk.statement = desk.wanted = null;
}

/** Looks at a pledge for which another may be asked meanwhile. */
async function lookAt(number) {
  try {
    await desk.look(number);
  } catch (fault) {
    if (desk.wanted === number) throw fault;
  }
}

/** Shows the present state of the pledge that the address names; without a number the form that finds one. */
export async function showPledge(detail) {
  if (detail === undefined) {
    hidePledge();
    return;
  }
  const number = Number(detail);
  desk.wanted = number;
  // What was searched for does not stay above another pledge.
  if (desk.sought !== number && !byId("finding").contains(document.activeElement)) byId("finding").reset();
  if (desk.message?.number !== number) desk.message = null;
  if (desk.message === null && desk.actingOn !== number) desk.clearOld();
  if (desk.paper && numberOf(desk.paper) !== number) desk.paper = null;
  if (desk.statement?.number !== number) {
    byId("new-receipt").replaceChildren();
    byId("found").hidden = true;
    tell(desk.notice, "");
  }
  const line = byId("finding").querySelector(".notice");
  const fault = await run({
    notice: line, within: byId("finding"), reader: "broker", act: () => lookAt(number), mayBeOvertaken: true,
  });
  if (desk.wanted !== number) return;
  if (fault) {
    byId("found").hidden = true;
    desk.message = null;
  } else if (desk.statement?.number === number) {
    desk.sayMessage();
    recheckPaper(byId("new-receipt"));
  }
}

/**
 * Once the book was read it names the reference, the terms and the days of grace of a pledge that is shown, and shows
 * which receipts died.
 */
export function redrawPledge() {
  if (!desk.statement || desk.actingOn === desk.number) return;
  desk.dropDead();
  if (!desk.isDrawnByBook && ledger.pledge(desk.number)) desk.draw();
}
