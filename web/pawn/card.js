/** One pledge of the pawnor's: its state, and what may be done. */
import { ask } from "../shared/api.js";
import { clockOf } from "../shared/clock.js";
import { CODES, isRefusal } from "../shared/codes.js";
import { today } from "../shared/days.js";
import { foreign, make } from "../shared/dom.js";
import { isFailedLook, tellFault } from "../shared/faults.js";
import { fieldsOf, makeNotice, redrawFolds, run, sayAfter, tell } from "../shared/forms.js";
import { readStatement } from "../shared/statement.js";
import { summaryOf } from "../shared/summary.js";
import { Unreadable } from "../shared/unreadable.js";
import { actionsOf, REDEEM } from "./actions.js";

/** The refusals of a receipt that opens nothing. */
const OPENS_NOTHING = [CODES.NoSuchReceipt, CODES.NoRoute, CODES.BadReceipt];

/** Titles and sentences for a receipt that opens nothing: by what was seen of it before. */
const DEAD = {
  redeemed: [
    "Redeemed, most likely",
    "The reply was lost, so this may have been done. The receipt opens nothing any more, as it is when a pledge is "
      + "redeemed. Ask the shop whether it was done.",
  ],
  seen: [
    "This receipt was replaced or used",
    "It opened its pledge before, and opens nothing now: a newer receipt replaced it, or the pledge was redeemed. "
      + "Ask at the shop.",
  ],
  unseen: [
    "This receipt opens no pledge",
    "The number of the shop’s book, or a character of the receipt, may be wrong: compare both with the paper. Or a "
      + "newer receipt replaced it, or the pledge was redeemed already. If the paper is right, ask at the shop.",
  ],
};

const NOT_DONE = "What you asked for just now was not done.";

/** Whether it is sure that an act was not done whose receipt opens nothing: a browser may send a redemption twice. */
const isSurelyUndone = (fault, title) =>
  isRefusal(fault, ...OPENS_NOTHING) && !fault.mayBeDone && title !== REDEEM;

/** What is shown in place of a pledge while the service is asked for it. */
const waiting = () => make("p", { className: "waiting", tabIndex: -1 }, "One moment…");

/** A pledge on the page. It looks at the service whenever something was done. */
export class Card {
  constructor(one, forget, changed) {
    const { book, receipt } = one;
    Object.assign(this, { one, book, receipt, changed, statement: null, readAt: 0, day: null });
    this.learn(one);
    // The act that is under way, until its result is reported.
    this.acting = Promise.resolve();
    this.isActing = false;
    // Whether its receipt was found to open nothing, and has opened nothing before.
    this.neverOpened = false;
    // Whether the page says, in place of the pledge, that the receipt opens nothing.
    this.saysDead = false;
    this.isShown = false;
    // The name of the field that had the focus when the pledge was hidden, or an empty text.
    this.typing = "";
    this.summary = make("div", { className: "summary" }, waiting());
    this.notice = makeNotice();
    this.actions = make("div", { className: "actions" });
    const forgetting = make("button", { type: "button", className: "link" }, "Put this receipt away");
    forgetting.addEventListener("click", () => forget(this));
    this.element = make(
      "article", { className: "card pledge" }, this.summary, this.notice, this.actions, make("footer", {}, forgetting),
    );
  }

  /** Takes over what a link says of the pledge: the receipt may have been typed before, or come by a shorter link. */
  learn(one) {
    const said = Object.entries(one).filter(([, value]) => value !== "" && value !== null);
    Object.assign(this.one, Object.fromEntries(said));
    // A tab may have kept a receipt from an older page, with fewer members.
    const { shop, rate, ref, terms = null, fiveDays = null } = this.one;
    Object.assign(this, { shop, rate, known: { reference: ref || null, fiveDays, terms, agreed: undefined } });
  }

  /** Asks the service something with this receipt. */
  ask(what, body, harmless) {
    const path = `/books/${this.book}/held${what}`;
    return ask(
      {
        method: what === "" ? "GET" : "POST", path, fields: { "Pledge-Receipt": this.receipt },
        body: body && JSON.stringify(body), harmless,
      }
    );
  }

  /**
   * Reads the present pledge, and shows it. Folds that are open stay open, but for the one in which something was
   * just done.
   */
  async look(done = null) {
    this.statement = await this.read();
    this.readAt = Date.now();
    this.day = today();
    this.isShown = this.one.wasSeen = true;
    // A redemption whose reply was lost was not done, if the pledge is open.
    this.neverOpened = this.saysDead = this.one.lostRedemption = false;
    const { statement, known } = this;
    const hasFocus = this.summary.contains(document.activeElement);
    this.summary.replaceChildren(
      ...summaryOf({ statement, known, place: this.place(), reader: "pawnor" }), ...this.told()
    );
    if (hasFocus) this.focus();
    redrawFolds(this.actions, () => this.actions.replaceChildren(...actionsOf(this)), done);
    this.actions.hidden = false;
    if (hasFocus && this.typing) this.actions.querySelector(`details[open] [name="${this.typing}"]`)?.focus();
    this.typing = "";
  }

  /**
   * Hides a pledge that was read on another day, until it is read again: more may be owed today. What was typed stays.
   * An act that is under way reads its pledge itself.
   */
  hideOld() {
    if (!this.isShown || this.isActing || this.day === today()) return;
    const focused = document.activeElement;
    const isTyping = this.actions.contains(focused);
    const hasFocus = isTyping || this.summary.contains(focused);
    const line = waiting();
    this.isShown = false;
    this.typing = isTyping ? focused.name ?? "" : "";
    this.summary.replaceChildren(line);
    this.actions.hidden = true;
    tell(this.notice, "");
    if (hasFocus) line.focus({ preventScroll: true });
    this.changed();
  }

  /** The present statement. */
  async read() {
    return readStatement((await this.ask("")).text);
  }

  /** Where the pledge is: the shop's name is the one that the receipt's link carries; if it has none, the book. */
  place() {
    const where = this.shop ? [" at ", foreign(this.shop)] : [`, number of the shop’s book: ${this.book}`];
    return [`Pledge ${this.statement.number}`, ...where];
  }

  /** What the receipt's link says and the statement lacks: an older link says only the rate, in words. */
  told() {
    const by = "Reference, days of grace, interest and safe keeping are as the receipt’s link says.";
    if (this.known.terms) return [make("p", { className: "small" }, by)];
    return this.rate ? [
      make("p", { className: "small" }, "Interest, as the receipt’s link says: ", foreign(this.rate), ".")
    ] : [];
  }

  /**
   * A look whose fault is shown in place of the pledge, after the act that is under way: what that act reports is not
   * left above a pledge that was read later. Returns whether there is a pledge.
   */
  async show() {
    await this.acting;
    tell(this.notice, "");
    if (this.isRedeemed) {
      this.drawRedeemed();
      return true;
    }
    this.hideOld();
    return this.showNow();
  }

  /** The same of a pledge that is shown. If it can't be read again, it stays, and the page says when it was read. */
  async refresh() {
    await this.acting;
    this.hideOld();
    if (!this.isShown) return this.show();
    try {
      await this.look();
      tell(this.notice, "");
    } catch (fault) {
      if (isFailedLook(fault)) {
        const when = clockOf(this.readAt);
        tell(this.notice, `It could not be read again just now: what is shown was read at ${when}.`, "bad");
      } else this.showFault(fault);
    }
    this.changed();
    return this.isShown;
  }

  /** The same at once, after an act whose fold is named. */
  async showNow(done = null) {
    try {
      await this.look(done);
    } catch (fault) {
      this.showFault(fault);
    }
    this.changed();
    return this.isShown;
  }

  /** Tries again by itself, if the pledge could not be shown. What was said of an act stays. */
  async tryAgain() {
    const isTried = !(this.isShown || this.isRedeemed || this.saysDead || this.isActing);
    if (isTried) await this.showNow();
  }

  focus() {
    this.summary.querySelector("h2")?.focus();
  }

  /** What is owed today, in pence; 0 where that is not known, or nothing is owed any more. */
  get owing() {
    const { statement, isShown } = this;
    return isShown && statement.owed && !statement.closing ? statement.owed.owing : 0;
  }

  showFault(fault) {
    this.isShown = false;
    const opensNothing = isRefusal(fault, ...OPENS_NOTHING);
    this.saysDead = opensNothing;
    const again = make("button", { type: "button", className: "plain" }, "Try again");
    again.addEventListener("click", () => this.show());
    const { wasSeen, lostRedemption } = this.one;
    this.neverOpened = opensNothing && !wasSeen;
    const seen = lostRedemption ? "redeemed" : wasSeen ? "seen" : "unseen";
    const [title, text] = opensNothing
      ? DEAD[seen]
      : ["The pledge can’t be shown just now", tellFault(fault, "pawnor")];
    const which = `Receipt ${this.receipt}, number of the shop’s book: ${this.book}`;
    const place = make("p", { className: "place" }, which);
    const parts = [make("h2", { tabIndex: -1 }, title), make("p", {}, text), place];
    this.summary.replaceChildren(...parts, ...(opensNothing ? [] : [again]));
    this.actions.replaceChildren();
  }

  /** Whether the pledge was redeemed by this page. Its receipt opens nothing any more, so there is nothing to look at. */
  get isRedeemed() {
    return this.one.redeemed !== undefined;
  }

  /** Shows that the pledge is redeemed; the tab keeps the sentence with the receipt. */
  showRedeemed(sentence) {
    const { number, article } = this.statement;
    this.one.redeemed = { number, article, sentence };
    this.drawRedeemed();
    this.focus();
    this.changed();
  }

  drawRedeemed() {
    const { number, article, sentence } = this.one.redeemed;
    const heading = make("h2", { tabIndex: -1 }, "Redeemed");
    const which = make("p", { className: "place" }, `Pledge ${number}: `, foreign(article));
    const more = make("p", { className: "more" }, "This receipt is worth nothing any more.");
    this.summary.replaceChildren(
      heading, which, make("div", { className: "state good" }, make("p", { className: "line" }, sentence), more),
    );
    this.actions.replaceChildren();
    this.isShown = false;
  }

  /**
   * Runs an act, shows the pledge as it is then, and reports the result: above, or in the form of the act if it was
   * refused.
   */
  perform(act, place) {
    this.isActing = true;
    this.acting = this.performNow(act, place).finally(() => { this.isActing = false; });
    return this.acting;
  }

  async performNow(act, { form, notice, title }) {
    tell(this.notice, "");
    const fields = fieldsOf(form);
    let said;
    const fault = await run(
      { notice, within: this.element, reader: "pawnor", act: async () => { said = await act(); return said; } }
    );
    if (fault instanceof Unreadable || said?.look === false) return;
    await this.showNow(title);
    if (this.saysDead && (this.one.lostRedemption || isRefusal(fault, ...OPENS_NOTHING))) {
      if (isSurelyUndone(fault, title)) tell(this.notice, NOT_DONE, "bad");
      this.focus();
      return;
    }
    sayAfter({ within: this.actions, notice: this.notice, title, fields, said, fault, reader: "pawnor" });
  }
}
