/**
 * The book in the page: read whole from the export, the only list that the service has, and mended after each command
 * by the statement of its pledge. It finds and sorts. What is said of one pledge is its statement, read just then.
 */
import { readBook, readHead } from "../shared/book.js";
import { today } from "../shared/days.js";
import { firstDayFrom, owedOn } from "../shared/owing.js";
import { statusOn } from "../shared/period.js";
import { isOpen } from "../shared/statuses.js";
import { folded } from "../shared/texts.js";
import { askBook, current } from "./session.js";

/** The book is read anew by itself when it is as old as this, in milliseconds. */
const OLD = 10 * 60_000;
/** What another changed is a reason to read it anew, but not more often than this, nor for a tenth of the time. */
const SOON = 30_000;
const AT_ONCE = 2000;
const SHARE = 10;
/** A large book is a while in the making before its first byte comes. */
const SILENCE = 60_000;

const isPair = (one, other) => one?.day === other?.day && one?.window === other?.window && one?.state === other?.state;

/** What is not known of a pledge before the book was read. */
const UNKNOWN = { reference: null, fiveDays: null, terms: null, agreed: undefined };

class Ledger {
  constructor() {
    this.listeners = [];
    this.awaited = 0;
    this.reckoned = new WeakMap();
    this.clear();
  }

  /**
   * `book` is null before it was read; `head` is the terms and the number of pledges, which come first; `again` are the
   * mends since the reading began that is under way, which does not know of them.
   */
  clear() {
    Object.assign(this, {
      book: null, head: null, readAt: 0, triedAt: 0, took: 0, reading: null, fault: null, isStale: false, again: [],
      progress: null,
    });
  }

  /** Calls the listener whenever the book was read or mended, is being read, or could not be. */
  listen(listener) {
    this.listeners.push(listener);
  }

  /** Whether an act of this page waits until the book is read. */
  get isAwaited() {
    return this.awaited > 0 && this.reading !== null;
  }

  /** Reads the book for an act that waits for it. */
  async awaitReading() {
    this.awaited += 1;
    try {
      await this.read();
    } finally {
      this.awaited -= 1;
    }
  }

  /** Reads the book from now on: a reading that began before may not have what is asked for. */
  async readAgain() {
    if (this.reading) await this.reading.done.catch(() => {});
    await this.read();
  }

  tell(change) {
    this.listeners.forEach((listener) => listener(change));
  }

  forget() {
    this.clear();
    this.tell({ sort: "forgotten" });
  }

  /** Keeps the head that a reading found which began then, if none that began later was found. */
  keepHead(head, began) {
    if (head === null || began < (this.head?.began ?? -1)) return;
    this.head = { ...head, began };
    if (this.book) this.book.terms = head.terms;
  }

  /** The present head of the book: the beginning of its text, of which the rest is not read. */
  async readHead() {
    const [began, session] = [performance.now(), current()];
    const { text } = await askBook("GET", "/export", { silence: SILENCE, enough: (part) => readHead(part) !== null });
    const head = readHead(text);
    if (session === current()) this.keepHead(head, began);
    return head;
  }

  /** Puts what was read in the page, unless another book was opened meanwhile. */
  async fetchBook(mine) {
    const began = performance.now();
    let isHeadKnown = false;
    const watch = ({ count, whole, text }) => {
      if (mine !== this.reading) return;
      if (!isHeadKnown && readHead(text) !== null) {
        isHeadKnown = true;
        this.keepHead(readHead(text), began);
      }
      this.progress = { count, whole };
      this.tell({ sort: "progress" });
    };
    try {
      const { text } = await askBook("GET", "/export", { watch, silence: SILENCE, isLarge: true });
      const found = readBook(text);
      if (mine !== this.reading) return;
      Object.assign(this, { book: found, readAt: Date.now(), took: performance.now() - began, fault: null });
      if (this.head.terms.length > found.terms.length) found.terms = this.head.terms;
      this.isStale = false;
      this.again.splice(0).forEach((mend) => mend());
    } catch (why) {
      if (mine === this.reading) this.fault = why;
      throw why;
    }
  }

  /** Reads the book anew. A call during a reading returns that reading. */
  read() {
    if (this.reading) return this.reading.done;
    const mine = { done: null };
    this.reading = mine;
    this.triedAt = Date.now();
    this.again = [];
    this.progress = null;
    this.tell({ sort: "reading" });
    mine.done = this.fetchBook(mine).finally(() => {
      if (this.reading !== mine) return;
      this.reading = null;
      this.tell({ sort: this.fault ? "failed" : "read" });
    });
    return mine.done;
  }

  /** The book, read if it was not yet. */
  async theBook() {
    if (this.book === null) await this.awaitReading();
    return this.book;
  }

  /**
   * Reads the book anew where it is old, where another changed it, or where it could not be read at first. What another
   * changed is read as soon as is said, but not all the time.
   */
  readIfOld(soonest = SOON) {
    const age = Date.now() - this.readAt;
    const soon = Math.max(soonest, SHARE * this.took);
    const isOld = this.book !== null && (age >= OLD || (this.isStale && age >= soon));
    const hasFailed = this.book === null && this.fault !== null && Date.now() - this.triedAt >= SOON;
    if (!this.reading && (isOld || hasFailed)) this.read().catch(() => {});
  }

  /** Another changed the book: it is read anew, at once or a little later; sooner where it lacks a pledge. */
  anotherChanged({ isMissing = false } = {}) {
    this.isStale = true;
    this.readIfOld(isMissing ? AT_ONCE : SOON);
  }

  /** The pledge of a number, or null. */
  pledge(number) {
    return this.book?.pledges[number - 1] ?? null;
  }

  /** The pledges of a reference, without regard to case and to blanks at its ends. */
  withReference(reference) {
    const wanted = folded(reference);
    return this.book ? this.book.pledges.filter((pledge) => folded(pledge.reference) === wanted) : [];
  }

  /** The terms that a pledge keeps, or null where they are not known. */
  termsOf(pledge) {
    return this.book?.terms.find(({ version }) => version === pledge?.version) ?? null;
  }

  /** What the book has of a pledge and its statement lacks. */
  known(number) {
    const pledge = this.pledge(number);
    if (!pledge) return UNKNOWN;
    const { reference, fiveDays, agreed } = pledge;
    return { reference, fiveDays, agreed, terms: this.termsOf(pledge) };
  }

  /**
   * What is owed on a pledge today, or on the day of its last entry if that is later, computed from the book; null where
   * nothing is owed any more or its terms are not known. It is computed once, for as long as the pledge stays as it is.
   */
  owed(pledge) {
    const now = today();
    const { entries, ends, state } = pledge;
    const before = this.reckoned.get(pledge);
    if (before?.now === now && before.entries === entries && before.ends === ends && before.state === state) {
      return before.owed;
    }
    const terms = isOpen(statusOn(pledge, now)) ? this.termsOf(pledge) : null;
    const owed = terms && owedOn(pledge, terms, firstDayFrom(now, pledge));
    this.reckoned.set(pledge, { now, entries, ends, state, owed });
    return owed;
  }

  /**
   * Whether a statement has something that the book in the page lacks: after a command of this page's own, another
   * entry in addition to its own.
   */
  isNews(statement, own) {
    const pledge = this.pledge(statement.number);
    if (!pledge) return this.book !== null;
    if (own) return statement.entries.length > pledge.entries.length + 1;
    const state = ["redeemed", "sold"].includes(statement.status) ? statement.status : "open";
    return pledge.state !== state || pledge.held !== statement.held || pledge.ends !== statement.ends
      || pledge.entries.length !== statement.entries.length || !isPair(pledge.booking, statement.booking);
  }

  /** Changes the book in the page, and once more when the reading is done that is under way. */
  change(mend) {
    if (this.reading) this.again.push(mend);
    if (this.book) mend();
  }

  /** Mends the book by a pledge's statement. */
  mend(statement) {
    const { number, entries, extensions, ends, held, booking, closing, status } = statement;
    const closed = closing && { state: status, closed: closing.day, amount: closing.paid ?? closing.net };
    this.change(() => {
      const pledge = this.pledge(number);
      if (pledge) Object.assign(pledge, { entries, extensions, ends, held, booking }, closed);
    });
    if (this.pledge(number)) this.tell({ sort: "mended", number });
  }

  /** Adds a pledge that was taken just now, with its first receipt and the version of its terms. */
  addTaken({ opening, statement, receipt, version }) {
    const { number, article, kind, credit, taken, ends, held, booking, entries, extensions } = statement;
    this.change(() => {
      if (number !== this.book.pledges.length + 1) return;
      this.book.pledges.push({
        number, article, kind, credit, taken, ends, held, booking, entries, extensions,
        reference: opening.ref, agreed: opening.agreed, fiveDays: opening.five_days, version, changed: taken,
        state: "open", closed: null, amount: null,
        secrets: [{ day: taken, paper: "opening", secret: receipt.slice(receipt.indexOf("-") + 1) }],
      });
    });
    if (this.pledge(number) === null && this.book) this.anotherChanged({ isMissing: true });
    this.tell({ sort: "mended", number });
  }

  /** Notes the receipt that a declaration made. */
  addReceipt(receipt, paper) {
    const [number] = receipt.split("-");
    const secret = receipt.slice(number.length + 1);
    this.change(() => {
      const secrets = this.pledge(Number(number))?.secrets;
      if (secrets && secrets.every((one) => one.secret !== secret)) secrets.push({ day: today(), paper, secret });
    });
  }
}

/** The book of this page. */
export const ledger = new Ledger();
