/**
 * The start of a page. Its HTML has a sentence that is seen after some seconds, and that goes once the page has
 * started: so it stays in a browser that can't read the script, or lacks what the page needs.
 */
import { onClock, wrongBy } from "./clock.js";
import { countDays, inWords, today } from "./days.js";
import { byId } from "./dom.js";

const MINUTE = 60_000;
const HOUR = 60 * MINUTE;
const DAY = 24 * HOUR;

/** Whether the browser has dialogs, and reports which button sent a form: Safari 15.4 does, and others of its time. */
const isServed = () => "HTMLDialogElement" in window && "SubmitEvent" in window && "submitter" in SubmitEvent.prototype;

/** How much a clock is wrong, in its largest unit. */
function howMuch(milliseconds) {
  const count = Math.abs(milliseconds);
  if (count >= DAY) return `about ${countDays(Math.round(count / DAY))}`;
  if (count >= HOUR) return `about ${Math.round(count / HOUR)} h`;
  return `${Math.round(count / MINUTE)} min`;
}

/** Says so where this computer's clock is wrong. */
function showClock() {
  const wrong = wrongBy();
  const line = byId("clock-line");
  line.hidden = wrong === 0;
  if (wrong === 0) return;
  line.textContent = `The clock of this computer is ${howMuch(wrong)} ${wrong > 0 ? "ahead" : "behind"}. This page `
    + `computes with the service’s day, ${inWords(today())}. Have the clock set right.`;
}

/** Sends the form whose button was pressed before the page had started, as it is filled now. */
function sendHeld() {
  const held = window.takeHeld?.() ?? null;
  if (held === null) return;
  const { form, submitter } = held;
  form.dispatchEvent(new SubmitEvent("submit", { bubbles: true, cancelable: true, submitter }));
}

/** Starts a page, where the browser has what it needs. */
export function startPage(start) {
  if (!isServed()) return;
  onClock(showClock);
  start();
  byId("starting").remove();
  sendHeld();
}
