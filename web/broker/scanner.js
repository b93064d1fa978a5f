/**
 * A scanner types as a keyboard does. What it types while no field for a text has the focus is found, if it looks like
 * a receipt; and so is what it types into the form of a new pledge, where no receipt belongs. A question that is open is
 * not answered by the Enter that ends a scan, and nothing is found meanwhile.
 */
import { byId } from "../shared/dom.js";
import { isReceiptLike } from "../shared/receipts.js";
import { current } from "./session.js";

/** A text can be typed here: a scan is typed into it. */
const TEXTS = "textarea, input:not([type=date], [type=radio], [type=checkbox], [type=file])";

/** Keys that are further apart than this, in milliseconds, are not one text. */
const APART = 1000;

let typed = "";
let last = 0;
/** The field that had the focus when the text began, and its value then: a scan changes a day. */
let before = null;

function put(field, value) {
  field.value = value;
  field.dispatchEvent(new Event("input", { bubbles: true }));
}

/** Finds what was scanned as if it were typed under “Find a pledge”. */
function find(text) {
  location.hash = "pledge";
  byId("finding").elements.wanted.value = text;
  byId("finding").querySelector("button").click();
}

/** A receipt in the form of a new pledge is found once it is entered, and does not stay in the form. */
function onTakingKey(event) {
  const field = event.target;
  if (event.key !== "Enter" || !field.matches("#taking input") || !isReceiptLike(field.value)) return;
  event.preventDefault();
  const scanned = field.value;
  put(field, "");
  find(scanned);
}

/** Finds what was typed beside all fields for a text: a day that was changed by it is put back. */
function findTyped() {
  if (before.field.matches("input[type=date]")) put(before.field, before.value);
  find(typed);
}

function onKey(event) {
  if (current() === null) return;
  if (event.target.matches(TEXTS)) {
    onTakingKey(event);
    return;
  }
  if (event.timeStamp - last > APART) typed = "";
  if (typed === "") before = { field: event.target, value: event.target.value };
  last = event.timeStamp;
  if (event.key.length === 1 && !event.ctrlKey && !event.metaKey) typed += event.key;
  if (event.key !== "Enter") return;
  if (isReceiptLike(typed)) {
    event.preventDefault();
    if (!document.querySelector("dialog")) findTyped();
  }
  typed = "";
}

export const setUpScanner = () => document.addEventListener("keydown", onKey);
