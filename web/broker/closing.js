/** The question before the book is closed. It is asked only if something would be lost. */
import { underWay } from "../shared/forms.js";
import { confirmed } from "../shared/questions.js";

/** Fields of these kinds keep no text that was typed. */
const UNTYPED = ["radio", "checkbox", "file", "submit", "button"];

const isTyped = ({ type, value, defaultValue }) =>
  defaultValue !== undefined && !UNTYPED.includes(type) && value !== defaultValue;

/** Whether a form, or what is around several, sends something. One that only looks for something is `inline`. */
const isOfAct = (one) =>
  one.closest("section.place") && !one.classList.contains("inline") && !one.closest("#owed-on");

/** Whether a form can be seen if its part is shown. */
const isUnfolded = (form) => form.closest("details")?.open !== false;

/** What a form is called on the page: its fold, or the tab of its part. */
const nameOf = (form) => (form.closest("details")?.firstChild
  ?? document.querySelector(`#places a[href="#${form.closest("section.place").id}"]`)).textContent;

/** What would be lost, as lines of the question. */
function linesOfLoss() {
  const awaited = [...underWay].filter(isOfAct);
  const isUnsent = (form) => isOfAct(form) && isUnfolded(form) && !awaited.some((one) => one.contains(form))
    && [...form.elements].some(isTyped);
  const lines = [...document.forms].filter(isUnsent).map(
    (form) => `What you typed under “${nameOf(form)}” was not sent, and is lost then.`
  );
  if (awaited.length > 0) lines.push(
    "The service has not answered yet what you sent. The result will be shown above the form that opens a book."
  );
  return lines;
}

/** Whether the book is to be closed. */
export async function mayClose() {
  const lines = linesOfLoss();
  if (lines.length === 0) return true;
  return confirmed({
    title: "Close the book?", lines: [...lines, "To open the book again, you need its key."], yes: "Close the book",
    no: "Keep it open",
  });
}
