/** A question before what can't be taken back. */
import { inWords, today } from "./days.js";
import { foreign, make } from "./dom.js";
import { isBarred } from "./statuses.js";

/** How often an open question looks at the day, in milliseconds. */
const LOOK = 1000;

let asked = 0;

/** A line of a question: a text, or several nodes. */
const lineOf = (line) => make("p", {}, ...(Array.isArray(line) ? line : [line]));

/**
 * Which pledge a question is about: another one may be shown by the time that it is asked. A hold is named in each
 * question, whatever it is about.
 */
const aboutOf = (statement) =>
  [`Pledge ${statement.number}: `, foreign(statement.article), isBarred(statement) ? ". It is on hold." : ""];

/** A line that is empty until a new day begins: a question that is open then names days and sums of the day before. */
function dayLine() {
  const line = make("p", { role: "status" });
  const day = today();
  const timer = setInterval(() => {
    if (today() === day) return;
    clearInterval(timer);
    line.className = "loud";
    line.textContent = `A new day has begun since this was asked. Days and sums in it are those of ${inWords(day)}.`;
  }, LOOK);
  return { line, end: () => clearInterval(timer) };
}

/**
 * Asks in a dialog, and returns whether the answer was yes. `about` is the statement of the pledge in question, if there
 * is one. Escape is no; so is going to another address, after which the question would be above something else.
 */
export function confirmed({ title, about = null, lines, yes, no }) {
  asked += 1;
  const heading = make("h2", { id: `question-${asked}` }, title);
  const said = [about && aboutOf(about), ...lines].filter(Boolean).map(lineOf);
  const { line, end } = dayLine();
  const text = make("div", { className: "asked", id: `question-${asked}-text` }, line, ...said);
  const dialog = make("dialog", { className: "question" }, heading, text);
  const agree = make("button", { type: "button", className: "grave" }, yes);
  const refuse = make("button", { type: "button", className: "plain", autofocus: true }, no);
  dialog.append(make("div", { className: "buttons" }, agree, refuse));
  dialog.setAttribute("aria-labelledby", heading.id);
  dialog.setAttribute("aria-describedby", text.id);
  document.body.append(dialog);
  dialog.showModal();
  // Where the text is too long for the screen, the keys can move it.
  if (text.scrollHeight > text.clientHeight) text.tabIndex = 0;
  const leave = () => dialog.close("no");
  addEventListener("hashchange", leave);
  return new Promise((answer) => {
    agree.addEventListener("click", () => dialog.close("yes"));
    refuse.addEventListener("click", leave);
    dialog.addEventListener("close", () => {
      removeEventListener("hashchange", leave);
      end();
      dialog.remove();
      answer(dialog.returnValue === "yes");
    });
  });
}

/** What is said where a question was open over midnight, and is asked again. */
export const NEW_DAY = "A new day has begun since you were asked.";

/** What is said where the answer was no. */
export const NOTHING_DONE = { sentence: "Nothing was done.", tone: "quiet" };
