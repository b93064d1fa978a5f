/** Forms that ask the service, and the line under each that reports the result. */
import { make } from "./dom.js";
import { fieldOf, isFailedLook, tellFault } from "./faults.js";

/** After so many milliseconds it is said that the service has not answered yet. */
const LONG = 4000;
/** How often a line that waits is looked at. */
const LOOK = 400;

let made = 0;

/** An id that no other element of the page has. */
const newId = (front) => { made += 1; return `${front}-${made}`; };

/** Says something in a notice: "good", "bad" or "quiet". An empty text hides it. */
export function tell(notice, text, tone = "quiet") {
  notice.textContent = text;
  notice.className = `notice ${tone}`;
}

/** A line that screen readers speak when it changes. */
export const makeNotice = () =>
  make("p", { className: "notice quiet", role: "status", tabIndex: -1, id: newId("notice") });

/** Ties a refusal to the field that it speaks of, in the notice's own form if it has one, and returns that field. */
function markField(within, notice, name) {
  const place = notice.closest("form") ?? within;
  const field = name && place.querySelector(`[name="${name}"]:not([type=radio])`);
  if (!field) return null;
  field.setAttribute("aria-invalid", "true");
  field.setAttribute("aria-errormessage", notice.id);
  return field;
}

function clearMarks(within) {
  for (const field of within.querySelectorAll("[aria-invalid]")) {
    field.removeAttribute("aria-invalid");
    field.removeAttribute("aria-errormessage");
  }
}

let explained = () => null;

/** Fields of searches into which something was typed since their forms were sent. */
const typedInto = new WeakSet();

/** Whether a search is being typed or scanned into its field. */
const isSearchTyped = () =>
  typedInto.has(document.activeElement) && document.activeElement.offsetParent !== null;

/** Moves the focus, unless a search is being typed: the rest of a scan would be lost. */
export function moveFocus(target, options) {
  if (!isSearchTyped()) target.focus(options);
}

/** Has a wait explained: the function returns a sentence, or null if it has none. */
export const explainWaiting = (explain) => { explained = explain; };

/** By its notice: the act that began last. Only that one says in it what came of it. */
const newest = new WeakMap();

/** The elements within which an act is under way that no other may overtake. */
export const underWay = new Set();

/** Where acts belong, and how the result of one is reported whose form is out of sight by then. */
let sight = { mark: () => null, report: () => false };

/**
 * Has the results of acts reported whose forms are out of sight. `mark` returns what an act belongs to when it begins;
 * `report` gets that, the notice, whether the act was a look alone, and the text and tone of its result; it returns
 * whether the notice is to say nothing.
 */
export const watchActs = (watcher) => { sight = watcher; };

/** Says what the page waits for, and after a while that it still does. Returns a function that ends this. */
function tellWaiting(notice, mine) {
  let begun = Date.now();
  const say = () => {
    if (newest.get(notice) !== mine) return;
    if (document.querySelector("dialog")) begun = Date.now();
    const isLong = Date.now() - begun >= LONG;
    const text = explained() ?? (isLong ? "The service has not answered yet. Waiting a little longer…" : "One moment…");
    if (notice.textContent !== text) tell(notice, text);
  };
  say();
  const timer = setInterval(say, LOOK);
  return () => clearInterval(timer);
}

/** Says in a notice the better sentence that was promised, if it still says the first. */
export async function tellLater(notice, { message, later }) {
  const better = await later;
  if (better && notice.textContent === message) tell(notice, better, "bad");
}

/**
 * Runs an act with its buttons out of use, unless it is one that another may overtake, and says in the notice what came
 * of it, unless another act began there meanwhile. The act returns the sentence of its success, or a sentence with its
 * tone. `about` is the number of its pledge, if it has one. Returns the fault, or null.
 */
export async function run({ notice, within, reader, act, about = null, mayBeOvertaken = false }) {
  const buttons = mayBeOvertaken ? [] : [...within.querySelectorAll("button")].filter((button) => !button.disabled);
  buttons.forEach((button) => { button.disabled = true; });
  clearMarks(within);
  if (!mayBeOvertaken) underWay.add(within);
  const mine = {};
  newest.set(notice, mine);
  const mark = sight.mark();
  const endWaiting = tellWaiting(notice, mine);
  let said = "";
  let fault = null;
  try {
    said = await act();
  } catch (found) {
    fault = found;
  } finally {
    endWaiting();
    underWay.delete(within);
    buttons.forEach((button) => { button.disabled = false; });
  }
  const isLook = mayBeOvertaken || isFailedLook(fault);
  const isReported = sight.report(mark, { notice, about, isLook, ...outcomeOf({ said, fault, reader }) });
  if (newest.get(notice) !== mine) return fault;
  if (isReported) {
    tell(notice, "");
    return fault;
  }
  let field = null;
  if (fault) {
    tell(notice, tellFault(fault, reader), "bad");
    field = markField(within, notice, fieldOf(fault));
    tellLater(notice, fault);
  } else tell(notice, said?.sentence ?? said ?? "", said?.tone ?? "good");
  const target = field?.isConnected ? field : notice;
  if (notice.textContent && target.isConnected) moveFocus(target, { preventScroll: false });
  // What is scanned or typed next takes the place of what was not found.
  if (mayBeOvertaken && !isSearchTyped()) field?.select();
  return fault;
}

/** The fields of a form as texts. */
export const fieldsOf = (form) => Object.fromEntries(new FormData(form));

/** Runs the act whenever the form is sent. The act gets the form's fields as texts, and the button that sent it. */
export function onSend(form, reader, act) {
  const notice = form.querySelector(".notice") ?? form.appendChild(makeNotice());
  form.addEventListener("submit", (event) => {
    event.preventDefault();
    const fields = fieldsOf(form);
    run({ notice, within: form, reader, act: () => act(fields, event.submitter) });
  });
  return notice;
}

/**
 * The same for an act that only looks for something: the form stays in use, and what is sent next overtakes the act
 * that is under way. What was sent is selected, so that the next scan takes its place.
 */
export function onSearch(form, reader, act) {
  const notice = form.querySelector(".notice") ?? form.appendChild(makeNotice());
  let sought = null;
  form.addEventListener("input", ({ target }) => typedInto.add(target));
  form.addEventListener("submit", async (event) => {
    event.preventDefault();
    for (const one of form.elements) {
      typedInto.delete(one);
      if (one === document.activeElement) one.select?.();
    }
    const fields = fieldsOf(form);
    const text = JSON.stringify(fields);
    // Enter that is held down sends the form many times.
    if (text === sought) return;
    sought = text;
    await run({ notice, within: form, reader, act: () => act(fields), mayBeOvertaken: true });
    if (text === sought) sought = null;
  });
  return notice;
}

/** A form in a fold, with its notice under it, which acts when it is sent. */
export function fold(title, form, act) {
  const notice = form.appendChild(makeNotice());
  form.addEventListener("submit", (event) => {
    event.preventDefault();
    act({ ...fieldsOf(form), button: event.submitter?.value }, { form, notice, title });
  });
  const details = make("details", { className: "action" }, make("summary", {}, title), form);
  details.addEventListener("toggle", () => details.open || tell(notice, ""));
  return details;
}

/** The fold of this title within an element, or null. */
export const foldOf = (within, title) =>
  [...within.querySelectorAll("details")].find((one) => one.firstChild.textContent === title) ?? null;

/** Puts what was typed back into a form that was made anew. */
export function fillAgain(form, fields) {
  for (const [name, value] of Object.entries(fields)) {
    const input = form.elements[name];
    if (input?.type === "checkbox") input.checked = true;
    else if (input && input.type !== "file") input.value = value;
  }
}

/**
 * Has the folds within an element made anew. Those that were open are open again, with what was typed in them and with
 * the focus; but not the one in which something was just done.
 */
export function redrawFolds(within, redraw, done = null) {
  const open = [...within.querySelectorAll("details[open]")].map((details) => {
    const form = details.querySelector("form");
    return {
      title: details.firstChild.textContent, fields: form ? fieldsOf(form) : {},
      focused: details.contains(document.activeElement) ? document.activeElement.name : null,
    };
  });
  redraw();
  for (const { title, fields, focused } of open) {
    const details = title === done ? null : foldOf(within, title);
    const form = details?.querySelector("form");
    if (details) details.open = true;
    if (form) fillAgain(form, fields);
    if (form && focused) form.elements[focused]?.focus?.();
  }
}

/** The result of an act as a text with its tone: of its fault, or of what it returned. */
export const outcomeOf = ({ said, fault, reader }) => ({
  text: fault ? tellFault(fault, reader) : said?.sentence ?? said ?? "", tone: fault ? "bad" : said?.tone ?? "good",
});

/**
 * Reports the result of an act after which all folds were made anew: in the notice above them if it was done, else in
 * the fold of that title, which is opened again with what was typed. `more` is said after it, if it is no empty text.
 */
export function sayAfter({ within, notice, title, fields, said, fault, reader, more = "" }) {
  const details = foldOf(within, title);
  const { text: result, tone } = outcomeOf({ said, fault, reader });
  const text = more ? `${result} ${more}` : result;
  if (tone === "good" || !details) {
    tell(notice, text, tone);
    return moveFocus(notice);
  }
  const form = details.querySelector("form");
  const line = form.querySelector(".notice");
  details.open = true;
  fillAgain(form, fields);
  tell(line, text, tone);
  return moveFocus(markField(form, line, fault && fieldOf(fault)) ?? line);
}

/** A field of a form with its label above it, and with a hint under it if there is one. */
export function field(label, input, hint = null) {
  input.id = newId("field");
  const name = make("label", { className: "name", htmlFor: input.id }, label);
  const said = hint && make("span", { className: "hint", id: `${input.id}-hint` }, hint);
  if (said) input.setAttribute("aria-describedby", said.id);
  return make("div", { className: "field" }, name, input, said);
}

export const buttons = (...all) => make("div", { className: "buttons" }, ...all);
