/** The form that chooses the day of a part: a day and its neighbours. The address names the day, but not today. */
import { inWords, plusDays, seenFrom, today } from "../shared/days.js";
import { byId, make } from "../shared/dom.js";
import { onSend } from "../shared/forms.js";

/** The ids of each part's form and title begin so. */
const FRONTS = { today: "sheet", till: "till" };

/** The day of each part that its form shows, if none was typed since. */
const shown = {};

const formOf = (part) => byId(`${FRONTS[part]}-day`);

/** Goes to the day that the form says; or calls `again` where that day is shown already. Returns the form's notice. */
export function setUpDayForm(part, again) {
  return onSend(formOf(part), "broker", async ({ day }, button) => {
    const wanted = plusDays(day, Number(button?.value ?? 0));
    const hash = wanted === today() ? `#${part}` : `#${part}=${wanted}`;
    if (location.hash === hash) await again(wanted);
    else location.hash = hash;
    return "";
  });
}

/** Puts a day in the part's form, whatever was typed there. */
export function putDay(part, day) {
  formOf(part).elements.day.value = day;
  shown[part] = day;
}

/**
 * Shows a day in the part's title, after the words before it; and in its form, unless another was typed since. Paper is
 * read on other days, so how far a day is off is on the screen alone.
 */
export function showDayOf(part, day, { name, isToday }) {
  if (shown[part] !== day) putDay(part, day);
  const front = name ? `${name}, ` : "";
  byId(`${FRONTS[part]}-title`).replaceChildren(
    ...(day === today() ? [`${front}${isToday}, ${inWords(day)}`]
      : [`${front}${inWords(day)}`, make("span", { className: "screen" }, `, ${seenFrom(today(), day)}`)])
  );
}
