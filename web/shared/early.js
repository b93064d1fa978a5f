/*
 * What a page does before its own script has come: it holds a press of a button, and says so. `tools/web` puts this
 * text and the styles into the page, so that both come with it. `shared/start.js` sends what was held.
 */
{
  let held = null;

  /** The press sends nothing yet: an address with the form's fields would hold a key. */
  const hold = (event) => {
    event.preventDefault();
    event.stopImmediatePropagation();
    held = { form: event.target, submitter: event.submitter };
    event.target.querySelector(".notice").textContent = "One moment… This is sent once the page has loaded.";
  };
  addEventListener("submit", hold, true);

  /** Holds nothing more, and gives the press that was held, or null. */
  window.takeHeld = () => {
    removeEventListener("submit", hold, true);
    return held;
  };
}
