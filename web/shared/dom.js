/** Elements of a page, made and found. No text becomes markup: what is put in is a text or a node. */

/** The element with this id, which the page has. */
export const byId = (id) => document.getElementById(id);

/**
 * A new element with these properties and these children: nodes, or texts that are shown as they are. Children that are
 * null or an empty text are left out.
 */
export function make(tag, properties = {}, ...children) {
  const element = Object.assign(document.createElement(tag), properties);
  element.append(...children.filter((child) => child !== null && child !== "" && child !== undefined));
  return element;
}

/** A text that another person wrote, kept apart from the direction of the text around it. */
export const foreign = (text) => make("bdi", { textContent: text });

/** A list of names and their values, as pairs. */
export function facts(pairs) {
  return make(
    "dl", { className: "facts" },
    ...pairs.map(([name, value]) => make("div", {}, make("dt", {}, name), make("dd", {}, value)))
  );
}
