/** The square code of a link as a picture, by the package qrcode-generator. */
import qrcode from "qrcode-generator";

/** The light edge that a reader wants round a code, in modules. */
const EDGE = 4;
const SPACE = "http://www.w3.org/2000/svg";

function element(name, attributes) {
  const made = document.createElementNS(SPACE, name);
  for (const [attribute, value] of Object.entries(attributes)) made.setAttribute(attribute, value);
  return made;
}

/** The code of a text without letters beyond ASCII, in the smallest size that holds it, as a picture of this name. */
export function pictureOf(text, name) {
  const code = qrcode(0, "M");
  code.addData(text);
  code.make();
  const places = [...Array(code.getModuleCount()).keys()];
  const squares = places.flatMap(
    (row) => places.filter((column) => code.isDark(row, column)).map((column) => `M${column} ${row}h1v1h-1z`)
  );
  const side = places.length + 2 * EDGE;
  const box = [-EDGE, -EDGE, side, side].join(" ");
  const picture = element("svg", { viewBox: box, role: "img", "aria-label": name });
  picture.append(element("path", { d: squares.join("") }));
  return picture;
}
