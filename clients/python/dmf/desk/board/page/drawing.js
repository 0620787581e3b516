/**
 * The drawing that the board makes of the picture. When a new one comes, only the parts that look different are replaced: to lay out and
 * paint all of them takes far longer.
 * @typedef {import("./view.js").Box} Box
 */
import { markEnd } from "./dots.js";
import { at, replace } from "./elements.js";

/** A part of a drawing as the board writes it. No part contains another group, and names in it are text, so the first `</g>` ends it. */
const PART = /<g id="((?:arc|node)-\d+)"[^]*?<\/g>/g;
const ROOT = '<svg xmlns="http://www.w3.org/2000/svg" xmlns:xlink="http://www.w3.org/1999/xlink">';
/**
 * The latest text of each part from the board.
 * @type {Map<string, string>}
 */
let written = new Map();

/** @returns {SVGGElement[]} */
export const parts = () => [...at("picture").querySelectorAll("g")].filter((group) => group.matches(".node, .arc"));

/**
 * Returns the part of the picture that shows an arc or a place.
 * @param {import("./choice.js").Choice | null} choice
 */
export const partOf = (choice) => parts().find((part) => part.id === (choice?.arc ? `arc-${choice.arc}` : `node-${choice?.node}`));

/**
 * Returns the element of a drawing, or null if the text is empty.
 * @param {string} text
 * @returns {Box | null}
 */
export function boxOf(text) {
  const [x, y, width, height] = text.match(/ viewBox="(.*?)"/)?.[1].split(" ").map(Number) ?? [];
  return text ? { x, y, width, height } : null;
}

/**
 * Shows a drawing, or removes it if the text is empty.
 * @param {string} text
 */
export function show(text) {
  const before = written, shown = at("picture").querySelector("svg");
  written = new Map([...text.matchAll(PART)].map(([part, id]) => [id, part]));
  if (!text) {
    shown?.remove();
    return;
  }
  const frame = read(text.replace(PART, ""));
  const present = new Map(parts().map((part) => [part.id, part]));
  const others = [...written].filter(([id, part]) => before.get(id) !== part).map(([, part]) => part);
  for (const part of read(`${ROOT}${others.join("")}</svg>`).querySelectorAll("g")) {
    prepare(part);
    present.set(part.id, part);
  }
  const wanted = [...written.keys()].map((id) => /** @type {SVGGElement} */ (present.get(id)));
  const layer = shown?.querySelector("g") ?? frame.querySelector("g");
  if (layer) replace(layer, [...frame.querySelectorAll("svg > g > *"), ...wanted]);
  if (!shown) {
    for (const name of ["width", "height"]) frame.removeAttribute(name);
    frame.setAttribute("aria-hidden", "false");
    at("layers").append(frame);
  }
}

/**
 * @param {string} text
 * @returns {SVGSVGElement}
 */
function read(text) {
  const root = /** @type {Node} */ (new DOMParser().parseFromString(text, "image/svg+xml").documentElement);
  return /** @type {SVGSVGElement} */ (document.importNode(root, true));
}

/**
 * Makes a part of the picture a button that its title names, with room for a click and, beside it, for the mark of the selection.
 * @param {SVGElement} group
 */
function prepare(group) {
  group.setAttribute("role", "button");
  group.setAttribute("tabindex", "-1");
  const line = group.querySelector("path, ellipse");
  if (!line) return;
  const beside = /** @type {Element} */ (line.cloneNode());
  beside.setAttribute("class", line.matches("path") ? "wide" : "halo");
  group.insertBefore(beside, group.querySelector("path, ellipse"));
  markEnd(group);
}
