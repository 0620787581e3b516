/**
 * The picture of what differs between two scenarios. Its labels follow the rules of the other picture.
 * @typedef {import("./ink.js").Stroke} Stroke
 */
import { arrowsOf } from "./arrows.js";
import { at } from "./elements.js";
import { Ink, pointsOf } from "./ink.js";
import { arrange, labelsOf } from "./labels.js";

/** The bounds of the scale, in pixels per unit. Between them the picture is as large as its frame; a larger one scrolls there. */
const LEAST = 0.5, MOST = 1.33;
/** The size of an arrow, in units. */
const ARROW = 10;

/**
 * Shows a picture, or hides it if the text is empty.
 * @param {string} text
 * @param {string} words that describe it
 */
export function showDifference(text, words) {
  const host = at("compare-picture");
  host.hidden = !text;
  host.replaceChildren();
  if (!text) return;
  const made = document.importNode(new DOMParser().parseFromString(text, "image/svg+xml").documentElement, true);
  const drawn = /** @type {SVGSVGElement} */ (/** @type {unknown} */ (made)), { width, height } = drawn.viewBox.baseVal;
  const fitted = Math.min((host.clientWidth - 4) / width, (parseFloat(getComputedStyle(host).maxHeight) - 4) / height);
  const scale = Math.min(MOST, Math.max(LEAST, fitted));
  drawn.setAttribute("width", String(width * scale));
  drawn.setAttribute("height", String(height * scale));
  drawn.setAttribute("role", "img");
  drawn.setAttribute("aria-label", words);
  host.append(drawn);
  placeLabels(drawn, scale);
}

/**
 * Arranges the labels.
 * @param {SVGSVGElement} drawn
 * @param {number} scale
 */
function placeLabels(drawn, scale) {
  const parts = [...drawn.querySelectorAll("g")].filter((part) => part.matches(".node, .arc"));
  /** @type {Stroke[]} */
  const strokes = arrowsOf(parts).flatMap(({ part, path, middle }) => [
    { points: pointsOf(path), thick: parseFloat(getComputedStyle(path).strokeWidth) * scale, part },
    { points: [middle, middle], thick: ARROW * scale, part }]);
  const { x, y, width, height } = drawn.viewBox.baseVal;
  const view = { left: x * scale, top: y * scale, right: (x + width) * scale, bottom: (y + height) * scale };
  arrange(labelsOf(parts), scale, { ink: new Ink(strokes, scale, view), view, covers: [], thicker: 1 });
}
