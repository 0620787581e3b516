/**
 * The arrows on the lines of the drawing: all of one size on the screen, inside lines that are thick enough, and not on short ones.
 * @typedef {import("./ink.js").Stroke} Stroke
 * @typedef {{ part: SVGElement, path: SVGPathElement, middle: { x: number, y: number }, long: number, thick: number }} Arrow its
 *   middle, and the length of its line, in units, and the thickness
 */
import { pointsOf } from "./ink.js";

/** The least length of a line with an arrow, and the least thickness of one that has it inside, in pixels. */
export const SHORT = 34, INSIDE = 5;
/** The size of an arrow that is not inside its line, and how much thicker than its line the mark of a selected one is, in pixels. */
const SIZE = 11;
export const HALO = 8;

/**
 * @param {SVGElement[]} parts
 * @returns {Arrow[]}
 */
export const arrowsOf = (parts) => parts.filter((part) => part.matches(".arc")).map((part) => {
  const path = /** @type {SVGPathElement} */ (part.querySelector("path:not(.wide)"));
  const corners = [.../** @type {SVGPolygonElement} */ (part.querySelector("polygon")).points];
  const mean = (/** @type {"x" | "y"} */ axis) => corners.reduce((sum, corner) => sum + corner[axis], 0) / corners.length;
  const middle = { x: mean("x"), y: mean("y") };
  return { part, path, middle, long: path.getTotalLength(), thick: Number(part.style.getPropertyValue("--thick")) };
});

/**
 * Shows the arrows for a size of the picture.
 * @param {Arrow[]} arrows
 * @param {number} scale pixels per unit
 * @param {number} thicker the factor by which lines are thicker
 */
export function pointArrows(arrows, scale, thicker) {
  for (const { part, long, thick } of arrows) {
    part.classList.toggle("short", long * scale < SHORT);
    part.classList.toggle("inside", thick * thicker >= INSIDE);
  }
}

/**
 * Returns the drawn lines, and the arrows that reach beyond them.
 * @param {Arrow[]} arrows
 * @param {number} thicker by what factor lines are thicker
 * @returns {Stroke[]}
 */
export const strokesOf = (arrows, thicker) => arrows.flatMap(({ part, path, middle, thick }) => {
  const line = { points: pointsOf(path), thick: thicker * thick + (part.matches(".chosen") ? HALO : 0), part };
  return part.matches(".short, .inside, .closed") ? [line] : [line, { points: [middle, middle], thick: SIZE, part }];
});
