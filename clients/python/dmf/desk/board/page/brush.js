/**
 * What paints on a canvas: lines, their arrows and the outlines of places, sized for a scale.
 * @typedef {import("./ground.js").Line} Line
 * @typedef {import("./ground.js").Spot} Spot
 * @typedef {{ pen: CanvasRenderingContext2D, scale: number, isAllBehind: boolean, colour: (name: string) => string }} Brush
 *   `scale` is the pixels per unit for which all is sized; `isAllBehind` says whether also what the picture in front has is painted
 */
import { SHORT } from "./arrows.js";
import { END } from "./dots.js";
import { endsOf } from "./ground.js";
import { shades } from "./legend.js";

/**
 * @param {CanvasRenderingContext2D} pen
 * @param {number} pixels
 * @param {boolean} isAllBehind
 * @returns {Brush}
 */
export const brushOf = (pen, pixels, isAllBehind) => ({ pen, scale: pixels, isAllBehind, colour: colours() });

/** The page's colours, by their names. Looking one up takes longer than drawing with it. */
function colours() {
  const style = getComputedStyle(document.documentElement);
  const names = ["ink", "limit", "mark", "paper", "side", "unused", ...shades().map((shade) => shade.ink)];
  const found = new Map(names.map((name) => [name, style.getPropertyValue(`--${name}`)]));
  return (/** @type {string} */ name) => found.get(name) ?? "";
}

/**
 * Returns half the length of the arrow on a line, in pixels.
 * @param {number} wide the thickness of the line, in pixels
 */
export const arrowSize = (wide) => Math.min(5, 0.4 * wide + 2.6);

/**
 * @param {Brush} brush
 * @param {Line[]} drawn
 * @param {string} ink the name of a colour
 * @param {number} wide in pixels
 * @param {number[]} dashes
 */
export function stroke({ pen, scale: by, colour }, drawn, ink, wide, dashes = []) {
  pen.beginPath();
  for (const [from, to] of drawn.map((line) => endsOf(line, by))) {
    pen.moveTo(...from);
    pen.lineTo(...to);
  }
  Object.assign(pen, { strokeStyle: colour(ink), lineWidth: wide / by });
  pen.setLineDash(dashes.map((dash) => dash / by));
  pen.stroke();
}

/**
 * Paints an arrow in the middle of each line that is long enough.
 * @param {Brush} brush
 * @param {Line[]} drawn
 * @param {string} ink the name of a colour
 * @param {number} pixels the size of an arrow
 */
export function point({ pen, scale: by, colour }, drawn, ink, pixels) {
  const size = pixels / by;
  pen.beginPath();
  for (const [from, to] of drawn.map((line) => endsOf(line, by))) {
    const long = Math.hypot(to[0] - from[0], to[1] - from[1]);
    if (long * by < SHORT) continue;
    const [right, down] = [(to[0] - from[0]) / long * size, (to[1] - from[1]) / long * size];
    const [x, y] = [(from[0] + to[0]) / 2, (from[1] + to[1]) / 2];
    pen.moveTo(x + right, y + down);
    pen.lineTo(x - right - down / 1.6, y - down + right / 1.6);
    pen.lineTo(x - right + down / 1.6, y - down - right / 1.6);
  }
  pen.fillStyle = colour(ink);
  pen.fill();
}

/**
 * Begins a path with the outline of each place.
 * @param {Brush} brush
 * @param {Spot[]} spots
 */
export function circle(brush, spots) {
  const { pen } = brush;
  pen.beginPath();
  for (const place of spots) {
    const { x, y } = place, size = reach(brush, place) / brush.scale;
    pen.moveTo(x + size, y);
    pen.arc(x, y, size, 0, 2 * Math.PI);
  }
}

/**
 * Returns the radius of a place, in pixels.
 * @param {Brush} brush
 * @param {Spot} place
 */
export const reach = ({ scale: by }, { end }) => (end ? END : Math.min(5, Math.max(1, 14 * by)));
