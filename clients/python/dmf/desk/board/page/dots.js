/** Places that are dots, with their names beside them: a square where flow comes from, a pie of what arrives where it goes to. */
import { usualLength } from "./colourings.js";
import { at } from "./elements.js";
import { now, put } from "./store.js";

/**
 * @typedef {import("./ink.js").Edges} Edges
 * @typedef {{ rim: string, fill: string, share: string }} Looks the colours of an end
 */

/** The radius of a source or a sink; and the least and the greatest of another place, in pixels, and how many times as long lines usually
 * are. */
export const END = 9;
const LEAST = 1.6, MOST = 5, LENGTHS = 11;
/** How far the mark of the selection reaches beyond a place, in pixels, as in the style sheet. */
const MARK = 6;
/** The thickness of the outline of an end, and the square of a source and the bar in it; and the radius of a pie, which is a disc if all
 * arrives. */
const RIM = 2, SQUARE = "M-8-8H8V8H-8Z", BAR = "M-4 0H4V4H-4Z", PIE = 6.5, DISC = 5.5;
/** The largest part of a pie that is not whole, as it is drawn; and the distance of a name from its place from which a line leads to it, in
 * pixels. */
const ALMOST = 0.96, LED = 8;
/** How many times as far as places usually are from the nearest other one a line counts as long at most; and the most places compared. */
const LONG = 3, MOST_COMPARED = 500;

/** @param {Element} part */
export const isDot = (part) => part.hasAttribute("data-dot");

/**
 * Sets the size of dots.
 * @param {number} usual the usual length of lines, in pixels
 */
export function sizeDots(usual) {
  put("dot", Math.min(MOST, Math.max(LEAST, usual / LENGTHS)));
  at("picture").style.setProperty("--plain", String(now.dot));
}

/**
 * Returns the radius of a place, in pixels, with the mark of the selection.
 * @param {Element} part
 */
export const reachOf = (part) => (part.hasAttribute("data-end") ? END : now.dot) + (part.matches(".chosen") ? MARK : 0);

/** @param {number} reach */
const circle = (reach) => `M0-${reach}A${reach} ${reach} 0 1 1 0 ${reach}A${reach} ${reach} 0 1 1 0-${reach}Z`;

/**
 * Returns the outline of a part of a circle, from its top on.
 * @param {number} share
 */
function pie(share) {
  if (share >= 1) return circle(DISC);
  const angle = 2 * Math.PI * Math.min(share, ALMOST), [x, y] = [PIE * Math.sin(angle), -PIE * Math.cos(angle)];
  return share > 0 ? `M0 0V-${PIE}A${PIE} ${PIE} 0 ${angle > Math.PI ? 1 : 0} 1 ${x.toFixed(2)} ${y.toFixed(2)}Z` : "";
}

/**
 * Adds a shape to a place.
 * @param {Element} part
 * @param {string} kind
 * @param {string} outline
 */
function add(part, kind, outline) {
  const made = document.createElementNS("http://www.w3.org/2000/svg", "path");
  made.setAttribute("class", kind);
  made.setAttribute("d", outline);
  part.insertBefore(made, part.querySelector("text"));
  return made;
}

/**
 * Returns the point of a box that is nearest to another point.
 * @param {Edges} box
 * @param {number[]} point
 */
export const nearestIn = ({ left, right, top, bottom }, [x, y]) => [Math.min(right, Math.max(left, x)), Math.min(bottom, Math.max(top, y))];

/** @param {Element} part */
const middleOf = (part) => ["cx", "cy"].map((name) => Number(part.querySelector("ellipse")?.getAttribute(name)));

/**
 * Returns how long a line counts at most, in units of the picture, so that lines are thin where places are close.
 * @param {Element[]} parts
 */
export function mostLong(parts) {
  const spots = parts.filter((part) => part.matches(".node")).map(middleOf);
  if (spots.length < 2 || spots.length > MOST_COMPARED) return Infinity;
  return LONG * usualLength(spots.map(([x, y], one) =>
    Math.min(...spots.map(([right, down], other) => other === one ? Infinity : Math.hypot(right - x, down - y)))));
}

/**
 * Shows what a place is.
 * @param {HTMLElement | SVGElement} part
 */
export function markEnd(part) {
  const { end, share } = part.dataset;
  if (!end || !isDot(part)) return;
  part.classList.toggle("lacking", end === "sink" && Number(share) < 1);
  const made = end === "source" ? [add(part, "rim", SQUARE), add(part, "share", BAR)] : [add(part, "share", pie(Number(share)))];
  const [x, y] = middleOf(part);
  for (const it of made) it.style.setProperty("--x", `${x}px`);
  for (const it of made) it.style.setProperty("--y", `${y}px`);
}

/**
 * Paints what a place is, as in the picture in front.
 * @param {CanvasRenderingContext2D} pen
 * @param {import("./ground.js").Spot} place
 * @param {number} scale pixels per unit
 * @param {Looks} looks
 */
export function paintEnd(pen, { x, y, end, share }, scale, { rim, fill, share: ink }) {
  const isSource = end === "source", outline = new Path2D(isSource ? SQUARE : circle(END));
  pen.save();
  pen.translate(x, y);
  pen.scale(1 / scale, 1 / scale);
  Object.assign(pen, { strokeStyle: rim, lineWidth: RIM, fillStyle: fill });
  pen.stroke(outline);
  pen.fill(outline);
  pen.fillStyle = ink;
  pen.fill(new Path2D(isSource ? BAR : pie(share)));
  pen.restore();
}

/**
 * Draws a thin line to a label that is further out, or removes it.
 * @param {Element} part
 * @param {Edges | null} box where the label is, in pixels
 * @param {number[]} middle where the line would begin, in pixels
 * @param {number} reach how far from there it begins
 * @param {number} scale pixels per unit
 */
export function lead(part, box, [x, y], reach, scale) {
  const known = part.querySelector(".leader"), to = box && nearestIn(box, [x, y]);
  const far = to ? Math.hypot(to[0] - x, to[1] - y) : 0;
  if (!to || far < reach + LED) {
    known?.remove();
    return;
  }
  const from = [x + (to[0] - x) * reach / far, y + (to[1] - y) * reach / far];
  const outline = `M${[...from, ...to].map((it) => (it / scale).toFixed(2)).join(" ")}`;
  (known ?? add(part, "leader", outline)).setAttribute("d", outline);
}

/**
 * Draws a thin line from a place to its name, if that is further out.
 * @param {Element} part
 * @param {Edges | null} box where the name is, in pixels
 * @param {number} scale pixels per unit
 */
export const leadFrom = (part, box, scale) => lead(part, box, middleOf(part).map((it) => it * scale), reachOf(part), scale);
