/**
 * The names of places on a map, in order of importance: the source and the sink, what is selected, places of the bottleneck, and those
 * through which most flows. A name that covers no line is always shown. In each field of a grid at least one place is named, so that names
 * are spread over the window; such a name may lie over lines if there is no other room. None lies on another name.
 * @typedef {import("./ground.js").Spot} Spot
 * @typedef {import("./ink.js").Edges} Edges
 * @typedef {import("./spots.js").Place} Place
 * @typedef {import("./spots.js").Taken} Taken
 */
import { edges, isApart } from "./boxes.js";
import { APART, AROUND } from "./candidates.js";
import { at } from "./elements.js";
import { isMarked, NAMES, OF_LIMIT } from "./ground.js";
import { takenNow } from "./labels.js";
import { freeSpot } from "./spots.js";
import { now } from "./store.js";
import { scale } from "./view.js";

/** The most names; and the size of letters, in pixels, and the height of a line for that. */
const MOST_NAMES = 400, LETTERS = 12, LINE = 1.25;
/** The side of a field, in pixels; and the least usual lengths of lines, in pixels, at which each field has a name, and at which no name
 * lies on any place. */
const FIELD = 110, SPARSE = 16, ROOMY = 30;

/** Returns true if places lie far enough apart for names. Otherwise only ends, what is selected and the bottleneck have names. */
export const isSparse = () => now.ground.usual * scale() >= SPARSE;

/** @param {Spot} place */
const isNeeded = (place) => place.end !== "" || isMarked(place);

/**
 * Returns the box of a place, and keeps names away from it.
 * @param {Taken} taken
 * @param {[number, number, number]} place its middle and its radius, in pixels
 */
function cover(taken, [x, y, reach]) {
  const box = edges(x, y, reach, reach);
  for (const boxes of [taken.taken, taken.places]) boxes.add(box);
  return box;
}

/**
 * Takes a spot for a name beside a place, as for all labels, and returns its middle, or undefined if there is no visible room.
 * @param {Taken} taken
 * @param {Edges} own the box of the place
 * @param {[number, number]} size half the width and half the height of the name
 * @param {boolean} mayCover whether it is shown even if it has to lie on lines
 */
function nameSpot(taken, own, [right, down], mayCover) {
  const [x, y, out] = [(own.left + own.right) / 2, (own.top + own.bottom) / 2, (own.right - own.left) / 2 + APART];
  const found = AROUND.map(([along, below]) => /** @type {Place} */ ([x + along * (out + right), y + below * (out + down), false]));
  const spot = freeSpot(found, [right, down], taken, { own, isNeeded: mayCover }), box = spot && edges(spot[0], spot[1], right, down);
  if (!box || isApart(box, taken.view)) return undefined;
  taken.taken.add(box);
  return spot;
}

/**
 * Returns how important a name is.
 * @param {Spot} place
 */
const importance = (place) => place.weight + 1e6 * OF_LIMIT * (2 * Number(place.end !== "") + Number(isMarked(place)));

/**
 * Returns the lines of a name: each text, whether it is bold, and whether it says that too little arrives.
 * @param {Spot} place
 * @returns {[string, boolean, boolean][]}
 */
const linesOf = ({ name, end, told, share }) => [[name, end !== "", false], ...(told ? [/** @type {[string, boolean, boolean]} */ (
  [told, false, share < 1])] : [])];

/**
 * Paints the names of places that are not drawn in front.
 * @param {CanvasRenderingContext2D} pen
 * @param {Spot[]} seen
 * @param {(name: string) => string} colour
 * @param {(place: Spot) => number} reach the radius of a place, in pixels
 */
export function paintNames(pen, seen, colour, reach) {
  const taken = takenNow();
  if (!taken) return;
  const by = scale(), isRoomy = by >= NAMES || now.ground.usual * by >= ROOMY;
  const candidates = isSparse() ? seen : seen.filter((place) => importance(place) >= OF_LIMIT);
  const boxes = new Map(candidates.map((place) => {
    const [x, y, far] = [place.x * by, place.y * by, reach(place)];
    return [place, isRoomy || isNeeded(place) ? cover(taken, [x, y, far]) : edges(x, y, far, far)];
  }));
  const style = getComputedStyle(at("picture")), limit = style.getPropertyValue("--limit");
  Object.assign(pen, { textBaseline: "middle", textAlign: "center", lineWidth: 3 / by, strokeStyle: colour("paper") });
  const font = (/** @type {boolean} */ isBold) => `${isBold ? "bold " : ""}${LETTERS / by}px ${style.fontFamily}`;
  /** @type {Set<string>} */
  const fields = new Set();
  let count = 0;
  for (const [place, own] of [...boxes].sort(([one], [other]) => importance(other) - importance(one))) {
    const field = [place.x, place.y].map((along) => Math.floor(along * by / FIELD)).join(" "), isFirst = !fields.has(field);
    if (count >= MOST_NAMES || !isRoomy && !isFirst && !isNeeded(place)) continue;
    // An end has a second line, with what it gives or takes.
    const lines = linesOf(place).map(([text, isBold, isShort]) => ({ text, font: font(isBold), ink: isShort ? limit : colour("ink") }));
    const widths = lines.map((line) => Object.assign(pen, { font: line.font }).measureText(line.text).width * by / 2);
    const spot = nameSpot(taken, own, [Math.max(...widths), lines.length * LETTERS * LINE / 2], isFirst || isNeeded(place));
    if (!spot) continue;
    fields.add(field);
    count += 1;
    for (const [rank, { text, font: letters, ink }] of lines.entries()) {
      const [x, y] = [spot[0] / by, (spot[1] + (rank - (lines.length - 1) / 2) * LETTERS * LINE) / by];
      Object.assign(pen, { font: letters, fillStyle: ink });
      pen.strokeText(text, x, y);
      pen.fillText(text, x, y);
    }
  }
}
