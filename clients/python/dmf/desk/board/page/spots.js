/**
 * The search for the spot of a label: where it covers nothing, is wholly visible, and is not read as the label of another arc or place.
 * @typedef {import("./boxes.js").Boxes} Boxes
 * @typedef {import("./ink.js").Edges} Edges
 * @typedef {import("./ink.js").Ink} Ink
 * @typedef {{ ink: Ink, view: Edges, covers: Edges[], thicker: number }} Ground where lines run, the visible part and the cards over it, in
 *   pixels, and by what factor lines are thicker
 * @typedef {Ground & { taken: Boxes, places: Boxes, names: Boxes }} Taken the same, with all boxes that are taken, those of places, and
 *   those of names and of the sources and sinks that are dots
 * @typedef {[number, number, boolean]} Place the middle of a label, and whether it is inside its own place
 */
import { edges, isApart, isWithin, larger } from "./boxes.js";

/** How many pixels away from its best spot cost as much as a pixel of a line under the label. */
const AWAY = 4;
/** The distance within which a name is read as that of another place, in pixels. */
export const MISREAD = 4.5;

/**
 * Returns whether a box is wholly visible, not visible, or cut by an edge or a card.
 * @param {Edges} box
 * @param {Ground} ground
 */
export function sight(box, { view, covers }) {
  if (isApart(box, view)) return "unseen";
  if (!isWithin(box, view)) return "cut";
  const over = covers.find((cover) => !isApart(box, cover));
  return !over ? "seen" : isWithin(box, over) ? "unseen" : "cut";
}

/**
 * Returns the spot nearest to the first one where a label covers nothing and is not read as that of another arc or place. If there is none,
 * a label that has to be shown gets the spot that covers the least of lines.
 * @param {Place[]} found
 * @param {[number, number]} size half the width and half the height of the label
 * @param {Taken} ground
 * @param {{ own?: Edges | null, arc?: Element, isNeeded: boolean }} label the box of its own place, in which it may lie, or its arc; and
 *   whether it has to be shown
 */
export function freeSpot(found, [right, down], ground, { own = null, arc, isNeeded }) {
  const far = (/** @type {Place} */ spot) => Math.hypot(spot[0] - found[0][0], spot[1] - found[0][1]);
  /** @type {Place | undefined} */
  let best, unseen, least = Infinity;
  for (const [away, spot] of found.map((it) => /** @type {[number, Place]} */ ([far(it), it])).sort(([one], [other]) => one - other)) {
    const box = edges(spot[0], spot[1], right, down), isSeen = sight(box, ground);
    if (isSeen === "cut" || unseen && isSeen === "unseen" || !ground.taken.isFree(box, spot[2] ? own : null)) continue;
    if (spot[2]) return spot;
    if (isSeen === "unseen") {
      unseen = spot;
      continue;
    }
    const under = ground.ink.under(box), cost = AWAY * under + away;
    if (!under && (arc ? ground.ink.isNearest(box, arc) : ground.places.isFree(larger(box, MISREAD), own))) return spot;
    if (cost < least) [best, least] = [spot, cost];
  }
  return isNeeded && best || unseen;
}
