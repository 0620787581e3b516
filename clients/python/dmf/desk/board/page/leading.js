/**
 * Labels to which a thin line leads: names of sources and sinks that are dots, which are never dropped, and labels of the selected arc and
 * of the bottleneck that have no room beside their lines.
 * @typedef {import("./ink.js").Edges} Edges
 * @typedef {import("./spots.js").Place} Place
 * @typedef {import("./spots.js").Taken} Taken
 */
import { edges, larger } from "./boxes.js";
import { END, nearestIn } from "./dots.js";
import { freeSpot, MISREAD, sight } from "./spots.js";

/** How far apart points of such a line are, and how far other names stay from it, in pixels; and what a pixel costs that it crosses,
 * or that a name covers, in pixels of its length. */
const STEP = 5, CLEAR = 2, CROSSED = 6, COVERED = 8;

/** @param {Edges} box */
const middleOf = ({ left, right, top, bottom }) => [(left + right) / 2, (top + bottom) / 2];

/**
 * Returns the room of the line from a place to its name, outside the place.
 * @param {Edges} own the box of the place
 * @param {Edges} name
 */
export function leaderBoxes(own, name) {
  const [x, y] = middleOf(own), [toX, toY] = nearestIn(name, [x, y]), far = Math.hypot(toX - x, toY - y);
  return Array.from({ length: Math.max(0, Math.floor((far - END) / STEP)) }, (_, place) => {
    const part = (END + STEP * (place + 1)) / far;
    return edges(x + part * (toX - x), y + part * (toY - y), CLEAR, CLEAR);
  });
}

/**
 * Returns how much a line crosses: the length of lines under it, in pixels, and as much for each place.
 * @param {Edges[]} line the room of the line
 * @param {Edges} own the box of the place where it begins
 * @param {Taken} ground
 */
const crossed = (line, own, { ink, places }) =>
  line.reduce((sum, box) => sum + ink.under(box) + (places.isFree(box, own) ? 0 : STEP), 0);

/**
 * Returns the visible spot that costs least, by its distance, by what the line to it crosses, which is no other name, and by the lines that
 * the name covers; or undefined if there is none.
 * @param {Edges} own
 * @param {Place[]} found
 * @param {(spot: Place) => Edges} boxOf the box of a name at a spot
 * @param {Taken} ground
 * @param {number} most what it may cost
 * @param {(box: Edges) => boolean} isClear whether a name that is so near that no line leads to it is not read as that of another
 */
function cheapest(own, found, boxOf, ground, most = Infinity,
  isClear = (box) => ground.places.isFree(larger(box, MISREAD), own)) {
  const [x, y] = middleOf(own), far = found.map((spot) => ({ spot, away: Math.hypot(spot[0] - x, spot[1] - y) }));
  /** @type {Place | undefined} */
  let best;
  let least = most;
  for (const { spot, away } of far.sort((one, other) => one.away - other.away)) {
    const box = boxOf(spot);
    // What is further away costs more in any case.
    if (away >= least) break;
    if (sight(box, ground) !== "seen" || !ground.taken.isFree(box, null)) continue;
    const covering = away + COVERED * ground.ink.under(box), line = leaderBoxes(own, box);
    if (covering >= least || line.some((it) => !ground.names.isFree(it, null))) continue;
    // Beside another place or line, only a line tells whose name it is.
    if (!line.length && !isClear(box)) continue;
    const cost = covering + CROSSED * crossed(line, own, ground);
    if (cost < least) [best, least] = [spot, cost];
  }
  return best;
}

/**
 * Returns the spot of an arc's label further out that costs least, or undefined if there is none for what it may cost.
 * @param {Edges} root where the line to it begins, on the arc's own line
 * @param {Place[]} far
 * @param {[number, number]} size half the width and half the height of the label
 * @param {Taken} ground
 * @param {Element} arc
 * @param {number} most what it may cost, in pixels of the line's length
 */
export const arcSpot = (root, far, size, ground, arc, most) =>
  cheapest(root, far, ([x, y]) => edges(x, y, ...size), ground, most, (box) => ground.ink.isNearest(box, arc));

/**
 * Returns the spot of the name of a source or a sink: beside it, or else the one that costs least, or else any. Returns null if there is no
 * room beside the place, and none may be taken from others yet.
 * @param {Edges} own the box of the place
 * @param {Place[]} near
 * @param {Place[]} far
 * @param {[number, number]} size half the width and half the height of the name
 * @param {Taken} ground
 * @param {boolean} mayLead
 */
export function endSpot(own, near, far, size, ground, mayLead) {
  const boxOf = (/** @type {Place} */ [x, y]) => edges(x, y, ...size), [x, y] = middleOf(own);
  const isSeen = (/** @type {Place | undefined} */ spot) => spot && sight(boxOf(spot), ground) === "seen";
  const beside = freeSpot(near, size, ground, { own, isNeeded: false });
  if (isSeen(beside) || sight(own, ground) === "unseen") return beside;
  if (!mayLead) return null;
  const best = cheapest(own, [...near, ...far], boxOf, ground);
  if (best) return best;
  const clear = far.filter((spot) => leaderBoxes(own, boxOf(spot)).every((box) => ground.names.isFree(box, null)));
  // What is nearest to the place itself, where no name can be, comes first.
  const [led, any] = [clear, far].map((found) => () => freeSpot([[x, y, false], ...near, ...found], size, ground, { own, isNeeded: true }));
  const spot = led();
  return isSeen(spot) ? spot : any();
}
