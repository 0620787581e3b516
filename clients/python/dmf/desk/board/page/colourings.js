/**
 * The colourings of the picture, in one table that the picture, the legend and the table's filter share.
 * @typedef {{ number: number, state: string, use: number, change: string, width: number, way: string }} Mark what the board says about an
 *   arc's look
 * @typedef {{ words: string, ink: string, filter: string, isDashed?: boolean, has: (mark: Mark) => boolean }} Shade
 *   `ink` is a colour of the style, and `filter` the filter of the table that shows the same arcs, or empty if none does
 * @typedef {{ name: string, words: string, shades: () => Shade[] }} Colouring an arc has the first shade that fits it
 * @typedef {{ byNumber: Map<number, number>, others: number, last: number }} Losses those of arcs, by their numbers; how many others
 *   cost something, at most as much as the least of these; and the highest number of an arc when they were found
 */
import { now } from "./store.js";

/** @type {Shade} */
const CLOSED = { words: "closed", ink: "unused", filter: "closed", isDashed: true, has: (mark) => mark.state === "c" };
/** @type {Shade} */
const LIMIT = { words: "bottleneck", ink: "limit", filter: "bottleneck", has: (mark) => mark.state === "l" };
/** @type {Shade[]} */
const USE = [
  LIMIT,
  { words: "full", ink: "use-4", filter: "full and not bottleneck", has: (mark) => mark.state === "F" },
  { words: "80–99 %", ink: "use-3", filter: "use >= 80 and not full and not bottleneck",
    has: (mark) => mark.state === "f" && mark.use >= 8 },
  { words: "50–79 %", ink: "use-2", filter: "use >= 50 and use < 80 and not bottleneck",
    has: (mark) => mark.state === "f" && mark.use >= 5 },
  { words: "under 50 %", ink: "use-1", filter: "flow > 0 and use < 50 and not bottleneck", has: (mark) => mark.state === "f" },
  CLOSED,
  { words: "no flow", ink: "unused", filter: "flow = 0 and not closed and not bottleneck", has: () => true },
];
/** @type {Shade[]} */
const BOTTLENECK = [
  LIMIT,
  { words: "full elsewhere", ink: "use-4", filter: "full and not bottleneck", has: (mark) => mark.state === "F" },
  CLOSED,
  { words: "a wider one brings nothing", ink: "unused", filter: "not bottleneck and not full and not closed", has: () => true },
];
/** @type {Shade[]} */
const CHANGE = [
  { words: "closed", ink: "less", filter: "closed", isDashed: true, has: (mark) => mark.change === "c" },
  { words: "new", ink: "more", filter: "added and not closed", isDashed: true, has: (mark) => mark.change === "a" },
  { words: "wider", ink: "use-4", filter: "capacity > before and not closed", has: (mark) => mark.change === "w" },
  { words: "narrower", ink: "limit", filter: "capacity < before and not closed", has: (mark) => mark.change === "n" },
  { words: "carries more", ink: "more", filter: "flow > before and not changed", has: (mark) => mark.change === "+" },
  { words: "carries less", ink: "less", filter: "flow < before and not changed", has: (mark) => mark.change === "-" },
  { words: "not changed (the flows before are not known)", ink: "unused", filter: "not changed", has: (mark) => mark.change === "?" },
  { words: "as at the beginning", ink: "unused", filter: "flow = before and not changed", has: () => true },
];
/** The number of shades of loss. */
const BANDS = 4;

/** Returns the shades of loss: equal parts of the largest loss, each named by the losses in it. */
function worth() {
  const { byNumber: losses, others, last } = now.losses, largest = Math.max(0, ...losses.values());
  const band = (/** @type {number} */ loss) => Math.ceil(loss / largest * BANDS);
  /** @type {Shade[]} */
  const found = [];
  for (let rank = BANDS; rank > 0 && largest; rank -= 1) {
    const inside = [...losses.values()].filter((loss) => band(loss) === rank);
    if (!inside.length) continue;
    const [low, high] = [Math.min(...inside), Math.max(...inside)];
    found.push({ words: `${low === high ? low : `${low}–${high}`} lost`, ink: `worth-${rank}`, filter: "",
      has: ({ number }) => band(losses.get(number) ?? 0) === rank });
  }
  const isThere = (/** @type {Mark} */ { number }) => number <= last;
  const isTold = (/** @type {Mark} */ mark) => losses.has(mark.number) || !others && isThere(mark);
  const least = Math.min(...losses.values());
  return [...found, CLOSED,
    { words: "nothing lost", ink: "unused", filter: "", has: isTold },
    { words: `at most ${least} lost`, ink: "unused", filter: "", isDashed: true, has: isThere },
    { words: "not known yet", ink: "unused", filter: "", isDashed: true, has: () => true }];
}

/** @type {Colouring[]} */
const ALL = [
  { name: "use", words: "use", shades: () => USE },
  { name: "bottleneck", words: "bottleneck", shades: () => BOTTLENECK },
  { name: "change", words: "what changed", shades: () => CHANGE },
  { name: "worth", words: "what is lost without it", shades: worth },
];

/** The colourings that can be chosen now: the last one only if its numbers are known. */
export const colourings = () => ALL.filter((it) => it.name !== "worth" || now.losses.byNumber.size);

/**
 * @param {number} number
 * @param {string} signs a character for each field, as the board writes them
 * @returns {Mark}
 */
export const markOf = (number, [state, use, change, width, way]) => (
  { number, state, use: Number(use), change, width: Number(width), way });

/**
 * @param {Shade[]} shades
 * @param {Mark} mark
 */
export const shadeOf = (shades, mark) => /** @type {Shade} */ (shades.find((shade) => shade.has(mark)));

/**
 * Returns the thickness of a line in pixels, by its arc's capacity, in a picture whose lines have the usual length.
 * @param {Mark} mark
 */
export const thickness = (mark) => 1.3 + 5.7 * mark.width / 9;

/**
 * Returns the factor by which lines are thicker if their usual length is this, in pixels.
 * @param {number} usual
 */
export const thicker = (usual) => Math.min(1.5, Math.max(0.55, usual / 55));

/** @param {number[]} lengths */
export const usualLength = (lengths) => [...lengths].sort((one, other) => one - other)[Math.floor(lengths.length / 2)] ?? 55;
