/**
 * Where the lines and the arrows of the picture are drawn, so that labels can avoid them.
 * @typedef {{ x: number, y: number }} Point
 * @typedef {{ points: Point[], thick: number, part?: Element }} Stroke the points of a line, its thickness in pixels, and its part
 * @typedef {{ from: Point, to: Point, half: number, part?: Element }} Piece a straight piece of a line, and half its thickness, in pixels
 * @typedef {{ left: number, right: number, top: number, bottom: number }} Edges
 */
import { larger } from "./boxes.js";

/** The side of a field of the index, and the least distance of a label from a line, in pixels; the number of points along a curve; and the
 * distances from a label within which lines are looked for, in pixels. */
const FIELD = 64, GAP = 1, KNOWN = 12, AROUND = [4, 8, 14, 22, 34, 50];
/**
 * Points along curves, by the curves' paths.
 * @type {Map<string, DOMPoint[]>}
 */
let curves = new Map();

/**
 * Returns points along a path, from its beginning to its end.
 * @param {SVGPathElement} path
 */
export function pointsOf(path) {
  const curve = path.getAttribute("d") ?? "", known = curves.get(curve), long = known ? 0 : path.getTotalLength();
  const points = known ?? Array.from({ length: KNOWN + 1 }, (_, place) => path.getPointAtLength(place / KNOWN * long));
  // In a large network the picture near each place has other curves.
  if (curves.size > 5000) curves = new Map();
  curves.set(curve, points);
  return points;
}

/**
 * Returns where a segment enters a box and where it leaves it, from 0 to 1 along the segment, or null if it misses the box.
 * @param {Point} from
 * @param {Point} to
 * @param {Edges} box
 */
function partIn(from, to, { left, right, top, bottom }) {
  const [along, down] = [to.x - from.x, to.y - from.y];
  let first = 0, last = 1;
  for (const [by, room] of [[-along, from.x - left], [along, right - from.x], [-down, from.y - top], [down, bottom - from.y]]) {
    if (by < 0) first = Math.max(first, room / by);
    else if (by > 0) last = Math.min(last, room / by);
    else if (room < 0) return null;
  }
  return first <= last ? [first, last] : null;
}

/**
 * @param {Edges} box
 * @returns {number[]} the fields of the index that it meets
 */
function fieldsOf({ left, right, top, bottom }) {
  const found = [];
  for (let column = Math.floor(left / FIELD); column <= right / FIELD; column += 1) {
    for (let row = Math.floor(top / FIELD); row <= bottom / FIELD; row += 1) found.push(column * 100_003 + row);
  }
  return found;
}

/**
 * Returns the parts with a line in a box, and the length of the line there, in pixels.
 * @param {Map<number, Piece[]>} fields
 * @param {Edges} box
 */
const partsIn = (fields, box) => fieldsOf(box).flatMap((key) => (fields.get(key) ?? []).flatMap(({ from, to, half, part }) => {
  const inside = partIn(from, to, larger(box, half));
  return inside ? [{ part, long: 1 + (inside[1] - inside[0]) * Math.hypot(to.x - from.x, to.y - from.y) }] : [];
}));

/** The visible lines at one scale of the picture, in an index by the fields of a grid. */
export class Ink {
  /** @type {Map<number, Piece[]>} */
  #fields = new Map();

  /**
   * @param {Stroke[]} strokes
   * @param {number} scale pixels per unit
   * @param {Edges} view the visible part, in pixels
   */
  constructor(strokes, scale, view) {
    for (const { points, thick, part } of strokes) {
      const ends = points.map(({ x, y }) => ({ x: x * scale, y: y * scale }));
      for (const [place, to] of ends.slice(1).entries()) this.#add({ from: ends[place], to, half: thick / 2 + GAP, part }, view);
    }
  }

  /**
   * @param {Piece} piece
   * @param {Edges} view
   */
  #add({ from, to, half, part }, view) {
    const seen = partIn(from, to, larger(view, half));
    if (!seen) return;
    const [one, other] = seen.map((by) => ({ x: from.x + by * (to.x - from.x), y: from.y + by * (to.y - from.y) }));
    const box = { left: Math.min(one.x, other.x), right: Math.max(one.x, other.x),
      top: Math.min(one.y, other.y), bottom: Math.max(one.y, other.y) };
    const piece = { from: one, to: other, half, part };
    for (const key of fieldsOf(larger(box, half))) {
      const field = this.#fields.get(key);
      if (field) field.push(piece);
      else this.#fields.set(key, [piece]);
    }
  }

  /**
   * Returns the length of the lines under a box, in pixels; 0 if it avoids them all.
   * @param {Edges} box
   */
  under(box) {
    return partsIn(this.#fields, box).reduce((sum, { long }) => sum + long, 0);
  }

  /**
   * Returns true if the line of this part is near a box, and no other line is nearer: otherwise the label would be read as the other's.
   * @param {Edges} box
   * @param {Element} part
   */
  isNearest(box, part) {
    for (const by of AROUND) {
      const found = partsIn(this.#fields, larger(box, by));
      if (found.length) return found.some((it) => it.part === part);
    }
    return false;
  }
}
