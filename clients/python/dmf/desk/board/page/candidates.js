/**
 * Where a label may lie: beside its place or its line, and further out.
 * @typedef {import("./labels.js").Label} Label
 * @typedef {import("./spots.js").Place} Place
 */
import { reachOf } from "./dots.js";

/** The distance of a label from its place, in pixels; and the largest part of an oval that a label inside it may fill. */
export const APART = 3;
const FILLED = 1.6;
/** The spots of a place's label, around the place, and between these if it is further out; and of an arc's, from where Graphviz put it, in
 * parts of its size. */
export const AROUND = [[1, 0], [-1, 0], [0, -1], [0, 1], [1, -1], [1, 1], [-1, -1], [-1, 1]];
const BETWEEN = [[0.5, -1], [-0.5, -1], [0.5, 1], [-0.5, 1], [1, -0.5], [1, 0.5], [-1, -0.5], [-1, 0.5]];
const BESIDE = [[0, 0], [0, -0.3], [0, 0.3], [0.3, 0], [-0.3, 0], [0, -0.6], [0, 0.6], [0.3, -0.3], [-0.3, 0.3]];
/** How far the arrow reaches from a line, in pixels. */
const ARROW = 6.5;
/** How many text lines further out a label may lie. */
export const RINGS = [1, 2, 3, 4, 5, 6, 8, 10];

/**
 * Returns how far a label's place reaches to the right and downwards, in pixels.
 * @param {Label} label
 * @param {number} scale
 */
export const reaches = ({ part, oval }, scale) => (oval?.isDot ? [reachOf(part), reachOf(part)]
  : [oval?.right ?? 0, oval?.down ?? 0].map((it) => it * scale));

/**
 * Returns where the middle of a label may lie, in pixels, the best spot first, and whether that is inside its own place.
 * @param {Label} label
 * @param {number} right how far it reaches
 * @param {number} down
 * @param {number} scale
 * @param {number} half half the thickness of the arc's line
 * @returns {Place[]}
 */
export function spots(label, right, down, scale, half) {
  const { oval, line, x, y } = label, [ovalRight, ovalDown] = reaches(label, scale);
  if (!oval) {
    const near = BESIDE.map(([along, below]) => /** @type {Place} */ (
      [x * scale + 2 * along * right, y * scale + 2 * below * down, false]));
    return near.concat(line.flatMap(({ x: pointX, y: pointY, across: [along, below] }) => {
      const reach = Math.abs(along) * right + Math.abs(below) * down + APART, outs = [half, ARROW].map((by) => reach + by);
      return outs.flatMap((out) => [out, -out]).map((out) => /** @type {Place} */ (
        [pointX * scale + out * along, pointY * scale + out * below, false]));
    }));
  }
  const isIn = Math.max(right / ovalRight, down / ovalDown) < 1 && (right / ovalRight) ** 2 + (down / ovalDown) ** 2 <= FILLED;
  if (isIn) return [[x * scale, y * scale, true]];
  return AROUND.map(([along, below]) => [oval.x * scale + along * (ovalRight + right + APART),
    oval.y * scale + below * (ovalDown + down + (along && !oval.isDot ? 0 : APART)), false]);
}

/**
 * Returns spots further out.
 * @param {Label} label
 * @param {number} right
 * @param {number} down
 * @param {number} scale
 * @param {number[]} rings
 * @returns {Place[]}
 */
export function further(label, right, down, scale, rings) {
  const from = label.oval ?? label.line[0] ?? label, [aside, above] = reaches(label, scale);
  return rings.flatMap((ring) => (label.oval ? [...AROUND, ...BETWEEN] : AROUND).map(([along, below]) => /** @type {Place} */ (
    [from.x * scale + along * (aside + right + ring * down), from.y * scale + below * (above + down + ring * down), false])));
}
