/**
 * All arcs at their positions, behind the picture, which shows some of them with their numbers: what lies where, and what is near a point.
 * @typedef {import("./view.js").Box} Box
 * @typedef {import("./colourings.js").Mark} Mark
 * @typedef {{ number: number, tail: number, head: number, from: [number, number], to: [number, number], aside: [number, number],
 *   mark: Mark }} Line
 *   where it begins and where it flows to, and the direction and number of lanes by which it is moved aside from arcs with the same ends
 * @typedef {{ node: number, name: string, x: number, y: number, look: string, end: string, weight: number, told: string,
 *   share: number }} Spot
 *   `end` says whether it is a source or a sink, `weight` how much flows through it, in about, and whether it is at the bottleneck, `told`
 *   what it gives or takes, and `share` which part of what it takes at most arrives
 * @typedef {{ lines: Line[], usual: number, places: Map<number, Spot> }} Ground the lines, their usual length, and the places, by node
 */
import { choose, theChoice } from "./choice.js";
import { markOf, thicker, usualLength } from "./colourings.js";
import { at } from "./elements.js";
import { isPicked } from "./many.js";
import { ask } from "./state.js";
import { now, put, update } from "./store.js";
import { freeBox, scale, seenBox } from "./view.js";

/** The look of an arc that does not exist now, and the way of one that flows from its head to its tail. */
const NONE = " ", BACK = "<";
/** The distance of arcs with the same ends, and how near a click has to be, in pixels; and the least scale, in pixels per unit, at which
 * names can be read. */
const APART = 5, NEAR = 9;
export const NAMES = 0.3;
/** What is told of a place without a limited amount. */
const QUIET = { told: "", share: 1 };
/** The weight of an arc of the bottleneck, more than that of all others at a place. */
export const OF_LIMIT = 1e6;
/**
 * The number of each arc and its ends, and the version of the picture to which the positions of these belong.
 * @type {{ ends: number[][], version: number } | null}
 */
let known = null;
/**
 * The nodes of the places that were made, which a step may take back.
 * @type {number[]}
 */
let made = [];

export const isGround = () => now.ground.lines.length > 0;

/** @param {Line} line */
export const isOfLimit = (line) => line.mark.state === "l";

/**
 * Requests the positions, unless they are known, and then the looks.
 * @param {boolean} isThere
 * @param {number} version another one after a place was moved
 */
export async function lookAtGround(isThere, version) {
  at("picture").classList.toggle("grounded", isThere);
  if (!isThere) {
    update("ground", { lines: [] });
    return;
  }
  const { places } = now.ground;
  if (known?.version !== version) {
    const told = await ask("ground");
    if (!told) return;
    const [sources, sinks] = [new Set(told.sources), new Set(told.sinks)];
    const endOf = (/** @type {number} */ node) => (sources.has(node) ? "source" : sinks.has(node) ? "sink" : "");
    told.nodes.forEach((/** @type {number} */ node, /** @type {number} */ place) => places.set(node, { node, name: told.names[place],
      x: told.right[place], y: told.down[place], look: ".", end: endOf(node), weight: 0, ...QUIET }));
    const ends = told.tails.map((/** @type {number} */ tail, /** @type {number} */ place) => [place + 1, tail, told.heads[place]]);
    known = { ends, version };
  }
  const told = await ask("looks");
  if (!told || !known) return;
  for (const node of made) places.delete(node);
  [...places.values()].forEach((place, number) => {
    Object.assign(place, { look: told.places[number], ...QUIET });
  });
  for (const [node, name, x, y, look] of told.made) places.set(node, { node, name, x, y, look, end: "", weight: 0, ...QUIET });
  for (const [node, words, share] of told.ends) Object.assign(places.get(node) ?? {}, { told: words, share });
  made = told.made.map((/** @type {any[]} */ [node]) => node);
  const signs = (/** @type {number} */ place) => ["arcs", "uses", "changes", "widths", "ways"].map((text) => told[text][place]).join("");
  const lines = linesOf([...known.ends.map((one, place) => [...one, signs(place)]), ...told.added], places);
  weigh(lines, places);
  put("ground", { lines, usual: usualLength(lines.map(({ from, to }) => Math.hypot(to[0] - from[0], to[1] - from[1]))), places });
}

/**
 * Weighs the places by the arcs there.
 * @param {Line[]} lines
 * @param {Map<number, Spot>} places
 */
function weigh(lines, places) {
  for (const place of places.values()) place.weight = 0;
  for (const line of lines) {
    const { width, use } = line.mark;
    for (const node of [line.tail, line.head]) {
      /** @type {Spot} */ (places.get(node)).weight += width * width * use + (isOfLimit(line) ? OF_LIMIT : 0);
    }
  }
}

/**
 * Returns the lines of arcs; those with the same ends lie side by side.
 * @param {any[][]} arcs their numbers, ends and signs
 * @param {Map<number, Spot>} places
 */
function linesOf(arcs, places) {
  /** @type {Map<string, any[][]>} */
  const beside = new Map();
  for (const arc of arcs) {
    if (arc[3][0] === NONE) continue;
    const key = arc[1] < arc[2] ? `${arc[1]} ${arc[2]}` : `${arc[2]} ${arc[1]}`;
    beside.set(key, [...beside.get(key) ?? [], arc]);
  }
  return [...beside.values()].flatMap((alike) => alike.map(([number, tail, head, signs], rank) => {
    const from = /** @type {Spot} */ (places.get(tail)), to = /** @type {Spot} */ (places.get(head));
    const long = Math.hypot(to.x - from.x, to.y - from.y) || 1, by = (rank - (alike.length - 1) / 2) * (tail < head ? 1 : -1);
    const aside = [(to.y - from.y) / long * by, (from.x - to.x) / long * by], mark = markOf(number, signs);
    const [begin, end] = mark.way === BACK ? [to, from] : [from, to];
    return /** @type {Line} */ ({ number, tail, head, mark, aside, from: [begin.x, begin.y], to: [end.x, end.y] });
  }));
}

/**
 * Returns where a line begins and ends, beside those with the same ends.
 * @param {Line} line
 * @param {number} pixels per unit of the picture
 * @returns {[number, number][]}
 */
export function endsOf({ from, to, aside }, pixels = scale()) {
  const by = APART * thicker(now.ground.usual * pixels) / pixels;
  return [from, to].map(([x, y]) => [x + by * aside[0], y + by * aside[1]]);
}

/**
 * Shows a place elsewhere, with its lines.
 * @param {number} node
 * @param {number} x
 * @param {number} y
 */
export function moveOnGround(node, x, y) {
  const { lines, places } = now.ground, place = places.get(node);
  if (!place || !isGround()) return;
  Object.assign(place, { x, y });
  for (const line of lines.filter(({ tail, head }) => tail === node || head === node)) {
    const [begin, end] = (line.mark.way === BACK ? [line.head, line.tail] : [line.tail, line.head]).map((it) => places.get(it));
    Object.assign(line, { from: [begin?.x, begin?.y], to: [end?.x, end?.y] });
  }
  put("ground", now.ground);
}

/**
 * Returns the box around all places, the bottleneck or the selection, or null if there is nothing in it.
 * @param {string} like a selector of the picture's parts
 */
export function groundBox(like) {
  const { lines, places } = now.ground;
  const drawn = like === ".cut" ? lines.filter(isOfLimit) : like === ".chosen" ? lines.filter(isMarked) : [];
  const dots = !isGround() || like === ".cut" ? [] : [...places.values()].filter((place) => like !== ".chosen" || isMarked(place));
  const spots = [...drawn.flatMap((line) => [line.from, line.to]), ...dots.map((place) => [place.x, place.y])];
  if (!spots.length) return null;
  let [left, top, right, bottom] = [Infinity, Infinity, -Infinity, -Infinity];
  for (const [x, y] of spots) [left, top, right, bottom] = [Math.min(left, x), Math.min(top, y), Math.max(right, x), Math.max(bottom, y)];
  return { x: left, y: top, width: right - left, height: bottom - top };
}

/**
 * Returns true if it is selected.
 * @param {Line | Spot} it
 */
export function isMarked(it) {
  const chosen = theChoice();
  return "number" in it ? chosen?.arc === it.number || isPicked(it.number) : chosen?.node === it.node;
}

/**
 * Selects the place or the arc near a point of the window, if there is one.
 * @param {MouseEvent} event
 */
export function chooseNear(event) {
  const { left, top } = at("picture").getBoundingClientRect(), box = seenBox();
  const [x, y] = [box.x + (event.clientX - left) / scale(), box.y + (event.clientY - top) / scale()];
  const place = isGround() ? nearest([...now.ground.places.values()], (it) => Math.hypot(it.x - x, it.y - y)) : null;
  const line = nearest(now.ground.lines, (it) => away(it, x, y));
  if (place) choose({ node: place.node });
  else if (line) choose({ arc: line.number });
}

/**
 * Returns what is nearest, if it is near enough.
 * @template It
 * @param {It[]} all
 * @param {(it: It) => number} far
 */
function nearest(all, far) {
  let best = null, least = NEAR / scale();
  for (const it of all) {
    const by = far(it);
    if (by < least) [best, least] = [it, by];
  }
  return best;
}

/**
 * Returns the distance of a point from a line.
 * @param {Line} line
 * @param {number} x
 * @param {number} y
 */
function away(line, x, y) {
  const [from, to] = endsOf(line), [right, down] = [to[0] - from[0], to[1] - from[1]], long = right * right + down * down;
  const part = long ? Math.min(1, Math.max(0, ((x - from[0]) * right + (y - from[1]) * down) / long)) : 0;
  return Math.hypot(from[0] + part * right - x, from[1] + part * down - y);
}

/**
 * Returns the nearest place to another in a direction.
 * @param {number} node
 * @param {[number, number]} way to the right and downwards
 */
export function nextPlace(node, [right, down]) {
  const { places } = now.ground, here = isGround() ? places.get(node) : null;
  let best = null, least = Infinity;
  for (const place of here ? places.values() : []) {
    const [x, y] = [place.x - (here?.x ?? 0), place.y - (here?.y ?? 0)], along = x * right + y * down;
    const far = along + 2 * (Math.abs(x * down) + Math.abs(y * right));
    if (along > 0 && far < least) [best, least] = [place.node, far];
  }
  return best;
}

/**
 * Returns true if all is drawn, and too small for names to be read.
 * @param {number} pixels per unit of the picture
 */
export const isFar = (pixels = scale()) => isGround() && pixels < NAMES;

/** Returns the place in the middle of the view, if names can be read there and the picture lacks some places around it. */
export function middlePlace() {
  if (isFar() || !isGround()) return null;
  const box = freeBox(), [x, y] = [box.x + box.width / 2, box.y + box.height / 2];
  let best = null, least = Infinity, isWhole = true;
  for (const place of now.ground.places.values()) {
    const far = Math.hypot(place.x - x, place.y - y);
    if (far < least) [best, least] = [place.node, far];
    isWhole = isWhole && (far > box.width / 4 || far > box.height / 4 || now.drawn.ids.has(`node-${place.node}`));
  }
  return isWhole ? null : best;
}
