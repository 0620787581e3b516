/**
 * The view, which is the visible part of the picture: it can be moved, scaled about a point, and fitted to a box.
 * @typedef {{ x: number, y: number, width: number, height: number }} Box
 * @typedef {{ box: Box, wide: number, high: number, fitted: Box | null, focus: { x: number, y: number },
 *   drawnBox: Box | null, isGliding: boolean }} View
 *   the visible part of the picture, and its size in pixels; the box to which it was fitted last, if it was not moved since; the middle of
 *   the latest free part that was large enough; the visible part for which the picture was drawn, or null before; and whether that drawing
 *   glides along until the view rests
 */
import { at } from "./elements.js";
import { glide, rest } from "./gliding.js";
import { formOf, freePart } from "./room.js";
import { now, put } from "./store.js";

/** The largest scale, in pixels per unit of the picture, and the largest one for a fit; the smallest; and, in pixels, the room for labels
 * at each side, the least height of a free part that somebody looks at, and the least move that somebody sees. */
const MOST = 6, MOST_FITTED = 1.8, LEAST = 0.004, ASIDE = 60, LEAST_FREE = 80, SEEN = 0.5;

/** Returns true if the view was fitted, and not moved since. */
export const isFitted = () => Boolean(now.view.fitted);

/** Returns the pixels per unit of the picture. */
export const scale = () => now.view.wide / now.view.box.width;

/** Returns the visible part of the picture. */
export const seenBox = () => now.view.box;

/** Returns the size of the window. To measure it lays the page out. */
function windowSize() {
  const { clientWidth: wide, clientHeight: high } = at("picture");
  return { wide, high };
}

/**
 * Moves the view to a middle, at a scale in pixels per unit.
 * @param {number} x
 * @param {number} y
 * @param {number} pixels
 * @param {boolean} isGesture whether it is one of many moves, between which a large picture need not be drawn, and nothing is measured
 * @param {Box | null} fitted the box to which it is fitted
 */
function show(x, y, pixels, isGesture = false, fitted = null) {
  const by = bounded(pixels), { wide, high } = isGesture ? now.view : windowSize();
  const box = { width: wide / by, height: high / by, x: x - wide / by / 2, y: y - high / by / 2 };
  const view = { ...now.view, box, wide, high, fitted };
  if (isGesture && glide(box, by, see)) put("view", { ...view, isGliding: true });
  else draw(view);
}

/** @param {number} pixels per unit */
const bounded = (pixels) => Math.min(MOST, Math.max(LEAST, pixels));

/** @param {View} view in which the picture is drawn */
function draw(view) {
  rest();
  const free = freePart(), focus = isRoomy(free) ? middleOf(freeBox(free, view)) : view.focus, { x, y, width, height } = view.box;
  const svg = at("picture").querySelector("svg"), box = [x, y, width, height].join(" ");
  if (svg?.getAttribute("viewBox") !== box) svg?.setAttribute("viewBox", box);
  put("view", { ...view, focus, drawnBox: view.box, isGliding: false });
}

/** Draws the picture in the view. */
export const see = () => draw(now.view);

/** Draws the view at once, if it is moving. Returns whether it was. */
export function settle() {
  const was = now.view.isGliding;
  if (was) see();
  return was;
}

/** @param {Box} box */
const middleOf = ({ x, y, width, height }) => ({ x: x + width / 2, y: y + height / 2 });
const middle = () => middleOf(seenBox());

/** @param {import("./room.js").Room} room */
const middleOfRoom = ({ left, top, right, bottom }) => ({ x: (left + right) / 2, y: (top + bottom) / 2 });

/**
 * Returns true if a free part is large enough to show something in it.
 * @param {import("./room.js").Room} room
 */
const isRoomy = ({ top, bottom }) => bottom - top > LEAST_FREE;

/** Keeps the view in a free part that has changed: a fitted box is fitted again, or else the middle stays. */
function showAgain() {
  const { drawnBox, fitted, focus } = now.view;
  if (!drawnBox) return;
  if (fitted) fit(fitted);
  else showFree(focus.x, focus.y, scale());
}

/** Keeps the view after the window has changed its size, or a phone was turned. */
function refresh() {
  const { wide, high } = windowSize();
  if (wide === now.view.wide && high === now.view.high) return;
  showAgain();
  put("form", formOf());
}

/**
 * Scales the picture, which fills the window, by a factor about a point of it, or about the middle of its free part.
 * @param {number} by
 * @param {{ x: number, y: number }} [point]
 * @param {boolean} isGesture
 */
export function zoom(by, point, isGesture = false) {
  const pixels = bounded(scale() * by), { x, y } = point ?? middleOfRoom(freePart());
  const [right, down] = [x - now.view.wide / 2, y - now.view.high / 2];
  show(middle().x + right / scale() - right / pixels, middle().y + down / scale() - down / pixels, pixels, isGesture);
}

/**
 * Moves the view, in pixels.
 * @param {number} right
 * @param {number} down
 * @param {boolean} isGesture
 */
export function move(right, down, isGesture = false) {
  show(middle().x + right / scale(), middle().y + down / scale(), scale(), isGesture);
}

/**
 * Returns a part of the window, or the one that nothing covers, in units of the picture.
 * @param {import("./room.js").Room} part
 * @param {View} view
 * @returns {Box}
 */
export function freeBox({ left, top, right, bottom } = freePart(), { box: { x, y, width }, wide } = now.view) {
  const by = wide / width;
  return { x: x + left / by, y: y + top / by, width: (right - left) / by, height: (bottom - top) / by };
}

/**
 * Moves a point to the middle of the free part, at a scale in pixels per unit.
 * @param {number} x
 * @param {number} y
 * @param {number} pixels
 * @param {Box | null} fitted
 */
function showFree(x, y, pixels, fitted = null) {
  const { left, top, right, bottom } = freePart(), { wide, high } = windowSize(), by = bounded(pixels);
  show(x + (wide - left - right) / 2 / by, y + (high - top - bottom) / 2 / by, by, false, fitted);
}

/**
 * Makes a change to what covers the picture, and keeps the view in the free part.
 * @param {() => unknown} change
 */
export function keepFree(change) {
  settle();
  const before = freePart();
  change();
  const free = freePart();
  if (isRoomy(free) && (free.bottom !== before.bottom || free.right !== before.right)) showAgain();
}

/** @param {Box} box is shown whole, in the free part, with room for labels beside it */
export function fit(box) {
  const { x, y, width, height } = box;
  const { left, top, right, bottom } = freePart(), aside = right - left > 5 * ASIDE ? 2 * ASIDE : 0;
  const pixels = Math.min((right - left - aside) / Math.max(width, 1), (bottom - top) / Math.max(height, 1));
  showFree(x + width / 2, y + height / 2, Math.min(MOST_FITTED, pixels), box);
}

/**
 * Returns how far a span has to be moved to lie in another one, or about its middle if it is longer.
 * @param {number} from
 * @param {number} long
 * @param {number} free where the other one begins
 * @param {number} room the length of the other one
 */
const into = (from, long, free, room) =>
  long > room ? free + room / 2 - from - long / 2 : Math.max(free - from, 0) + Math.min(free + room - from - long, 0);

/** @param {Box} box should be visible: the view moves as little as brings it into the free part */
export function reveal({ x, y, width, height }) {
  const free = freeBox(), right = into(x, width, free.x, free.width) * scale(), down = into(y, height, free.y, free.height) * scale();
  if (Math.hypot(right, down) > SEEN) move(-right, -down);
}

export const beginView = () => new ResizeObserver(refresh).observe(at("picture"));
