/**
 * Places of a drawn picture that are moved by hand, with the pointer or by keys. Their lines follow, and the board keeps where they lie.
 * @typedef {import("./gestures.js").Held} Held
 * @typedef {{ node: number, name: string, x: number, y: number, to: (x: number, y: number) => void }} Carried a place that is being moved,
 *   where it was, and a function that shows it elsewhere
 * @typedef {{ node: number, name: string, x: number, y: number }} Move where a place was
 */
import { theChoice } from "./choice.js";
import { partOf, parts } from "./drawing.js";
import { at, onClick } from "./elements.js";
import { dropHeld } from "./gestures.js";
import { isFar, moveOnGround } from "./ground.js";
import { news } from "./messages.js";
import { paint } from "./painting.js";
import { showPicture } from "./picture.js";
import { ask } from "./state.js";
import { now, put, watch } from "./store.js";
import { reveal, scale } from "./view.js";
import { sentence } from "./words.js";

/** How far a key moves a place, and with Shift, in pixels; and how long keys rest before the board is told, in milliseconds. */
const STEP = 20, FINE = 2, REST = 400;
/**
 * Where places lie that were put there, until the board's picture shows it; the latest move that was sent; and the place that keys move,
 * and where it lies now.
 * @type {{ flying: Map<number, number[]>, latest: Promise<void>, keyed: { place: Carried, x: number, y: number } | null, resting: number }}
 */
const activity = { flying: new Map(), latest: Promise.resolve(), keyed: null, resting: 0 };

/** @param {string | null} text the numbers in a path or in a list of points */
const pointsIn = (text) => {
  const numbers = (text?.match(/-?[\d.]+(?:e-?\d+)?/g) ?? []).map(Number);
  return numbers.filter((_, place) => place % 2 === 0).map((x, place) => [x, numbers[2 * place + 1]]);
};

/**
 * Returns how far along a curve its points are, from 0 to 1, so that a straight line stays one.
 * @param {number[][]} curve
 */
function alongOf(curve) {
  const ways = curve.map(([x, y], place) => Math.hypot(x - curve[Math.max(place - 1, 0)][0], y - curve[Math.max(place - 1, 0)][1]));
  const whole = ways.reduce((sum, way) => sum + way, 0) || 1;
  let sum = 0;
  return ways.map((way) => (sum += way) / whole);
}

/**
 * Returns a function that bends a line, one or both of whose ends are moved.
 * @param {SVGElement} part
 * @param {number} node
 */
function bending(part, node) {
  const [isTail, isHead] = (part.dataset.ends ?? "").split(" ").map((end) => Number(end) === node);
  const paths = [...part.querySelectorAll("path")], curve = pointsIn(paths[0]?.getAttribute("d")), head = part.querySelector("polygon");
  const corners = pointsIn(head?.getAttribute("points") ?? "");
  const share = (/** @type {number} */ along) => (isTail ? 1 - along : 0) + (isHead ? along : 0), shares = alongOf(curve).map(share);
  return (/** @type {number} */ right, /** @type {number} */ down) => {
    const shifted = (/** @type {number[]} */ [x, y], /** @type {number} */ by) => `${x + by * right},${y + by * down}`;
    const [begin, ...others] = curve.map((point, place) => shifted(point, shares[place]));
    for (const path of paths) path.setAttribute("d", `M${begin}C${others.join(" ")}`);
    head?.setAttribute("points", corners.map((corner) => shifted(corner, share(0.5))).join(" "));
    part.classList.toggle("bent", Boolean(right || down));
  };
}

/**
 * Returns a place that is going to be moved.
 * @param {SVGElement} part
 * @returns {Carried}
 */
function carry(part) {
  const oval = part.querySelector("ellipse.inner"), node = Number(part.id.slice("node-".length));
  const drawn = ["cx", "cy"].map((name) => Number(oval?.getAttribute(name))), [x, y] = activity.flying.get(node) ?? drawn;
  const lines = parts().filter((it) => it.dataset.ends?.split(" ").includes(String(node))).map((it) => bending(it, node));
  return { node, name: part.querySelector("text")?.textContent ?? "", x, y, to: (toX, toY) => {
    const [right, down] = [toX - drawn[0], toY - drawn[1]];
    if (right || down) part.setAttribute("transform", `translate(${right} ${down})`);
    else part.removeAttribute("transform");
    for (const bend of lines) bend(right, down);
    moveOnGround(node, toX, toY);
    paint();
  } };
}

/**
 * Tells the board where a place lies now. If it refuses, the place lies where it was.
 * @param {Carried} place
 * @param {number} x
 * @param {number} y
 * @param {boolean} isUndone whether this takes a move back
 */
async function send(place, x, y, isUndone) {
  const [right, down] = [x, y].map((it) => Math.round(100 * it));
  activity.flying.set(place.node, [x, y]);
  const told = await ask("move", { node: place.node, right, down, form: now.drawing.form });
  if (!told) {
    activity.flying.delete(place.node);
    place.to(place.x, place.y);
    return;
  }
  if (!isUndone) put("moves", [...now.moves, { node: place.node, name: place.name, x: place.x, y: place.y }]);
  const { kept_in: file, why_not: why } = told, kept = !file ? "" : why ? ` ${file} does not keep it: ${why}.` : ` ${file} keeps it.`;
  news(`${place.name} ${isUndone ? "lies where it was before" : "was moved"}.${kept}`);
  showUndo();
  await showPicture();
  activity.flying.delete(place.node);
}

/** @type {typeof send} */
function putPlace(...move) {
  activity.latest = send(...move);
  return activity.latest;
}

function showUndo() {
  at("undo-move").hidden = !now.moves.length;
}

/** Takes the latest move on this page back. */
export async function undoMove() {
  await (putKeyed() ?? activity.latest);
  const last = now.moves.at(-1);
  if (!last) return;
  put("moves", now.moves.slice(0, -1));
  await putPlace({ ...last, to: () => undefined }, last.x, last.y, true);
}

/** Tells the board where keys have moved a place to. */
function putKeyed() {
  clearTimeout(activity.resting);
  const moved = activity.keyed;
  activity.keyed = null;
  return moved && putPlace(moved.place, moved.x, moved.y, false);
}

/**
 * Moves a place by a key. The board is told when the keys rest.
 * @param {SVGGElement} part
 * @param {[number, number]} way
 * @param {boolean} isFine
 */
export function moveByKey(part, [right, down], isFine) {
  const { fixed } = now.drawing;
  if (fixed) {
    news(sentence(fixed));
    return;
  }
  if (activity.keyed && activity.keyed.place.node !== Number(part.id.slice("node-".length))) putKeyed();
  const place = activity.keyed?.place ?? carry(part), { x, y } = activity.keyed ?? place, by = (isFine ? FINE : STEP) / scale();
  activity.keyed = { place, x: x + by * right, y: y + by * down };
  place.to(activity.keyed.x, activity.keyed.y);
  reveal(part.getBBox());
  clearTimeout(activity.resting);
  activity.resting = setTimeout(putKeyed, REST);
}

/**
 * Returns the place that a drag moves, if it begins on one, and not on a name beside it. A finger moves the selected place alone.
 * @param {PointerEvent} event
 * @returns {Held | null}
 */
export function grab(event) {
  const on = event.target instanceof Element && !event.target.matches(".spread > text") ? event.target : null;
  const part = /** @type {SVGElement | null} */ (on?.closest("#picture g.node") ?? null);
  if (!part || now.drawing.fixed || isFar() || event.pointerType === "touch" && part !== partOf(theChoice())) return null;
  putKeyed();
  const place = carry(part);
  let [x, y] = [place.x, place.y];
  return {
    move: (right, down) => {
      [x, y] = [place.x + right / scale(), place.y + down / scale()];
      place.to(x, y);
    },
    put: () => putPlace(place, x, y, false),
    drop: () => place.to(place.x, place.y),
  };
}

export function beginMoving() {
  watch("drawing", ({ fixed, layout }, old) => {
    at("picture").classList.toggle("movable", !fixed);
    // In another layout places lie elsewhere.
    if (layout !== old.layout) put("moves", []);
    showUndo();
  });
  watch("newest", ({ picture }) => {
    if (!activity.flying.size && picture !== now.drawing.version) showPicture();
  });
  onClick("undo-move", undoMove);
  document.addEventListener("keydown", (event) => {
    if (event.key === "Escape" && dropHeld()) event.preventDefault();
  }, true);
}
