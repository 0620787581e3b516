/**
 * The positions of the picture's labels: a label lies on no place, except inside its own if it fits, and on no other label, line or
 * arrow, and no edge or card cuts it. The most important ones are placed first; one that finds no spot is hidden. Letters are as large as
 * Graphviz made them, within readable bounds.
 * @typedef {{ part: SVGElement, texts: SVGTextElement[], x: number, y: number, width: number, height: number, size: number,
 *   rank: number, oval: Oval | null, line: Spot[], isBrief?: boolean }} Label
 * @typedef {{ x: number, y: number, right: number, down: number, isDot: boolean }} Oval the middle of a place, and its half axes, unless it
 *   is a dot
 * @typedef {{ x: number, y: number, across: [number, number] }} Spot a point of a line, and the direction at right angles to it
 * @typedef {{ now: Taken, scale: number, ovals: Map<Label, Edges | null> }} Work what the labels lie on, the pixels per unit, and the boxes
 *   of places
 * @typedef {import("./ink.js").Edges} Edges
 * @typedef {import("./spots.js").Ground} Ground
 * @typedef {import("./spots.js").Taken} Taken
 * @typedef {import("./spots.js").Place} Place
 */
import { HALO } from "./arrows.js";
import { Boxes, edges } from "./boxes.js";
import { further, reaches, RINGS, spots } from "./candidates.js";
import { isDot, lead, leadFrom } from "./dots.js";
import { pointsOf } from "./ink.js";
import { arcSpot, endSpot, leaderBoxes } from "./leading.js";
import { freeSpot, sight } from "./spots.js";
import { now as shown, put } from "./store.js";
/** The bounds of the letters' height, in pixels; and the height of a line for that. */
const LEAST = 11.2, MOST = 14, LINE = 1.25;
/** The rank up to which labels are shown even if they have to lie on lines: those of the source, the sink and the selection; and the one
 * up to which a thin line may lead from an arc to its label. */
const NEEDED = 0, LED = 1;
/** Which points of an arc's line its label may lie beside, the best first; and how far further out it may lie, in units. The selection
 * always has a label. */
const ALONG = [6, 4, 8, 2, 10], FURTHEST = 32;
/** What the thin line to a label of the bottleneck may cost, in pixels of its length. */
const FAR = 180;
/**
 * The width of texts, in letters of one pixel.
 * @type {Map<string, number>}
 */
const widths = new Map();

/**
 * Returns the labels in a picture.
 * @param {Iterable<SVGElement>} parts
 * @returns {Label[]}
 */
export function labelsOf(parts) {
  /** @type {Label[]} */
  const labels = [];
  for (const part of parts) {
    const texts = [...part.querySelectorAll("text")];
    if (!texts.length) continue;
    const size = Number(texts[0].getAttribute("font-size")), x = Number(texts[0].getAttribute("x"));
    const middle = texts.reduce((sum, text) => sum + Number(text.getAttribute("y")), 0) / texts.length;
    const width = size * Math.max(...texts.map((text) => wide(text.textContent ?? "")));
    const height = texts.length * size * LINE;
    const oval = ovalOf(part), line = oval ? [] : spotsOf(part);
    labels.push({ part, texts, size, x, y: middle - size / 3, width, height, rank: rank(part), oval, line });
  }
  return labels;
}

/**
 * Returns the greatest width of a text, in letters of one pixel: its width in bold.
 * @param {string} text
 */
function wide(text) {
  const known = widths.get(text), pen = known ? null : document.createElement("canvas").getContext("2d");
  if (!pen) return known ?? text.length;
  pen.font = "bold 100px system-ui, sans-serif";
  widths.set(text, pen.measureText(text).width / 100);
  return widths.get(text) ?? 0;
}

/**
 * Returns the points of an arc's line that its label may lie beside.
 * @param {SVGElement} part
 * @returns {Spot[]}
 */
function spotsOf(part) {
  const path = /** @type {SVGPathElement | null} */ (part.querySelector("path")), points = path ? pointsOf(path) : [];
  return (path ? ALONG : []).map((at) => {
    const [before, after] = [points[at - 1], points[at + 1]], [right, down] = [after.x - before.x, after.y - before.y];
    const long = Math.hypot(right, down) || 1;
    return { x: points[at].x, y: points[at].y, across: [-down / long, right / long] };
  });
}

/**
 * @param {SVGElement} part
 * @returns {Oval | null}
 */
function ovalOf(part) {
  const all = [...part.querySelectorAll("ellipse:not(.halo)")];
  if (!all.length) return null;
  const far = (/** @type {string} */ name) => Math.max(...all.map((it) => Number(it.getAttribute(name))));
  return { x: far("cx"), y: Number(all[0].getAttribute("cy")), right: far("rx"), down: far("ry"), isDot: isDot(part) };
}

/**
 * Returns the rank of a label, the most important first: the source and the sink, the bottleneck or what differs, places, full arcs, other
 * arcs.
 * @param {SVGElement} part
 */
function rank(part) {
  if (part.matches(".node")) return part.querySelectorAll("ellipse:not(.halo)").length > 1 ? 0 : 2;
  return part.matches(".cut, .more, .less, .come, .gone, .else") ? 1 : part.matches(".full") ? 3 : 4;
}

/**
 * Returns a label without its second line.
 * @param {Label} label
 * @returns {Label}
 */
const nameOnly = (label) => {
  const { texts, size } = label, [name] = texts;
  return { ...label, y: Number(name.getAttribute("y")) - size / 3, width: size * wide(name.textContent ?? ""), height: size * LINE,
    isBrief: texts.length > 1 };
};

/**
 * Returns the factor by which the letters of a label are larger than in the drawing.
 * @param {Label} label
 * @param {number} scale
 */
const larger = ({ size }, scale) => Math.min(MOST, Math.max(LEAST, size * scale)) / (size * scale);

/**
 * Returns half the width and half the height of a label, in pixels.
 * @param {Label} label
 * @param {number} scale
 * @returns {[number, number]}
 */
const sizeOf = (label, scale) =>
  [label.width * scale * larger(label, scale) / 2, label.height * scale * larger(label, scale) / 2];

/** Returns what the labels lie on, as an index to which others can be added, or null before they are arranged. */
export const takenNow = () => shown.taken && { ...shown.taken, taken: shown.taken.taken.copy(), places: shown.taken.places.copy() };

/** @param {Label} label */
const isDotOfEnd = ({ oval, rank: importance }) => Boolean(oval?.isDot) && importance <= NEEDED;

/**
 * Returns the rank of a label, with the selection first.
 * @param {Label} label
 */
const first = ({ part, rank: importance }) => (part.matches(".chosen") ? -1 : importance);

/**
 * Takes the room of a label at a spot, and of the thin line to it, and returns its box if it is visible.
 * @param {Label} label
 * @param {Place | undefined} spot
 * @param {Edges | null} root where the line begins
 * @param {Work} work
 */
function take(label, spot, root, { now, scale }) {
  const box = spot && edges(spot[0], spot[1], ...sizeOf(label, scale));
  for (const it of box ? [box, ...root ? leaderBoxes(root, box) : []] : []) {
    now.taken.add(it);
    now.names.add(it);
  }
  showLabel(label, larger(label, scale), spot && { x: spot[0] / scale, y: spot[1] / scale, isIn: spot[2] });
  return box && sight(box, now) === "seen" ? box : null;
}

/**
 * Returns true if the name of a place has its spot, or has none to find.
 * @param {Label} label
 * @param {Work} work
 * @param {boolean} mayLead whether a thin line may lead to it
 */
function place(label, work, mayLead = true) {
  const { now, scale } = work, size = sizeOf(label, scale), own = /** @type {Edges} */ (work.ovals.get(label)), isEnd = isDotOfEnd(label);
  const near = spots(label, ...size, scale, 0), far = first(label) < 0 || isEnd ? further(label, ...size, scale, RINGS) : [];
  const spot = isEnd ? endSpot(own, near, far, size, now, mayLead)
    : freeSpot([...near, ...far], size, now, { own, isNeeded: first(label) <= NEEDED });
  if (spot === null) return false;
  const box = take(label, spot, isEnd ? own : null, work);
  if (label.oval?.isDot) leadFrom(label.part, box, scale);
  return true;
}

/**
 * Places the label of an arc. One of the selection or of the bottleneck that has no room beside its line stands further out, with a thin
 * line to it, or has no numbers.
 * @param {Label} label
 * @param {Work} work
 */
function placeArc(label, work) {
  const { part: arc, line } = label, { now, scale } = work, isChosen = first(label) < 0;
  const half = (now.thicker * Number(arc.style.getPropertyValue("--thick")) + (isChosen ? HALO : 0)) / 2;
  const boxOf = (/** @type {Spot} */ { x, y }) => edges(x * scale, y * scale, half, half);
  const start = first(label) <= LED ? line.find((point) => sight(boxOf(point), now) === "seen") : undefined;
  const root = start ? boxOf(start) : null;
  /** @type {(form: Label, most: number) => boolean} */
  const isPlaced = (form, most) => {
    const size = sizeOf(form, scale), rings = RINGS.filter((ring) => ring * size[1] < FURTHEST * scale || isChosen && !root);
    const found = [...spots(form, ...size, scale, half), ...further(form, ...size, scale, rings)];
    const beside = freeSpot(found, size, now, { arc, isNeeded: isChosen && !root });
    const isBeside = beside && (!root || sight(edges(beside[0], beside[1], ...size), now) === "seen");
    const led = start && root && !isBeside
      ? arcSpot(root, further({ ...form, line: [start] }, ...size, scale, RINGS), size, now, arc, most) : undefined;
    const box = take(form, isBeside ? beside : led, led ? root : null, work);
    lead(arc, led ? box : null, [scale * (start?.x ?? 0), scale * (start?.y ?? 0)], half, scale);
    return Boolean(isBeside || led);
  };
  if (isPlaced(label, FAR) || !root) return;
  if (!isPlaced(nameOnly(label), FAR) && isChosen) isPlaced(label, Infinity);
}

/**
 * Shows the labels that find a spot, and hides the others.
 * @param {Label[]} labels
 * @param {number} scale pixels per unit
 * @param {Ground} ground
 */
export function arrange(labels, scale, ground) {
  const [taken, places, names] = [new Boxes(), new Boxes(), new Boxes()], now = { taken, places, names, ...ground };
  put("taken", now);
  const ovals = new Map(labels.map((label) => {
    const { oval } = label, [aside, above] = reaches(label, scale), box = oval && edges(oval.x * scale, oval.y * scale, aside, above);
    for (const boxes of box ? [taken, places, ...isDotOfEnd(label) ? [names] : []] : []) boxes.add(/** @type {Edges} */ (box));
    return [label, box];
  }));
  const work = { now, scale, ovals };
  const sorted = [...labels].sort((one, other) => first(one) - first(other));
  const chosen = sorted.filter((label) => first(label) < 0), others = sorted.slice(chosen.length);
  for (const label of chosen) (label.oval ? place : placeArc)(label, work);
  // A name to which a line leads takes the room of none that lies beside its place.
  const led = others.filter(isDotOfEnd).filter((label) => !place(label, work, false));
  for (const label of [...led, ...others.filter((it) => !isDotOfEnd(it))]) (label.oval ? place : placeArc)(label, work);
}

/**
 * Shows a label at a spot, or hides it.
 * @param {Label} label
 * @param {number} by the factor by which its letters are larger
 * @param {{ x: number, y: number, isIn: boolean } | undefined} spot
 */
function showLabel({ part, texts, x, y, isBrief }, by, spot) {
  part.classList.toggle("unlabelled", !spot);
  part.classList.toggle("brief", Boolean(isBrief));
  part.classList.toggle("spread", Boolean(spot) && !spot?.isIn);
  const moved = spot ? `translate(${spot.x} ${spot.y}) scale(${by}) translate(${-x} ${-y})` : "";
  for (const text of spot ? texts : []) if ((text.getAttribute("transform") ?? "") !== moved) text.setAttribute("transform", moved);
}
