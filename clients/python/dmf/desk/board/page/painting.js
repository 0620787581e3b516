/**
 * The layer behind the picture: a canvas, since so many elements would be slow to move.
 * @typedef {import("./view.js").Box} Box
 * @typedef {import("./ground.js").Line} Line
 * @typedef {import("./ground.js").Spot} Spot
 * @typedef {import("./brush.js").Brush} Brush
 */
import { INSIDE } from "./arrows.js";
import { arrowSize, brushOf, circle, point, reach, stroke } from "./brush.js";
import { shadeOf, thicker, thickness } from "./colourings.js";
import { paintEnd } from "./dots.js";
import { at } from "./elements.js";
import { isFaded } from "./filter.js";
import { BEYOND, wider } from "./gliding.js";
import { endsOf, isFar, isGround, isMarked, isOfLimit } from "./ground.js";
import { shades } from "./legend.js";
import { isSparse, paintNames } from "./names.js";
import { now } from "./store.js";
import { scale, seenBox } from "./view.js";

/** The look of a place before the bottleneck, and of one that is shut; and the way of an arc in which nothing flows either way. */
const BEFORE = "b", SHUT = "s", STILL = "-";
/** The opacity of what a filter leaves out. */
const FADED = 0.16;
/** The size of a shade, and of what a place may reach, in units. */
const ROUND = 90, RIM = 60;
/** The least radius there in usual lengths of lines, so that it has no gaps between the places of a square. */
const CLOSED = 0.75;
/** The most lines at sources and sinks that names avoid. */
const MOST_AVOIDED = 1000;

/** Paints the visible part. */
export function paint() {
  const canvas = /** @type {HTMLCanvasElement} */ (at("ground")), box = wider(seenBox(), BEYOND), by = devicePixelRatio;
  // An empty canvas would be drawn with the picture.
  canvas.hidden = !isGround();
  at("picture").classList.toggle("far", isFar());
  const pen = isGround() && canvas.getContext("2d");
  if (!pen) return;
  const [wide, high] = [canvas.clientWidth, canvas.clientHeight].map((size) => Math.round(size * by));
  if (canvas.width !== wide || canvas.height !== high) Object.assign(canvas, { width: wide, height: high });
  pen.resetTransform();
  pen.clearRect(0, 0, wide, high);
  paintOn(pen, box, by);
}

/**
 * Paints a part of the picture, with names.
 * @param {CanvasRenderingContext2D} pen
 * @param {Box} box
 * @param {number} by how many pixels of the canvas are one of the page
 */
export function paintOn(pen, box, by) {
  const brush = brushOf(pen, scale(), isFar()), behind = paintParts(brush, box, by);
  paintNames(pen, behind.filter((place) => isAt(seenBox(), place)), brush.colour, (place) => reach(brush, place));
}

/**
 * Paints all arcs and places on a canvas, without names, so that they fill it.
 * @param {HTMLCanvasElement} canvas
 * @param {Box} box
 * @param {number} pixels of the canvas per unit of the picture
 */
export function paintAll(canvas, box, pixels) {
  Object.assign(canvas, { width: Math.ceil(box.width * pixels), height: Math.ceil(box.height * pixels) });
  const pen = canvas.getContext("2d");
  if (pen) paintParts(brushOf(pen, pixels, true), box, 1);
}

/**
 * Paints the arcs and places in a box, and returns those places.
 * @param {Brush} brush
 * @param {Box} box
 * @param {number} by how many pixels of the canvas are one of the page
 */
function paintParts(brush, box, by) {
  const { pen, isAllBehind } = brush, pixels = brush.scale * by, seen = now.ground.lines.filter((line) => isIn(box, line));
  pen.setTransform(pixels, 0, 0, pixels, -box.x * pixels, -box.y * pixels);
  if (isFar(brush.scale)) shadeBefore(brush);
  stroke(brush, seen.filter(isMarked), "mark", 9);
  paintLines(brush, seen.filter((line) => isAllBehind || !now.drawn.ids.has(`arc-${line.number}`)));
  const behind = paintPlaces(brush, box);
  // Places that lie close together would hide the bottleneck, which is what one looks for at this scale.
  if (isFar(brush.scale)) paintLines(brush, seen.filter(isOfLimit));
  return behind;
}

/**
 * Paints lines, those that look alike together: first those that a filter leaves out, then from the legend's last entry to its first.
 * @param {Brush} brush
 * @param {Line[]} drawn
 */
function paintLines(brush, drawn) {
  const entries = shades(), by = thicker(now.ground.usual * brush.scale);
  /** @type {Map<string, Line[]>} */
  const alike = new Map();
  for (const line of drawn) {
    const place = entries.length - entries.indexOf(shadeOf(entries, line.mark));
    const key = `${isFaded(line.mark) ? 0 : 1}${String.fromCharCode(48 + place)}${line.mark.width}`;
    const group = alike.get(key);
    if (group) group.push(line);
    else alike.set(key, [line]);
  }
  for (const [key, lines] of [...alike].sort(([one], [other]) => (one < other ? -1 : 1))) {
    const shade = shadeOf(entries, lines[0].mark), wide = by * thickness(lines[0].mark);
    brush.pen.globalAlpha = key.startsWith("0") ? FADED : 1;
    stroke(brush, lines, shade.ink, wide, shade.isDashed ? [5, 3] : []);
    const pointed = lines.filter((line) => line.mark.way !== STILL);
    if (lines[0].mark.state !== "c") point(brush, pointed, wide < INSIDE ? shade.ink : "paper", arrowSize(wide));
  }
  brush.pen.globalAlpha = 1;
}

/**
 * Shades the places before the bottleneck, which are too small to be told from others.
 * @param {Brush} brush
 */
function shadeBefore({ pen, colour }) {
  const radius = Math.max(ROUND, CLOSED * now.ground.usual);
  pen.beginPath();
  for (const { x, y, look } of now.ground.places.values()) {
    if (look !== BEFORE) continue;
    pen.moveTo(x, y);
    pen.arc(x, y, radius, 0, 2 * Math.PI);
  }
  pen.fillStyle = colour("side");
  pen.fill();
}

/**
 * Returns true if a line may be visible.
 * @param {Box} box
 * @param {Line} line
 */
function isIn(box, { from, to }) {
  return Math.max(from[0], to[0]) >= box.x && Math.min(from[0], to[0]) <= box.x + box.width
    && Math.max(from[1], to[1]) >= box.y && Math.min(from[1], to[1]) <= box.y + box.height;
}

/**
 * Returns true if a place may be visible.
 * @param {Box} box
 * @param {Spot} place
 */
const isAt = (box, { x, y }) => x >= box.x - RIM && y >= box.y - RIM && x <= box.x + box.width + RIM && y <= box.y + box.height + RIM;

/**
 * Paints the places, and returns them.
 * @param {Brush} brush
 * @param {Box} box
 */
function paintPlaces(brush, box) {
  const { pen, scale: by, isAllBehind, colour } = brush;
  const { ground: { places }, drawn: { ids } } = now;
  const behind = [...places.values()].filter((place) => isAt(box, place) && (isAllBehind || !ids.has(`node-${place.node}`)));
  /**
   * Those that look alike are painted together, and the selection last.
   * @type {Record<string, Spot[]>}
   */
  const alike = { unused: [], ink: [], mark: [] };
  for (const place of behind) alike[isMarked(place) ? "mark" : place.look === SHUT ? "unused" : "ink"].push(place);
  pen.setLineDash([]);
  for (const [ink, spots] of Object.entries(alike)) {
    circle(brush, spots.filter(({ end }) => !end));
    Object.assign(pen, { strokeStyle: colour(ink), lineWidth: (ink === "mark" ? 5 : 1) / by });
    pen.stroke();
    for (const fill of ["side", "paper"]) {
      circle(brush, spots.filter(({ look, end }) => !end && (look === BEFORE) === (fill === "side")));
      pen.fillStyle = colour(fill);
      pen.fill();
    }
  }
  for (const it of behind.filter(({ end }) => end)) {
    const ink = it.look === SHUT ? "unused" : it.share < 1 ? "limit" : "ink", rim = isMarked(it) ? "mark" : ink;
    paintEnd(pen, it, by, { rim: colour(rim), fill: colour(it.look === BEFORE ? "side" : "paper"), share: colour(ink) });
  }
  return behind;
}

/** @param {Line} line */
const isAtEnd = ({ tail, head }) => [tail, head].some((node) => now.ground.places.get(node)?.end);

/**
 * Returns the lines and the arrows that names avoid: all that are visible, or if they are too many to be avoided, only the bottleneck and
 * those at a source or a sink, unless these are too many as well.
 * @returns {import("./ink.js").Stroke[]}
 */
export function strokesSeen() {
  const { lines, usual } = now.ground, by = thicker(usual * scale()), seen = lines.filter((line) => isIn(seenBox(), line));
  const atEnds = isSparse() ? [] : seen.filter((line) => isAtEnd(line) && !isOfLimit(line));
  const avoided = isSparse() ? seen : [...seen.filter(isOfLimit), ...atEnds.length > MOST_AVOIDED ? [] : atEnds];
  return avoided.flatMap((line) => {
    const [from, to] = endsOf(line).map(([x, y]) => ({ x, y })), thick = by * thickness(line.mark);
    const middle = { x: (from.x + to.x) / 2, y: (from.y + to.y) / 2 };
    return [{ points: [from, to], thick }, { points: [middle, middle], thick: 2 * arrowSize(thick) }];
  });
}
