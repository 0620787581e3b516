/**
 * A large picture that is dragged or zoomed: what is drawn glides along by a transform, which takes no drawing, and the overview lies
 * around it. It is drawn again when the view rests, or before a large part of the view would be drawn coarsely or not at all.
 * @typedef {import("./view.js").Box} Box
 * @typedef {{ box: Box, scale: number }} Overview what it shows, and its pixels per unit
 */
import { at } from "./elements.js";
import { now, put } from "./store.js";

/** How much of a large picture is drawn beyond each edge of the window, in parts of the window. */
export const BEYOND = 0.25;
/** How long the view has to rest, in milliseconds; and how many times as large a drawing may be shown. */
const STILL = 120, LARGEST = 8;
/** How far a size may be from another one that is the same but for rounding. */
const ALIKE = 1e-6;
let resting = 0, frame = 0;

/** Goes on waiting for the view to rest. */
function goOn() {
  clearTimeout(resting);
  cancelAnimationFrame(frame);
}

/** @param {Box | null} box that of the whole picture if it is too large to be drawn for each frame, or else null */
export function setWhole(box) {
  put("whole", box);
  at("layers").classList.toggle("large", Boolean(box));
}

/**
 * Returns a box that is larger at each side.
 * @param {Box} box
 * @param {number} by in parts of the box
 * @returns {Box}
 */
export const wider = ({ x, y, width, height }, by) =>
  ({ x: x - by * width, y: y - by * height, width: (1 + 2 * by) * width, height: (1 + 2 * by) * height });

/**
 * Returns true if the part of the picture in a view is drawn.
 * @param {Box} seen
 * @param {Box} all
 * @param {Box} drawn
 */
function isDrawn(seen, all, drawn) {
  const known = wider(drawn, BEYOND);
  return Math.max(seen.x, all.x) >= known.x && Math.max(seen.y, all.y) >= known.y
    && Math.min(seen.x + seen.width, all.x + all.width) <= known.x + known.width
    && Math.min(seen.y + seen.height, all.y + all.height) <= known.y + known.height;
}

/**
 * Returns true if the overview helps out in a view that shows more than what is drawn: the view is about as far away as the overview, or
 * its middle is drawn.
 * @param {Box} seen
 * @param {boolean} isFar
 * @param {Box} drawn
 */
function isHelped({ x, y, width, height }, isFar, drawn) {
  const known = wider(drawn, BEYOND), [right, down] = [x + width / 2 - known.x, y + height / 2 - known.y];
  return now.overview !== null && (isFar || right > 0 && right < known.width && down > 0 && down < known.height);
}

/**
 * Shows a layer where it lies in a view. At its own size it is moved by whole pixels, which are copied, and not computed from those beside.
 * @param {string} id
 * @param {Box} box the part of the picture that begins at the corner of the layer
 * @param {Box} seen
 * @param {number} scale the view's pixels per unit
 * @param {number} by how many times as large as it was drawn
 */
function place(id, box, seen, scale, by) {
  const isSame = Math.abs(by - 1) < ALIKE;
  const [right, down] = [box.x - seen.x, box.y - seen.y].map((far) => (isSame ? Math.round(far * scale) : far * scale));
  at(id).style.setProperty("transform", `translate(${right}px, ${down}px)${isSame ? "" : ` scale(${by})`}`);
}

/**
 * Shows a view by what is drawn, until it rests. Returns false if it has to be drawn.
 * @param {Box} seen
 * @param {number} scale pixels per unit
 * @param {() => unknown} draw draws the view
 */
export function glide(seen, scale, draw) {
  const { whole, overview, view: { drawnBox: drawn } } = now;
  if (!whole || !drawn) return false;
  const by = drawn.width / seen.width, isCovered = isDrawn(seen, whole, drawn);
  // Nearer in size to the overview than to what is drawn.
  const isFar = !isCovered && overview !== null && scale * by < overview.scale;
  if (by > LARGEST || !isCovered && !isHelped(seen, isFar, drawn)) return false;
  goOn();
  // Where frames take longer than that, the next move may already wait for the next frame.
  resting = setTimeout(() => { frame = requestAnimationFrame(draw); }, STILL);
  at("layers").classList.add("gliding");
  at("layers").classList.toggle("far", isFar);
  place("layers", drawn, seen, scale, by);
  if (at("overview").hidden !== isCovered) at("overview").hidden = isCovered;
  if (overview && !isCovered) place("overview", overview.box, seen, scale, scale / overview.scale);
  return true;
}

/** Ends a glide, before the picture is drawn for another view. */
export function rest() {
  goOn();
  if (!now.view.isGliding) return;
  at("overview").hidden = true;
  at("layers").classList.remove("gliding", "far");
  at("layers").style.transform = "";
}
