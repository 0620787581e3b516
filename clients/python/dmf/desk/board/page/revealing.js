/**
 * Brings what is selected into the free part of the window: the view moves as little as that takes, and comes nearer if the usual line is
 * too short to be seen well.
 * @typedef {import("./view.js").Box} Box
 */
import { theChoice } from "./choice.js";
import { partOf } from "./drawing.js";
import { groundBox, isFar, isGround } from "./ground.js";
import { showNear, usualPixels } from "./picture.js";
import { ask } from "./state.js";
import { fit, freeBox, move, reveal, scale, zoom } from "./view.js";

/** The length of the usual line, in pixels, below which the view comes nearer, and the one that it then has; the largest factor for that;
 * and the largest part of the free part that the selection may fill. */
const SHORT = 26, LONG = 34, MOST = 6, FILLED = 0.9;

/**
 * Returns how many times the free part is as large as a box, as far as it is to be filled.
 * @param {Box} box
 */
function space(box) {
  const free = freeBox();
  return FILLED * Math.min(free.width / Math.max(box.width, 1), free.height / Math.max(box.height, 1));
}

/** @param {Box} box is brought nearer, to the middle of the free part, if it is shown too small */
function approach(box) {
  const by = Math.min(MOST, LONG / usualPixels(), space(box));
  if (usualPixels() >= SHORT || by <= 1) return;
  zoom(by);
  const free = freeBox(), [x, y] = [box.x + box.width / 2 - free.x - free.width / 2, box.y + box.height / 2 - free.y - free.height / 2];
  move(x * scale(), y * scale());
}

/**
 * Draws what is near the selection.
 * @param {import("./state.js").Choice} chosen
 */
async function drawNear(chosen) {
  const node = chosen.node ?? (await ask(`arc?number=${chosen.arc}`, undefined, true))?.tail_node;
  if (node && chosen === theChoice()) await showNear(node, isGround());
}

/** Moves the picture to the selection, after drawing it if it was not drawn. */
export async function revealChosen() {
  const chosen = theChoice();
  if (chosen && !partOf(chosen) && !isGround()) await drawNear(chosen);
  if (chosen !== theChoice()) return;
  // Its label may lie far away, and comes nearer.
  const shape = /** @type {SVGGraphicsElement | null | undefined} */ (partOf(chosen)?.querySelector("ellipse, path"));
  const box = shape?.getBBox() ?? groundBox(".chosen");
  if (!box) return;
  approach(box);
  if (space(box) < FILLED) fit(box);
  else reveal(box);
  // Of all arcs seen from far away, only those that are drawn in front have labels.
  if (chosen && isFar() && !partOf(chosen)) await drawNear(chosen);
}
