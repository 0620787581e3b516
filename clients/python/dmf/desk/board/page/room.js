/**
 * The part of the window in which nothing covers the picture.
 * @typedef {{ left: number, top: number, right: number, bottom: number }} Room
 */
import { at } from "./elements.js";

/** The margin to what covers the picture, and the least size of the free part, in pixels. */
const RIM = 12, LEAST = 80;

/**
 * Returns the free part of the picture, in pixels from its corner.
 * @param {number} rim how far it stays away from what covers the picture
 * @returns {Room}
 */
export function freePart(rim = RIM) {
  const whole = at("picture").getBoundingClientRect(), head = at("head").getBoundingClientRect();
  const foot = at("foot").getBoundingClientRect(), panel = at("panel").getBoundingClientRect(), fold = at("fold").getBoundingClientRect();
  const moves = at("moves").getBoundingClientRect(), beside = moves.height > moves.width ? moves.left : whole.width;
  // The panel is at the right, with a column of buttons beside it, or is a bottom sheet.
  const isSheet = !fold.width, right = isSheet ? whole.width : Math.min(whole.width, fold.left, beside);
  const below = Math.min(whole.height, isSheet ? panel.top : whole.height, foot.height ? foot.top : whole.height);
  // If all is covered, as by a sheet at its full height, a part of the least size counts as free.
  const top = Math.min(head.bottom, whole.height - LEAST), bottom = Math.max(below, top + LEAST);
  return { left: rim, top: top + rim, right: Math.max(right - rim, rim + LEAST), bottom: bottom - rim };
}

/** Returns how many hundredths of its height the free part is wide. */
export function formOf() {
  const { left, top, right, bottom } = freePart();
  return Math.max(1, Math.round(100 * (right - left) / (bottom - top)));
}

/** Returns the boxes of what covers the picture, in pixels from its corner. */
export const covers = () => ["head", "foot", "moves", "panel", "fold", "beyond"].map((id) => at(id).getBoundingClientRect())
  .filter(({ width, height }) => width && height);
