/**
 * The part of the bottleneck beyond the edge of the picture: a button at that edge says how much it is, and shows it.
 * @typedef {import("./room.js").Room} Room
 */
import { at } from "./elements.js";
import { grouped } from "./words.js";

const SIGNS = { left: "←", right: "→", top: "↑", bottom: "↓" };

/**
 * Returns the edge beyond which a point lies, or null if it is in the room.
 * @param {number[]} point in pixels
 * @param {Room} room
 */
function edgeOf([x, y], { left, right, top, bottom }) {
  const over = { left: left - x, right: x - right, top: top - y, bottom: y - bottom };
  const [edge, by] = Object.entries(over).reduce((most, one) => (one[1] > most[1] ? one : most));
  return by > 0 ? /** @type {keyof typeof SIGNS} */ (edge) : null;
}

/**
 * If no part of the bottleneck is visible, says how much of it lies beyond the edge where most of it is.
 * @param {number[][]} points the middles of its arcs, in pixels of the picture
 * @param {Room} room the free part of the picture
 * @param {DOMRect | undefined} chosen the box of what is selected, which the button does not cover
 */
export function hintBeyond(points, room, chosen) {
  const edges = points.map((point) => edgeOf(point, room)), out = edges.flatMap((edge) => edge ?? []), hint = at("beyond");
  hint.hidden = !out.length || out.length < edges.length;
  if (hint.hidden) return;
  const counts = new Map(out.map((edge) => [edge, out.filter((it) => it === edge).length]));
  const [edge] = [...counts].reduce((most, one) => (one[1] > most[1] ? one : most));
  const text = `${grouped(points.length)} of the bottleneck`;
  hint.textContent = edge === "right" ? `${text} ${SIGNS[edge]}` : `${SIGNS[edge]} ${text}`;
  const { offsetWidth: wide, offsetHeight: high } = hint, [x, y] = [(room.left + room.right) / 2, (room.top + room.bottom) / 2];
  const left = edge === "left" ? room.left : edge === "right" ? room.right - wide : x - wide / 2;
  const middle = edge === "top" ? room.top : edge === "bottom" ? room.bottom - high : y - high / 2;
  const isFree = (/** @type {number} */ from) => !chosen || from > chosen.bottom || from + high < chosen.top || left > chosen.right
    || left + wide < chosen.left;
  const top = [middle, room.top, room.bottom - high].find(isFree) ?? middle;
  hint.style.setProperty("left", `${left}px`);
  hint.style.setProperty("top", `${top}px`);
}
