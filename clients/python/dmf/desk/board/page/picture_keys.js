/** The keys of the picture: they go from place to place, and move and scale the view. */
import { partOf, parts } from "./drawing.js";
import { at } from "./elements.js";
import { nextPlace } from "./ground.js";
import { moveByKey, undoMove } from "./moving.js";
import { choosePart, fitAll, LARGER, showNear } from "./picture.js";
import { tidy } from "./tidy.js";
import { move, reveal, zoom } from "./view.js";

/** The pixels by which a key moves it. */
const STEP = 60;
/** @type {Record<string, [number, number]>} */
const WAYS = { ArrowRight: [1, 0], ArrowLeft: [-1, 0], ArrowDown: [0, 1], ArrowUp: [0, -1] };

/**
 * Returns the nearest part in a direction that matches a selector.
 * @param {Element} from
 * @param {[number, number]} way
 * @param {string} like
 */
function nextPart(from, [right, down], like) {
  const center = (/** @type {Element} */ part) => {
    const box = (part.querySelector("ellipse, path") ?? part).getBoundingClientRect();
    return [box.x + box.width / 2, box.y + box.height / 2];
  };
  const [x, y] = center(from);
  let best = null, least = Infinity;
  for (const part of parts()) {
    const [toX, toY] = center(part), along = (toX - x) * right + (toY - y) * down;
    const aside = Math.abs((toX - x) * down) + Math.abs((toY - y) * right);
    if (part === from || !part.matches(like) || along <= 1 || along + 2 * aside >= least) continue;
    [best, least] = [part, along + 2 * aside];
  }
  return best;
}

/**
 * Goes to the nearest part in a direction, or to the first. If that is a place that the picture lacks, it is drawn first.
 * @param {SVGGElement | undefined} from
 * @param {[number, number]} way
 * @param {string} like
 */
async function goFrom(from, way, like) {
  const node = like === ".node" && from?.matches(like) ? nextPlace(Number(from.id.slice("node-".length)), way) : null;
  if (node && !partOf({ node })) await showNear(node, true);
  const next = node ? partOf({ node }) : from ? nextPart(from, way, like) : parts().find((it) => it.matches(".node"));
  next?.focus({ preventScroll: true });
  if (next) reveal(next.getBBox());
}

/** @param {KeyboardEvent} event */
function goByKeys(event) {
  const part = parts().find((it) => it === document.activeElement), way = WAYS[event.key];
  if (way && event.altKey && part?.matches(".node")) {
    moveByKey(part, way, event.shiftKey);
  } else if (event.key === "Backspace" && event.altKey) {
    undoMove();
  } else if (way && event.ctrlKey) {
    move(way[0] * STEP, way[1] * STEP);
  } else if (way) {
    goFrom(part, way, event.shiftKey ? ".arc" : ".node");
  } else if ("+=-".includes(event.key)) {
    zoom(event.key === "-" ? 1 / LARGER : LARGER);
  } else if (event.key === "0") {
    fitAll();
  } else if (event.key === "t" && !event.altKey && !event.ctrlKey && !event.metaKey) {
    tidy();
  } else if (part && (event.key === "Enter" || event.key === " ")) {
    choosePart(part);
  } else {
    return;
  }
  event.preventDefault();
}

export const beginKeys = () => at("picture").addEventListener("keydown", goByKeys);
