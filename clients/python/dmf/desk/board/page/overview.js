/** The overview: a whole map as a small picture, which lies around what is drawn while the view moves. */
import { at } from "./elements.js";
import { wider } from "./gliding.js";
import { groundBox } from "./ground.js";
import { paintAll } from "./painting.js";
import { put } from "./store.js";

/** The room for what reaches beyond the middles of places, in parts of the map. */
const RIM = 0.02;
/** How long the page is waited for to be idle, in milliseconds. */
const LATEST = 1000;
let waiting = 0;

function renew() {
  const all = groundBox(".node, .arc"), canvas = /** @type {HTMLCanvasElement} */ (at("overview"));
  if (!all) return;
  const box = wider(all, RIM), { clientWidth, clientHeight } = at("picture");
  const scale = Math.min(clientWidth / Math.max(box.width, 1), clientHeight / Math.max(box.height, 1));
  paintAll(canvas, box, scale);
  put("overview", { box, scale });
}

/** Paints the overview anew when the page is idle, since what it shows looks different now. */
export function renewOverview() {
  cancelIdleCallback(waiting);
  put("overview", null);
  waiting = requestIdleCallback(renew, { timeout: LATEST });
}
