/** The panel beside the picture: its tabs, and how much of it is visible. On a narrow page it is a bottom sheet with three heights. */
import { at, onClick } from "./elements.js";
import { put } from "./store.js";
import { keepFree } from "./view.js";

const HEIGHTS = ["low", "middle", "full"];
/** The least length of a drag, in pixels. */
const DRAG = 4;

const tabs = () => /** @type {HTMLElement[]} */ ([...at("tabs").querySelectorAll("[role=tab]")]);

/** @param {HTMLElement} tab */
const partOf = (tab) => at(tab.getAttribute("aria-controls") ?? "");

/**
 * Shows the part of a tab, and hides the others.
 * @param {HTMLElement} tab
 */
function open(tab) {
  for (const it of tabs()) {
    it.ariaSelected = String(it === tab);
    it.tabIndex = it === tab ? 0 : -1;
    partOf(it).hidden = it !== tab;
  }
  unfold();
  put("tab", partOf(tab).id);
}

/** Unfolds the panel, or raises it if it is low. */
function unfold() {
  fold(false);
  if (height() === "low") setHeight("middle");
}

/** Opens the tab of the selection, unless the selection was made in another part of the panel, which then stays open. */
export function openChosen() {
  const part = document.activeElement?.closest(".part");
  if (part) unfold();
  else open(at("tab-selected"));
}

/**
 * Shows a tab, or hides it.
 * @param {string} id
 * @param {boolean} isThere
 */
export function offerTab(id, isThere) {
  if (!isThere && at(id).ariaSelected === "true") open(at("tab-selected"));
  at(id).hidden = !isThere;
}

const height = () => at("panel").dataset.height ?? HEIGHTS[0];

/** @param {string} now */
function setHeight(now) {
  keepFree(() => {
    at("panel").dataset.height = now;
    at("panel-more").toggleAttribute("disabled", now === HEIGHTS[2]);
    at("panel-less").toggleAttribute("disabled", now === HEIGHTS[0]);
    document.body.dataset.panel = now;
  });
}

/** Lowers the panel, if it is a bottom sheet, so that what lies over the picture can be seen. */
export const lower = () => setHeight(HEIGHTS[0]);

/** Returns the height of a bottom sheet in pixels. */
const pixels = () => at("panel").getBoundingClientRect().height;

/** Returns the height in pixels that each of the three has. */
function pixelsOfEach() {
  const now = height();
  return HEIGHTS.map((it) => {
    document.body.dataset.panel = it;
    const found = pixels();
    document.body.dataset.panel = now;
    return found;
  });
}

/** @param {number} high the height of the sheet while it is dragged, in pixels, or 0 for one of the three */
const pull = (high) => document.documentElement.style.setProperty("--sheet", high ? `${high}px` : "");

/**
 * Lets a drag of the grip set the height, to the nearest of the three. A tap raises the sheet, or lowers it if it is full.
 * @param {PointerEvent} event
 */
function grip(event) {
  const host = at("panel-grip"), before = pixels(), heights = pixelsOfEach();
  let now = before, isDragged = false;
  host.setPointerCapture(event.pointerId);
  host.onpointermove = ({ y }) => {
    isDragged = isDragged || Math.abs(y - event.y) > DRAG;
    now = Math.min(heights[2], Math.max(heights[0], before + event.y - y));
    if (isDragged) pull(now);
  };
  const end = (/** @type {boolean} */ isPut) => {
    host.onpointermove = host.onpointerup = host.onpointercancel = null;
    const away = heights.map((it) => Math.abs(it - now)), nearest = HEIGHTS[away.indexOf(Math.min(...away))];
    keepFree(() => pull(0));
    if (isPut) setHeight(isDragged ? nearest : HEIGHTS[(HEIGHTS.indexOf(height()) + 1) % HEIGHTS.length]);
  };
  host.onpointerup = () => end(true);
  host.onpointercancel = () => end(false);
}

/** @param {number} by the number of heights by which it grows */
const grow = (by) => setHeight(HEIGHTS[Math.max(0, Math.min(2, HEIGHTS.indexOf(height()) + by))]);

/** @param {boolean} isFolded */
function fold(isFolded) {
  at("panel-body").hidden = isFolded;
  at("panel").classList.toggle("folded", isFolded);
  at("fold").ariaExpanded = String(!isFolded);
  at("fold").textContent = isFolded ? "‹" : "›";
}

/** @param {KeyboardEvent} event */
function goByKeys(event) {
  const offered = tabs().filter((it) => !it.hidden), place = offered.findIndex((it) => it === document.activeElement);
  const steps = { ArrowRight: 1, ArrowLeft: -1, Home: -place, End: offered.length - 1 - place }[event.key];
  if (place < 0 || steps === undefined) return;
  event.preventDefault();
  const to = offered[(place + steps + offered.length) % offered.length];
  open(to);
  to.focus();
}

export function beginPanel() {
  for (const tab of tabs()) tab.addEventListener("click", () => open(tab));
  at("tabs").addEventListener("keydown", goByKeys);
  onClick("fold", () => fold(!at("panel-body").hidden));
  onClick("panel-more", () => grow(1));
  onClick("panel-less", () => grow(-1));
  at("panel-grip").addEventListener("pointerdown", grip);
  setHeight(HEIGHTS[0]);
  // The panel and the legend begin below the headline.
  const heed = () => document.documentElement.style.setProperty("--head", `${at("head").getBoundingClientRect().bottom}px`);
  new ResizeObserver(heed).observe(at("head"));
}
