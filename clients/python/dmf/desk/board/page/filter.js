/**
 * The filter: what was typed into the table's field, or an entry of the legend. The table lists the arcs that match, and all else fades
 * in the picture.
 * @typedef {import("./colourings.js").Mark} Mark
 * @typedef {import("./colourings.js").Shade} Shade
 */
import { Requests } from "./asking.js";
import { at, field, onClick } from "./elements.js";
import { ask, present } from "./state.js";
import { now, put, watch } from "./store.js";

const requests = new Requests();

export const filterWords = () => field("filter").value.trim();

/** @param {Shade} shade */
export const isFilter = (shade) => shade === now.shade || shade.filter !== "" && shade.filter === filterWords();

/**
 * Returns true if the filter leaves an arc out.
 * @param {Mark} mark
 */
export const isFaded = (mark) => (now.matches ? !now.matches.has(mark.number) : now.shade ? !now.shade.has(mark) : false);

/** Finds again which arcs match the filter, for example after a step. */
export async function applyFilter() {
  const isLatest = requests.begin(), words = filterWords();
  const path = `numbers?filter=${encodeURIComponent(words)}&sort=&first=0&count=${present().arcs}`;
  const told = words ? await ask(path, undefined, true) : null;
  if (isLatest() && (now.matches || told)) put("matches", told ? new Set(told.numbers) : null);
}

/** Makes what was typed the filter. */
export function typeFilter() {
  dropUntyped();
  return applyFilter();
}

/**
 * Makes an entry of the legend the filter, or drops it if it is the filter already.
 * @param {Shade} shade
 */
export async function toggleFilter(shade) {
  const isOn = !isFilter(shade);
  put("shade", isOn && !shade.filter ? shade : null);
  field("filter").value = isOn ? shade.filter : "";
  put("matches", null);
  await applyFilter();
}

/** Drops a filter that cannot be typed, as one that belongs to another colouring. */
export const dropUntyped = () => put("shade", null);

/** Shows what can be typed while the field has the focus, or after the button asked for it. */
function showHelp() {
  const isShown = now.isHelpAsked || document.activeElement === field("filter");
  at("filter-forms").hidden = !isShown;
  at("filter-help").setAttribute("aria-expanded", String(isShown));
}

export function beginHelp() {
  watch("isHelpAsked", showHelp);
  onClick("filter-help", () => put("isHelpAsked", !now.isHelpAsked));
  at("filter").addEventListener("focus", showHelp);
  // When a press takes the focus away, all stays in its place until the click has reached what it is meant for.
  document.addEventListener("click", showHelp);
  document.addEventListener("keyup", showHelp);
}
