/**
 * The selection on the page: an arc or a place.
 * @typedef {import("./state.js").Choice} Choice
 */
import { button, cell, withArrows } from "./elements.js";
import { now, put } from "./store.js";

export const theChoice = () => now.choice;

/** @param {Choice | null} what */
export const choose = (what) => put("choice", what);

/**
 * Returns a cell with a place that a click selects.
 * @param {{ node: number, name: string }} place
 */
export function pickPlace(place) {
  return cell(button(place.name, () => choose({ node: place.node }), "link"));
}

/**
 * Returns a button that selects an arc. An arc that stands for a limit of a place is shown at that place.
 * @param {{ number: number, node: number }} arc
 * @param {string} text
 */
export function arcButton(arc, text) {
  const made = button("", () => choose(arc.node ? { node: arc.node } : { arc: arc.number }), "link");
  made.append(...withArrows(text));
  // Another arc may have the same name.
  made.dataset.arc = String(arc.number);
  return made;
}

/**
 * Returns a cell with a button that selects an arc.
 * @param {{ number: number, node: number, label?: string }} arc
 * @param {string} text
 */
export const pick = (arc, text = arc.label ?? "") => cell(arcButton(arc, text));
