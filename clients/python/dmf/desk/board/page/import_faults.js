/**
 * What cannot be read: in words, with its place.
 * @typedef {import("./import_state.js").View} View
 * @typedef {import("./import_state.js").Fault} Fault
 */
import { at, make, replaceAlike } from "./elements.js";
import { grouped, sentence } from "./words.js";

/** What a fault says about the option that settles it, for which the page has buttons. */
const ADVICE = /\. Give --[^]*$/;

/**
 * Returns a fault with its line and its column in words, as far as it has them.
 * @param {Fault} fault
 * @param {View} view
 */
export function placed({ text: told, line, column }, view) {
  const text = remedies(view).length ? told.replace(ADVICE, "") : told;
  if (!line || /^(lines?|feature) [0-9]/.test(text)) return text;
  const title = column && (view.columns.find((it) => it.at === column - 1)?.title || String(column));
  return `line ${line}${title ? `, column '${title}'` : ""}: ${text}`;
}

/**
 * Returns true if the headline has the only fault.
 * @param {View} view
 */
export const isSaid = ({ faults, more_faults: rest, question, answer }) => faults.length + rest === 1 && !question && !answer;

/**
 * Returns the settings that the faults name as something that settles them.
 * @param {View} view
 */
export function remedies({ faults, settings }) {
  const isNamed = (/** @type {string} */ option) => faults.some(({ text }) => text.includes(`--${option.replaceAll("_", "-")} `));
  return settings.filter(({ option }) => isNamed(option));
}

/** @param {number} index */
const idOf = (index) => `fault-${index}`;

/**
 * Returns the id of the element that says a fault.
 * @param {number} index
 * @param {View} view
 */
export const saidBy = (index, view) => (isSaid(view) ? "value" : idOf(index));

/** @param {View} view */
export function showFaults(view) {
  const { faults, more_faults: rest } = view;
  at("faults").hidden = !faults.length || isSaid(view);
  replaceAlike(at("fault-list"), faults.map((fault, index) => make("li", sentence(placed(fault, view)), { id: idOf(index) })));
  at("more-faults").textContent = rest ? `and ${grouped(rest)} more` : "";
}
