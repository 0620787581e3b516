/**
 * What is told of the selection: marks of a word each, rows of a term and a value, and the forms that change a capacity.
 * @typedef {import("./state.js").Arc} Arc
 * @typedef {import("./elements.js").Piece} Piece
 * @typedef {{ term: string, value: Piece | Piece[], id?: string, act?: HTMLElement }} Fact `act` is what can be done about it
 */
import { form, make } from "./elements.js";
import { act, units } from "./state.js";
import { tryTyped } from "./trial.js";

/** @param {Fact[]} rows */
export const facts = (rows) => make("dl", rows.map(({ term, value, id, act: button }) => make("div", [
  make("dt", term), make("dd", value, { id: id ?? false, class: "number" }), ...(button ? [make("dd", button, { class: "act" })] : []),
])), { class: "facts" });

/**
 * Returns the marks that have a word.
 * @param {[string | false, string?][]} words each with its class
 */
export const chips = (words) => make("p", words.filter(([word]) => word).flatMap(([word, kind = ""]) => [
  make("span", String(word), { class: `chip ${kind}` }), " "]), { class: "chips" });

/** @param {Arc} arc */
export const amounts = (arc) => (arc.unlimited ? `${arc.flow}, no limit` : `${arc.flow} of ${arc.capacity}`);

/** @param {string} what */
export const inUnits = (what) => `${what}${units() && " in"}${units()} `;

/**
 * Returns the form that sets capacities of an arc, and says what those that are typed would bring.
 * @param {Arc} arc
 * @param {string} id
 * @param {{ words: string, value: string, as: string }[]} fields the field of each capacity: its words, its value and what sets it
 * @param {string} what the act
 */
export function setting(arc, id, fields, what = "cap") {
  const inputs = fields.map(({ value, as }, place) => make("input", [], { id: place ? `${id}-${as}` : id, value, autocomplete: "off",
    "data-of": `${arc.number} ${arc.label} ${as}`, "aria-describedby": `${id}-forms` }));
  const more = arc.unlimited ? "" : arc.limit ? ". A larger one may bring more." : ". A larger one brings nothing.";
  const labels = fields.map(({ words }, place) => make("label", [words, inputs[place]])), usual = `or +10 %, or -5${more} `;
  const hint = make("span", usual, { id: `${id}-forms`, class: "soft", "aria-live": "polite" });
  for (const input of inputs) input.addEventListener("input", () => tryTyped(arc, inputs, hint, usual));
  const made = form([...labels, hint], "Set", () => act({
    what, arc: arc.number, ...Object.fromEntries(fields.map(({ as }, place) => [as, inputs[place].value])) }));
  made.classList.add("setting");
  return made;
}
