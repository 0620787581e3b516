/**
 * The cost of more capacity, if the table has a column of costs: on each arc of the bottleneck, and for a greater value.
 * @typedef {import("./state.js").Arc} Arc
 * @typedef {import("./state.js").State} State
 * @typedef {{ wider: (Arc & { by: string })[], cost: string, total: string, value: string }} Bought
 * @typedef {{ title: string, second: boolean, limit: (Arc & { price: string })[], limit_count: number, way: Bought[], end: string }} Costs
 */
import { pick } from "./choice.js";
import { at, cell, field, fill, numberCell } from "./elements.js";
import { patiently } from "./messages.js";
import { ask, noun, present, units } from "./state.js";
import { upper } from "./words.js";

/** @param {boolean} isHidden */
function hide(isHidden) {
  for (const id of ["costs-limit", "costs-way"]) at(id).hidden = isHidden;
}

async function find() {
  const words = { column: field("costs-column").value, to: field("costs-to").value, second: field("costs-second").value };
  /** @type {Costs | null | undefined} */
  const told = await patiently(ask(`costs?${new URLSearchParams(words)}`));
  hide(!told);
  at("costs-told").textContent = "";
  if (told) show(told);
}

/** @param {Costs} told */
function show(told) {
  const rest = told.limit_count - told.limit.length, what = told.second ? "a second one" : `one more${units() && ` (${units().trim()})`}`;
  at("costs-told").textContent = `By the column “${told.title}”. The way is found greedily, so a cheaper one may exist.`
    + (told.end ? ` It ends there: ${told.end}.` : "")
    + (rest ? ` The first ${told.limit.length} of ${told.limit_count} of the bottleneck:` : "");
  fill("costs-limit", `what ${what} costs at each ${noun()} of the bottleneck`, [upper(noun()), "costs"],
    told.limit.map((arc) => [pick(arc), numberCell(arc.price || "no price")]));
  const rows = told.way.map((it) => [
    cell(it.wider.map((arc) => (told.second ? `a second ${arc.short}` : `${arc.short} ${arc.by} wider`)).join(" and ")),
    numberCell(it.cost), numberCell(it.total), numberCell(it.value)]);
  fill("costs-way", `a cheap way, from ${present().value}${units()}`, ["bought", "costs", "in all", "value"], rows);
}

/**
 * Removes what belongs to another state.
 * @param {State} state
 * @param {State | null} before
 */
export function showOldCosts(state, before) {
  if (!before || before.turn === state.turn || at("costs-limit").hidden) return;
  hide(true);
  at("costs-told").textContent = "The network has changed since.";
}

export function beginCosts() {
  at("costs-asked").addEventListener("submit", (event) => {
    event.preventDefault();
    find();
  });
}
