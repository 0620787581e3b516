/**
 * The list of the steps, including those that were undone.
 * @typedef {import("./state.js").State} State
 */
import { at, button, field, make, onClick, replaceAlike } from "./elements.js";
import { act, redo, undo } from "./state.js";

/** @param {State} state */
export function showSteps(state) {
  const held = document.activeElement;
  for (const id of ["undo", "redo"]) at(id).hidden = state.steps.length === 1;
  field("undo").disabled = state.at <= state.floor;
  field("redo").disabled = state.at === state.steps.length - 1;
  if (held === at("undo") && state.at <= state.floor) at("redo").focus();
  if (held === at("redo") && field("redo").disabled) at("undo").focus();
  replaceAlike(at("way"), state.steps.map((step, place) => {
    const words = place ? step.text : "as in the file";
    const by = place ? ` (${step.by})` : "";
    const go = button(`${words}: ${step.value}${by}`, () => act({ what: "go", step: place }, `at the step “${words}”`));
    if (place === state.at) go.setAttribute("aria-current", "step");
    // The steps that this scenario has from the one it began from cannot be undone.
    go.disabled = place < state.floor;
    return make("li", go, { class: place > state.at ? "undone" : "" });
  }));
}

export function beginSteps() {
  onClick("undo", undo);
  onClick("redo", redo);
  document.addEventListener("keydown", (event) => {
    if (!(event.ctrlKey || event.metaKey) || event.target instanceof HTMLInputElement) return;
    if (event.key === "z" && !event.shiftKey) undo();
    else if (event.key === "y" || (event.key.toLowerCase() === "z" && event.shiftKey)) redo();
    else return;
    event.preventDefault();
  });
}
