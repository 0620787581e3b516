/** The picture in words. */
import { at } from "./elements.js";
import { noun, units } from "./state.js";
import { listed } from "./words.js";

/**
 * Describes the picture for screen readers.
 * @param {import("./state.js").State} state
 */
export function sayPicture(state) {
  const limit = listed(state.limit.map((arc) => arc.short), state.limit_count);
  const step = state.at ? ` Last step: ${state.steps[state.at].text}, ${state.steps[state.at].by}.` : "";
  at("picture-said").textContent = `${state.value}${units()} ${state.words.picture}, over ${state.arcs} ${noun()}s. `
    + `The bottleneck: ${limit}.${step}`;
}
