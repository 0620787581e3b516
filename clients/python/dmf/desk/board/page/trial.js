/**
 * What other capacities would bring, while they are typed.
 * @typedef {import("./state.js").Arc} Arc
 */
import { Requests } from "./asking.js";
import { ask, present } from "./state.js";
import { sentence } from "./words.js";

/** How long typing rests before the board is asked, in milliseconds. */
const REST = 150;
const requests = new Requests();
let resting = 0;

/**
 * Says what typed capacities would bring, or why they cannot be set.
 * @param {Arc} arc
 * @param {HTMLInputElement[]} inputs
 * @param {HTMLElement} host where this is said
 * @param {string} usual what is said there if nothing else was typed
 */
export function tryTyped(arc, inputs, host, usual) {
  const isTyped = inputs.some((it) => it.value.trim() !== it.defaultValue) && inputs.every((it) => it.value.trim());
  const isLatest = requests.begin();
  clearTimeout(resting);
  host.textContent = isTyped ? ".." : usual;
  if (!isTyped) return;
  resting = setTimeout(async () => {
    const [capacity, back = ""] = inputs.map((it) => it.value), words = new URLSearchParams({ arc: String(arc.number), capacity, back });
    /** @type {{ value: string, moved: string, why_not: string } | null | undefined} */
    const told = await ask(`trial?${words}`, undefined, true);
    if (!isLatest()) return;
    host.textContent = !told ? usual : told.why_not ? sentence(told.why_not) : `${present().value} → ${told.value}: ${told.moved}`;
  }, REST);
}
