/** Finds places and arcs by their names, while they are typed. */
import { Requests } from "./asking.js";
import { choose } from "./choice.js";
import { at, button, field, make } from "./elements.js";
import { ask } from "./state.js";
import { watch } from "./store.js";

const requests = new Requests();
/**
 * The search for what was typed last. Enter waits for it.
 * @type {Promise<unknown>}
 */
let search = Promise.resolve();

async function find() {
  const isLatest = requests.begin(), text = field("text").value.trim();
  /** @type {{ found: { label: string, node?: number, number?: number }[], more?: boolean } | null | undefined} */
  const told = text ? await ask(`find?text=${encodeURIComponent(text)}`) : { found: [] };
  if (!isLatest()) return;
  if (!told) {
    // These were found for another text.
    at("found").replaceChildren();
    return;
  }
  const lines = told.found.map((it) => make("li", button(it.label, () => choose(it.node ? { node: it.node } : { arc: it.number }))));
  if (text && !lines.length) lines.push(make("li", "Nothing has this in its name."));
  if (told.more) lines.push(make("li", "There are more: write more of the name."));
  at("found").replaceChildren(...lines);
}

/** Removes the list once something is selected, which is then described below it. */
function close() {
  requests.begin();
  if (at("found").contains(document.activeElement)) at("what").focus();
  at("found").replaceChildren();
}

export function beginFinding() {
  watch("choice", (chosen) => chosen && close());
  at("text").addEventListener("input", () => {
    search = find();
  });
  at("search").addEventListener("submit", async (event) => {
    event.preventDefault();
    const isLatest = requests.sinceNow();
    await search;
    // Typing after Enter begins another search.
    if (isLatest()) at("found").querySelector("button")?.click();
  });
}
