/**
 * The legend: what the picture is coloured by, and what each colour means. Each entry is a filter: a click fades all else in the picture,
 * and the table lists its arcs.
 */
import { colourings, shadeOf } from "./colourings.js";
import { at, field, make, offer, replace } from "./elements.js";
import { dropUntyped, isFilter, toggleFilter } from "./filter.js";
import { wording } from "./state.js";
import { now, put } from "./store.js";
import { grouped } from "./words.js";

export const shades = () => (colourings().find((it) => it.name === now.colouring) ?? colourings()[0]).shades();

/** Shows the entries that have arcs, each with their number if all are known. */
export function showLegend() {
  offer("colouring", colourings().map((it) => [it.name, it.words]), "use");
  const entries = shades(), counts = new Map(entries.map((shade) => [shade, 0]));
  for (const mark of now.marks.byNumber.values()) counts.set(shadeOf(entries, mark), (counts.get(shadeOf(entries, mark)) ?? 0) + 1);
  replace(at("shades"), entries.filter((shade) => counts.get(shade) || isFilter(shade)).map((shade) => {
    const swatch = make("i", [], { class: shade.isDashed ? "dashed" : "" });
    swatch.style.setProperty("--swatch", `var(--${shade.ink})`);
    const count = now.marks.isAll ? [make("em", grouped(counts.get(shade) ?? 0))] : [];
    const looks = { type: "button", class: "entry", "aria-pressed": String(isFilter(shade)) };
    const entry = make("button", [swatch, `${wording().shades[shade.words] ?? shade.words} `, ...count], looks);
    entry.addEventListener("click", () => toggleFilter(shade));
    return make("li", entry);
  }));
}

/** Shows the entries of the colouring, and drops a filter that belongs to another one. */
export function showColouring() {
  dropUntyped();
  showLegend();
}

/**
 * Shows the entries again when losses are known. If there are none, the picture is not coloured by them.
 * @param {import("./colourings.js").Losses} losses
 */
export function followLosses({ byNumber }) {
  if (now.colouring === "worth" && !byNumber.size) put("colouring", "use");
  else showColouring();
}

export const beginLegend = () => at("colouring").addEventListener("change", () => put("colouring", field("colouring").value));
