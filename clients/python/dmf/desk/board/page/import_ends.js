/**
 * From where to where is sent: the source and the sink, of which there may be several.
 * @typedef {import("./import_state.js").View} View
 */
import { at, button, field, make, replace, replaceAlike } from "./elements.js";
import { change, now } from "./import_state.js";
import { listed } from "./words.js";

/** @type {{ end: "source" | "sink", assumed: string }[]} */
const ENDS = [
  { end: "source", assumed: "assumed, since no row leads to it" },
  { end: "sink", assumed: "assumed, since no row leads on from it" }
];

/** @param {View} view */
export function showEnds({ ends, places, settings }) {
  // A problem's file names its own ends, and no option reads it in another way.
  at("ends").hidden = !settings.length;
  for (const { end, assumed } of ENDS) {
    const said = saidOf(end), why = ends.assumed.includes(end) ? assumed : "in the file";
    const found = ends[end].length ? [make("li", [listed(ends[end]), make("span", ` (${why})`, { class: "soft" })])] : [];
    replace(at(`${end}-list`), said.length ? said.map((place) => chip(end, place)) : found);
  }
  replaceAlike(at("places"), places.map((name) => make("option", [], { value: name })));
}

/** @param {string} end */
const saidOf = (end) => [now.options[end] ?? []].flat().map(String);

/**
 * @param {string} end
 * @param {string} place
 */
function chip(end, place) {
  const drop = button("×", () => {
    field(end).focus();
    change({ [end]: saidOf(end).filter((it) => it !== place) });
  }, "plain small");
  drop.setAttribute("aria-label", `Remove ${place} from the ${end}s`);
  return make("li", [make("b", place), " ", drop]);
}

export function beginEnds() {
  for (const { end } of ENDS) {
    const typed = field(end);
    typed.addEventListener("change", () => {
      const place = typed.value.trim();
      typed.value = "";
      if (place && !saidOf(end).includes(place)) change({ [end]: [...saidOf(end), place] });
    });
  }
}
