/**
 * The form that adds an arc from the selected place. It leads to a place that exists, or to a new one if that is said.
 * @typedef {import("./state.js").Place} Place
 */
import { Requests } from "./asking.js";
import { form, make } from "./elements.js";
import { act, ask, noun, units, wording } from "./state.js";
import { quoted } from "./words.js";

/** How long the page waits for the next key before it asks whether a name is that of a place, in milliseconds. */
const PAUSE = 250;

/**
 * Returns the form that adds an arc from a place.
 * @param {Place} place
 */
export function adding(place) {
  const typed = (/** @type {string} */ id) => make("input", [], { id, "data-of": `${id} ${place.node}`, autocomplete: "off" });
  const head = typed("new-head"), room = typed("new-capacity"), name = typed("new-name");
  head.setAttribute("list", "places");
  const offered = newPlace(head), to = [make("p", `A new ${noun()} from here:`), make("label", ["leads to ", head]), offered.part];
  const fields = [make("label", [`${wording().added}${units()} `, room]), make("label", ["name (may be left out) ", name])];
  return form([...to, ...fields], "Add it", async () => {
    const what = offered.isWanted() ? "add-new" : "add";
    const asked = { what, tail: place.node, head: head.value, capacity: room.value, name: name.value };
    if (!await act(asked, `a new ${noun()}`)) await offered.look();
  });
}

/**
 * Returns what is said of a name that no place has: the names that are like it, and a box that says that the place is new. It belongs to
 * the name that it was said of, and goes when another one is typed.
 * @param {HTMLInputElement} head the field of the name
 */
function newPlace(head) {
  const part = make("div", [], { id: "new-place", role: "status" }), requests = new Requests();
  let said = "";
  /** @type {HTMLInputElement | null} */
  let box = null;
  const clear = () => {
    requests.begin();
    said = "";
    box = null;
    part.replaceChildren();
  };
  const look = async () => {
    const isLatest = requests.sinceNow(), text = head.value.trim();
    if (!text || text === said) return;
    /** @type {{ node: number, near: string[], why: string } | null | undefined} */
    const told = await ask(`end?text=${encodeURIComponent(text)}`, undefined, true);
    if (!isLatest() || text !== head.value.trim() || !told || told.node || told.why) return;
    said = text;
    box = make("input", [], { type: "checkbox", id: "is-new" });
    const near = told.near.map((it) => make("button", it, { type: "button", class: "plain small" }));
    for (const it of near) {
      it.addEventListener("click", () => {
        head.value = it.textContent ?? "";
        clear();
        head.focus();
      });
    }
    const isIt = near.length ? [" Is it ", ...near.flatMap((it, at) => [at ? " or " : "", it]), "\u2060?"] : [];
    part.replaceChildren(make("p", [`No ${wording().place} is called ${quoted(text)}.`, ...isIt], { class: "soft" }),
      make("label", [box, `New ${wording().place}: make ${quoted(text)}`]));
  };
  head.addEventListener("input", () => {
    clear();
    const isLatest = requests.sinceNow();
    setTimeout(() => isLatest() && look(), PAUSE);
  });
  head.addEventListener("change", look);
  return { part, look, isWanted: () => box !== null && box.checked && said === head.value.trim() };
}
