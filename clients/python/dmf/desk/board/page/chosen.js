/**
 * What the page says about the selection, and what can be done to it.
 */
import { aboutArc, secondOne } from "./about_arc.js";
import { aboutPlace } from "./about_place.js";
import { choose, theChoice } from "./choice.js";
import { at, make, replace } from "./elements.js";
import { ask, wording } from "./state.js";
import { now, put } from "./store.js";
import { leftWithout } from "./worth.js";

export async function showChosen() {
  const chosen = theChoice();
  if (!chosen) {
    put("described", null);
    replace(at("what"), [make("p", wording().choose)]);
    return;
  }
  // An arc that was added may no longer exist.
  const told = await ask(address(chosen), undefined, true);
  if (chosen !== theChoice() || told === undefined) return;
  if (!told || told.replaced) {
    choose(null);
    return;
  }
  put("described", chosen.arc ? told : null);
  replace(at("what"), chosen.arc ? aboutArc(told) : aboutPlace(told));
}

/**
 * Says what is left without the selected arc or place, and what a second one beside the arc brings, once that is known. All else stays,
 * including what is being typed.
 */
export async function showClosing() {
  const chosen = theChoice();
  if (!chosen || !document.getElementById("closing")) return;
  const told = await ask(address(chosen), undefined, true), shown = document.getElementById("closing");
  if (!told || !shown || chosen !== theChoice()) return;
  shown.textContent = leftWithout(told);
  if (!chosen.arc) return;
  put("described", told);
  showSecond();
}

/** Says what a second one beside the selected arc brings, as far as that is known. */
export function showSecond() {
  const shown = document.getElementById("second");
  if (!now.described || !shown) return;
  const isHeld = shown.contains(document.activeElement);
  shown.replaceChildren(secondOne(now.described));
  if (isHeld) at("what").focus();
}

/** @param {import("./state.js").Choice} chosen */
const address = (chosen) => (chosen.arc ? `arc?number=${chosen.arc}` : `place?node=${chosen.node}`);
