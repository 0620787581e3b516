/**
 * The arcs beside which a second one helps most. Each can be tried: what it brings is shown, with the arc in the picture, before it is put
 * there.
 * @typedef {import("./state.js").Arc & { doubled: string, gain: string }} Best
 * @typedef {{ best: Best[], more: number }} BestSeconds
 */
import { choose, pick } from "./choice.js";
import { at, button, cell, fill, make, numberCell, replace } from "./elements.js";
import { act, caption, noun, present, units, wording } from "./state.js";
import { grouped, upper } from "./words.js";

/**
 * Shows the arcs.
 * @param {{ is_finding: boolean, is_known: boolean, seconds: BestSeconds | null }} told
 */
export function showBest({ is_finding: isFinding, is_known: isKnown, seconds }) {
  if (isFinding && !seconds) return;
  at("best").classList.remove("old");
  at("best").hidden = !isKnown;
  at("best-table").hidden = !seconds?.best.length;
  at("best-note").textContent = bestNote(seconds);
  fill("best-table", caption(), [upper(noun()), "then", "gained", ""],
    (seconds?.best ?? []).map((arc) => [pick(arc), numberCell(arc.doubled), numberCell(arc.gain), cell(tryButton(arc))]));
}

/**
 * Marks the arcs as those of the state before a change. What was tried there can no longer be done.
 * @param {string} note
 */
export function markBestOld(note) {
  at("best").classList.add("old");
  at("best-note").textContent = note;
  leave();
}

/** @param {BestSeconds | null} seconds */
function bestNote(seconds) {
  if (!seconds) return `This page does not find where a second one helps most; “what-if each ${noun()} of the cut” in dmf plan does.`;
  if (!seconds.best.length) return "A second one of any of them alone brings nothing.";
  const rest = seconds.more ? ` ${grouped(seconds.more)} more bring something.` : "";
  return `${wording().twice.replace("{value}", present().value + units())}.${rest}`;
}

/**
 * Returns what a second one beside an arc is called. What stands for a limit of a place has none beside it, but allows twice as much.
 * @param {Best} arc
 */
const nameOf = (arc) => (arc.node ? `twice as much: ${arc.short}` : `a second ${arc.short}`);

/** @param {Best} arc */
function tryButton(arc) {
  const made = button("Try it", () => show(arc), "link");
  made.ariaLabel = `Try ${nameOf(arc)}`;
  return made;
}

/**
 * Shows an arc in the picture, and what a second one beside it would bring, with buttons that put it there and that drop the trial.
 * @param {Best} arc
 */
async function show(arc) {
  await choose(arc.node ? { node: arc.node } : { arc: arc.number });
  const second = arc.node ? { what: "cap", arc: arc.number, capacity: "+100 %" } : { what: "double", arc: arc.number };
  replace(at("best-trial"), [
    make("p", [`${upper(nameOf(arc))}: ${present().value} → `, make("strong", arc.doubled), `, ${arc.gain} more.`]),
    button("Put it there", () => act(second, nameOf(arc)), "small"), button("Leave it", leave, "plain small")]);
  at("best-trial").scrollIntoView({ block: "nearest" });
}

/** Drops the trial. */
function leave() {
  const isHeld = at("best-trial").contains(document.activeElement);
  at("best-trial").replaceChildren();
  if (isHeld) at("best-head").focus();
}
