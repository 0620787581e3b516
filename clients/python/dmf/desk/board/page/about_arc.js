/**
 * What the page says about an arc, and what can be done to it.
 * @typedef {import("./state.js").Arc} Arc
 * @typedef {import("./elements.js").Piece} Piece
 */
import { canTry, findSeconds } from "./bottleneck.js";
import { choose } from "./choice.js";
import { button, make } from "./elements.js";
import { amounts, chips, facts, inUnits, setting } from "./facts.js";
import { act, caption, wording } from "./state.js";
import { now } from "./store.js";
import { leftWithout } from "./worth.js";

/**
 * @param {number} node
 * @param {string} name
 */
const link = (node, name) => button(name, () => choose({ node }), "link");

/** @param {Arc} arc */
function ends(arc) {
  const [before, between] = arc.way ? ["Both ways between ", " and "] : ["From ", " to "];
  const unit = caption() && `, ${caption()}`;
  return make("p", [before, link(arc.tail_node, arc.tail), between, link(arc.head_node, arc.head), unit], { class: "soft" });
}

/**
 * Returns what a second one beside an arc brings, or how that is found out.
 * @param {Arc} arc
 * @returns {Piece}
 */
export function secondOne(arc) {
  // Whatever is not in a bottleneck can be as wide as it likes.
  if (!arc.limit) return "+0";
  if (arc.won) return `+${arc.won}`;
  const found = now.seconds?.found.get(arc.number);
  if (found) return found.won ? `+${found.won}` : found.doubled ? "+0" : "too large";
  if (now.seconds && !now.seconds.isOver) return "..";
  if (!canTry(arc)) return now.isWorthTold ? "not tried" : "not known yet";
  const tried = button("Try it", findSeconds, "link");
  tried.ariaLabel = "Try a second one";
  return tried;
}

/** @param {Arc} arc */
function wayOf({ way, tail, head }) {
  return way === ">" ? ` to ${head}` : way === "<" ? ` to ${tail}` : "";
}

/** @param {Arc} arc */
function part(arc) {
  const used = Number(arc.capacity) ? Number(arc.flow) / Number(arc.capacity) : 0, made = make("div", make("i"), { class: "bar" });
  made.classList.toggle("limit", arc.limit);
  made.style.setProperty("--used", String(Math.min(1, used)));
  return made;
}

/**
 * Returns the form that changes an arc's capacity, or both of one that leads both ways.
 * @param {Arc} arc
 */
function capacities(arc) {
  const { amount } = wording();
  const words = inUnits(amount + (arc.way ? " each way" : ""));
  if (!arc.there) return setting(arc, "capacity", [{ words, value: arc.capacity, as: "capacity" }]);
  return setting(arc, "capacity", [{ words: inUnits(`${amount} to ${arc.head}`), value: arc.there, as: "capacity" },
    { words: `and to ${arc.tail} `, value: arc.back, as: "back" }], "cap-ways");
}

/**
 * @param {Arc} arc
 * @returns {HTMLElement[]}
 */
export function aboutArc(arc) {
  const about = [make("h3", arc.short), ends(arc)];
  if (arc.closed) {
    const again = button("Open it again", () => act({ what: "open", arc: arc.number }, `${arc.short} is open`), "plain");
    return [...about, chips([["closed"]]), facts([{ term: wording().flow, value: "0", act: again }])];
  }
  const nothing = arc.flow === "0" && wording().idle;
  const close = button("Close it", () => act({ what: "close", arc: arc.number }, `${arc.short} is closed`), "plain");
  const double = button("Put a second one beside it", () => act({ what: "double", arc: arc.number }, `a second ${arc.short}`), "plain");
  return [...about, chips([[arc.limit && "bottleneck", "limit"], [arc.full && "full"], [nothing]]), part(arc), facts([
    { term: wording().flow, value: amounts(arc) + wayOf(arc) },
    ...(arc.other_way ? [{ term: "The other way", value: arc.other_way }] : []),
    { term: "Closing this", value: leftWithout(arc), id: "closing", act: close },
    { term: "A second one", value: secondOne(arc), id: "second", act: double },
  ]), capacities(arc)];
}
