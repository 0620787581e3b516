/**
 * What the page says about a place, and what can be done to it.
 * @typedef {import("./state.js").Arc} Arc
 * @typedef {import("./state.js").Place} Place
 */
import { adding } from "./adding.js";
import { pick } from "./choice.js";
import { button, make, numberCell } from "./elements.js";
import { amounts, chips, facts, inUnits, setting } from "./facts.js";
import { isPart, showNear } from "./picture.js";
import { act, caption, noun, present, wording } from "./state.js";
import { grouped, upper } from "./words.js";
import { leftWithout } from "./worth.js";

/**
 * Returns the pipes that lead into a place or out of it, each with what it carries.
 * @param {Place} place
 * @param {string} title
 * @param {Arc[]} arcs
 * @param {number} more how many others there are
 */
function pipes(place, title, arcs, more) {
  const rows = arcs.map((arc) => {
    const [word, end] = arc.tail_node === place.node ? ["to", arc.head] : ["from", arc.tail], name = pick(arc, arc.short);
    if (arc.name) name.append(make("span", ` ${word} ${end}`, { class: "soft" }));
    return make("tr", [name, numberCell(amounts(arc))]);
  });
  if (more) rows.push(make("tr", make("td", `${grouped(more)} ${wording().rest}.`, { class: "soft", colspan: "2" })));
  const heads = [make("th", upper(noun()), { scope: "col" }), make("th", wording().flow.toLowerCase(), { scope: "col", class: "number" })];
  return make("table", [make("caption", title), make("thead", make("tr", heads)), make("tbody", rows)]);
}

/** @param {Place} place */
function marks(place) {
  const { source, sink, short, words } = present();
  const end = place.is_source ? `${place.name === source ? "the" : "a"} ${words.source}`
    : place.is_sink && `${place.name === sink ? "the" : "a"} ${words.sink}`;
  const missing = short.find((it) => it.node === place.node)?.missing;
  // What is in a bottleneck is used up: a place that gets all that it asks for lacks nothing.
  const full = place.roles.filter((role) => role.limit && !role.closed).map(({ kind }) => /** @type {[string, string]} */ (
    kind === "demand" ? [words.all_taken, ""] : [kind === "supply" ? words.all_given : words.all_through, "limit"]));
  return chips([[end], [place.shut && words.is_shut], [missing ? `${missing} short` : false, "limit"], ...full]);
}

/** @param {Place} place */
export function aboutPlace(place) {
  const roles = place.roles.filter((role) => !role.closed), words = wording(), { enters, leaves } = words;
  const shut = button(words.shut, () => act({ what: "shut", node: place.node }, `${place.name} is ${words.is_shut}`), "plain");
  const again = button(words.again, () => act({ what: "open-place", node: place.node }, `${place.name} is ${words.is_open}`), "plain");
  const rows = [{ term: enters, value: place.in }, { term: leaves, value: place.out },
    ...roles.map((role) => ({ term: upper(role.short), value: amounts(role) })),
    ...(place.shut ? [{ term: words.through, value: "0", act: again }] : []),
    ...(place.open ? [{ term: words.shutting, value: leftWithout(place), id: "closing", act: shut }] : [])];
  const lists = [pipes(place, enters, place.entering, place.more[0]), pipes(place, leaves, place.leaving, place.more[1])];
  const fields = roles.map((role) => setting(role, `capacity-${role.number}`, [
    { words: inUnits(upper(role.short)), value: role.unlimited ? "" : role.capacity, as: "capacity" }]));
  return [make("h3", place.name), ...(caption() ? [make("p", caption(), { class: "soft" })] : []), marks(place), facts(rows),
    ...lists.filter((list) => list.tBodies[0].rows.length), ...fields,
    ...(isPart() ? [button("Show what is near it", () => showNear(place.node), "plain")] : []), adding(place)];
}
