/**
 * A selection of several arcs, and what can be done to all of them in one step.
 * @typedef {import("./state.js").State} State
 * @typedef {{ open: number[], closed: number[], flow: string, capacity: string }} Many
 */
import { Requests } from "./asking.js";
import { at, button, form, make, replace } from "./elements.js";
import { trouble } from "./messages.js";
import { act, ask, units, wording } from "./state.js";
import { now, put } from "./store.js";

/** How many arcs can be selected at once, as in the board. */
const MOST = 100_000;
const requests = new Requests();

export const isPicked = (/** @type {number} */ number) => now.picked.has(number);
export const pickedCount = () => now.picked.size;

/**
 * Selects these arcs and no others, unless they are too many.
 * @param {Iterable<number>} numbers
 */
export function pickThese(numbers) {
  const wanted = new Set(numbers);
  if (wanted.size > MOST) {
    trouble(`At most ${MOST} can be chosen at once. A filter shows fewer.`);
    return undefined;
  }
  put("picked", wanted);
  return showMany();
}

/**
 * Adds these arcs to the selection.
 * @param {Iterable<number>} numbers
 */
export const pickMore = (numbers) => pickThese([...now.picked, ...numbers]);

/** Clears the selection, and goes back to the table. */
export function pickNone() {
  pickThese([]);
  at("grid").focus();
}

/** @param {number} number */
export const toggle = (number) => pickThese(
  isPicked(number) ? [...now.picked].filter((it) => it !== number) : [...now.picked, number]);

/** Shows which of the selected arcs are open and closed, and what can be done to them. */
async function showMany() {
  const isLatest = requests.begin();
  if (!now.picked.size) {
    at("many").replaceChildren();
    return;
  }
  /** @type {Many | null | undefined} */
  const told = await ask("many", { arcs: [...now.picked] });
  if (!told || !isLatest()) return;
  const there = new Set([...told.open, ...told.closed]);
  if (there.size !== now.picked.size || ![...there].every(isPicked)) put("picked", there);
  replace(at("many"), there.size ? about(told) : []);
}

/** @param {Many} told */
function about(told) {
  const opened = told.open.length, closed = told.closed.length;
  const sums = opened ? `: ${told.flow} of ${told.capacity}${units()} ${wording().flowing}` : "";
  const counts = [`${opened} open${sums}`, ...(closed ? [`${closed} closed`] : [])];
  /** @type {HTMLElement[]} */
  const parts = [make("p", `${opened + closed} chosen, ${counts.join("; ")}.`, { id: "many-told" })];
  if (opened) {
    const room = make("input", [], { id: "many-capacity", "data-of": "many", autocomplete: "off", "aria-describedby": "many-forms" });
    parts.push(
      button(`Close ${opened}`, () => act({ what: "close-all", arcs: told.open })),
      button(`Put a second one beside ${opened === 1 ? "it" : `each of ${opened}`}`, () => act({ what: "double-all", arcs: told.open })),
      form([make("label", [`${wording().each}${units() && " in"}${units()} `, room]),
        make("span", "or +10 %, or -5 ", { id: "many-forms", class: "soft" })], `Set ${opened}`,
      () => act({ what: "cap-all", arcs: told.open, capacity: room.value })));
  }
  if (closed) parts.push(button(`Open ${closed} again`, () => act({ what: "open-all", arcs: told.closed })));
  parts.push(button("Choose none", pickNone, "plain"));
  return parts;
}

/**
 * Follows a new state. If more than one step was taken, the number of an added arc may belong to another.
 * @param {State} state
 * @param {State | null} before
 */
export function followMany(state, before) {
  if (!before || state.turn === before.turn || !now.picked.size) return undefined;
  const isNext = state.turn === before.turn + 1;
  return pickThese([...now.picked].filter((number) => isNext || number <= state.given));
}
