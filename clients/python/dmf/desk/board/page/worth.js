/**
 * What is left without each arc, each place and each of the worst pairs of arcs. The board computes that, and beside which arcs a second
 * one helps most, in the background for each new state, and the page asks until it is known.
 * @typedef {import("./state.js").Arc} Arc
 * @typedef {{ node: number, name: string, without: string, lost: string }} LostPlace
 * @typedef {{ worst: LostPlace[], more: number }} LostPlaces
 * @typedef {{ arcs: Arc[], without: string, lost: string }} LostPair
 * @typedef {{ is_finding: boolean, is_known: boolean, worst: Arc[], more: number, places: LostPlaces,
 *   seconds: import("./best.js").BestSeconds | null, pairs: LostPair[] | null, losses: Record<string, string>, last: number }} Worth
 *   `losses` are those of all arcs, or the largest, by the arcs' numbers, of which `last` is the highest
 */
import { Requests } from "./asking.js";
import { markBestOld, showBest } from "./best.js";
import { arcButton, pick, pickPlace } from "./choice.js";
import { at, cell, fill, numberCell } from "./elements.js";
import { ask, caption, noun, present, units, wording } from "./state.js";
import { put } from "./store.js";
import { grouped, upper } from "./words.js";

/** The first and the longest pause before the board is asked again, in milliseconds. */
const SOON = 20, LATE = 2000;
/** What is said of numbers that a change has made old. */
const OLD = "These are from before the change. The new ones are being found ..";
const requests = new Requests();

/** Asks for it after a new state. Until it comes, the old numbers stay, marked as old, and nothing waits for it. */
export function findWorth() {
  const isLatest = requests.begin();
  markOld(true);
  follow(isLatest);
}

/** @param {boolean} isOld */
function markOld(isOld) {
  put("isWorthTold", !isOld);
  at("worst").classList.toggle("old", isOld);
  if (!isOld) return;
  markBestOld(OLD);
  at("worst").setAttribute("aria-busy", "true");
  at("worst-note").textContent = OLD;
  at("worst-places-note").textContent = "";
  at("worst-pairs-note").textContent = "";
}

/** @param {() => boolean} isLatest */
async function follow(isLatest) {
  let isFinding = true, isShown = false;
  for (let pause = SOON; isFinding; pause = Math.min(2 * pause, LATE)) {
    await new Promise((go) => setTimeout(go, pause));
    if (!isLatest()) return;
    /** @type {Worth | null | undefined} */
    const told = await ask("worth", undefined, true);
    if (!isLatest() || !told) return;
    isFinding = told.is_finding;
    if (!told.losses) continue;
    if (!isShown) show(told);
    isShown = true;
    showBest(told);
    showPairs(told);
  }
}

/** @param {Worth} told */
function show(told) {
  markOld(false);
  at("worst").hidden = !told.is_known;
  showTable("worst", noun(), "one of these is closed", told.more, told.worst.map((arc) => ({ ...arc, cell: pick(arc) })));
  const { worst, more } = told.places;
  showTable("worst-places", wording().place, wording().without, more, worst.map((place) => ({ ...place, cell: pickPlace(place) })));
  const losses = new Map(Object.entries(told.losses).map(([number, loss]) => [Number(number), Number(loss)]));
  put("losses", { byNumber: losses, others: told.worst.length + told.more - [...losses.values()].filter(Boolean).length, last: told.last });
}

/**
 * Shows the pairs of arcs that cost most to lose together, which are found last.
 * @param {Worth} told
 */
function showPairs({ is_finding: isFinding, pairs }) {
  const table = at("worst-pairs-table");
  at("worst").setAttribute("aria-busy", String(isFinding));
  table.classList.toggle("old", isFinding);
  at("worst-pairs-note").textContent = isFinding
    ? `Finding the two ${noun()}s that cost most to lose together ..`
    : pairsNote(pairs);
  if (isFinding) return;
  table.hidden = !pairs?.length;
  fill("worst-pairs-table", caption(), ["Closed together", "without both", "lost"], (pairs ?? []).map(
    ({ arcs: [first, second], without, lost }) => [
      cell([arcButton(first, first.short), " and ", arcButton(second, second.short)]), numberCell(without), numberCell(lost),
    ],
  ));
}

/** @param {LostPair[] | null} pairs */
function pairsNote(pairs) {
  const two = `two ${noun()}s`;
  if (!pairs) return `This page does not list which ${two} cost most to lose together; “worst pairs” in dmf plan does.`;
  return pairs.length
    ? `The ${two} of each row cost most to lose together. The table shows what is left of ${present().value}${units()} if both are closed.`
    : `No ${two} together cost anything to lose.`;
}

/**
 * Shows a table of what is worst to lose, and the sentence above it.
 * @param {string} id
 * @param {string} what
 * @param {string} lost what is done then
 * @param {number} more how many others cost something
 * @param {{ cell: HTMLTableCellElement, without: string, lost: string }[]} rows
 */
function showTable(id, what, lost, more, rows) {
  const table = `${id}-table`, rest = more ? ` ${grouped(more)} more cost something.` : "";
  at(table).hidden = !rows.length;
  at(`${id}-note`).textContent = rows.length
    ? `What is left of ${present().value}${units()} if ${lost}.${rest}`
    : `No ${what} alone costs anything to lose.`;
  fill(table, caption(), [upper(what), "without it", "lost"],
    rows.map((row) => [row.cell, numberCell(row.without), numberCell(row.lost)]));
}

/**
 * Returns the value now and without an arc or a place, and what is lost, or an empty text while that is not known.
 * @param {{ without: string, lost: string }} found
 */
export const leftWithout = ({ without, lost }) =>
  without && `${present().value} → ${without}: ${lost === "0" ? "no change" : `${lost} less`}`;
