/**
 * The rows of the table of all arcs.
 * @typedef {import("./state.js").Arc & { change: string }} Arc
 */
import { make } from "./elements.js";

/** The height of a row in pixels, as in the style sheet. */
export const HEIGHT = 32;
export const COLUMNS = [
  ["name", ""], ["from", "From"], ["to", "To"], ["flow", ""], ["capacity", ""], ["use", "use"], ["lost", "if lost"],
  ["change", "change"]];
export const NUMBERS = ["flow", "capacity", "use", "lost"];

/**
 * @param {string} column
 * @param {string} told its words, for screen readers
 */
export const title = (column, told) => make("th", make("span", told, { class: "unseen" }), { class: column, scope: "col" });

/**
 * Returns a row as high as `count` rows, in place of those that are scrolled out of sight.
 * @param {number} count
 */
export function spacer(count) {
  const made = make("tr", [], { class: "spacer", "aria-hidden": "true" });
  made.style.setProperty("height", `${Math.max(0, count) * HEIGHT}px`);
  return made;
}

/**
 * Returns an empty row for this place of the table.
 * @param {number} place
 */
export function row(place) {
  const tick = make("input", [], { type: "checkbox", tabindex: "-1" });
  const cells = [...COLUMNS.map(([column]) => column), "marks"].map((column) => make("td", [], { class: column }));
  return make("tr", [make("td", tick, { class: "tick" }), ...cells], { id: `row-${place}`, "aria-rowindex": String(place + 2) });
}

/**
 * Returns the used part of an arc's capacity.
 * @param {Arc} arc
 */
function use(arc) {
  const used = Number(arc.flow) / Number(arc.capacity);
  return arc.closed || !Number.isFinite(used) ? "" : `${Math.round(100 * used)} %`;
}

/** The positions of two of the columns. */
const USE = COLUMNS.findIndex(([column]) => column === "use"), LOST = COLUMNS.findIndex(([column]) => column === "lost");

/**
 * Returns what is lost without an arc, or an empty text if that is nothing. Until it is known, the old text stays, marked as old.
 * @param {Arc} arc
 * @param {HTMLTableCellElement} cell
 */
function lost(arc, cell) {
  const isOld = !arc.closed && !arc.without;
  cell.classList.toggle("old", isOld);
  return isOld ? cell.textContent : arc.closed || arc.lost === "0" ? "" : arc.lost;
}

/**
 * Writes the state of an arc into its row. The row is reused: a click on one that was replaced under the pointer would be lost.
 * @param {HTMLTableRowElement} made
 * @param {Arc} arc
 */
export function fill(made, arc) {
  const mark = arc.limit ? "bottleneck" : arc.full ? "full" : "";
  made.classList.toggle("cut", arc.limit);
  const [tick, ...cells] = made.cells, flow = arc.closed ? "" : arc.way === "<" ? `← ${arc.flow}` : arc.flow;
  const amounts = [flow, arc.capacity, use(arc), lost(arc, cells[LOST]), arc.change];
  const texts = [arc.name || arc.label, arc.tail, arc.head, ...amounts, mark];
  for (const [column, cell] of cells.entries()) if (cell.textContent !== texts[column]) cell.textContent = texts[column];
  cells[USE].style.setProperty("--parts", String(parseInt(use(arc), 10) || 0));
  cells[0].title = arc.label;
  tick.firstElementChild?.setAttribute("aria-label", `choose ${arc.label}`);
}
