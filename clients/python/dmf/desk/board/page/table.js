/**
 * The table of all arcs. It has the visible rows, and requests others while it is scrolled.
 * @typedef {import("./rows.js").Arc} Arc
 * @typedef {{ order: string, filter: string, total: number, first: number, rows: Arc[], reading: string, fault: string, current: number,
 *   anchor: number }} Table
 *   its order and filter; how many rows match, and the visible ones; how the filter is understood, or why it is not; the row from which
 *   keys move, and the one where a selection of several begins
 */
import { Requests } from "./asking.js";
import { choose, theChoice } from "./choice.js";
import { at, make, onClick, replace } from "./elements.js";
import { beginHelp, filterWords, typeFilter } from "./filter.js";
import { isPicked, pickMore, pickThese, toggle } from "./many.js";
import { trouble } from "./messages.js";
import { COLUMNS, fill, HEIGHT, NUMBERS, row, spacer, title } from "./rows.js";
import { ask, caption, noun, units, wording } from "./state.js";
import { now, update, watch } from "./store.js";
import { sentence, upper } from "./words.js";

/** The rows in one request; and the rows by which Page Up and Page Down move. */
const AT_ONCE = 36, PAGE = 10;
const requests = new Requests();
/**
 * The rows in the page, by their places and their arcs' numbers, and the length of the longest amount so far, which sets the width of the
 * columns; whether rows are being requested that have become visible, and whether others have meanwhile.
 * @type {{ rows: Map<string, HTMLTableRowElement>, signs: number, isAsking: boolean, isLate: boolean }}
 */
const activity = { rows: new Map(), signs: 0, isAsking: false, isLate: false };

/**
 * Returns the order after a click on a column's title: of numbers the largest come first.
 * @param {string} column
 */
function nextOrder(column) {
  const orders = [...NUMBERS.includes(column) ? [`-${column}`, column] : [column, `-${column}`], ""];
  return orders[(orders.indexOf(now.table.order) + 1) % orders.length];
}

const words = () => `filter=${encodeURIComponent(filterWords())}&sort=${now.table.order}`;

/**
 * Returns the numbers of `count` arcs of the table, or null if the board has changed since: other rows may stand there.
 * @param {number} first
 * @param {number} count
 * @returns {Promise<number[] | null>}
 */
async function numbers(first, count) {
  const told = await ask(`numbers?${words()}&first=${first}&count=${count}`);
  if (told === undefined) trouble("Something changed just then, so nothing was chosen. Choose again.");
  return told ? told.numbers : null;
}

/** Updates the visible rows after a change of the state, the filter or the order. */
export async function showTable() {
  const isLatest = requests.begin();
  const above = Math.floor(at("rows").scrollTop / HEIGHT) - AT_ONCE / 3, first = Math.max(0, Math.min(above, now.table.total - AT_ONCE));
  const told = await ask(`rows?${words()}&first=${first}&count=${AT_ONCE}`);
  if (!isLatest() || !told) return;
  const { total, rows, reading, fault } = told, current = Math.min(now.table.current, Math.max(0, total - 1));
  update("table", { total, first: told.first, rows, reading, fault, current });
  at("filter-told").textContent = fault ? sentence(fault) : `${total} ${total === 1 ? "row" : "rows"}: ${reading || "all"}.`;
  at("filter").setAttribute("aria-invalid", String(Boolean(fault)));
  draw();
}

/** Requests the rows that have become visible, one request after the other. */
async function scrolled() {
  const first = Math.floor(at("rows").scrollTop / HEIGHT), last = first + Math.ceil(at("rows").clientHeight / HEIGHT);
  const { table } = now;
  if (first >= table.first && Math.min(last, table.total) <= table.first + table.rows.length) return;
  activity.isLate = activity.isAsking;
  if (activity.isAsking) return;
  activity.isAsking = true;
  await showTable();
  activity.isAsking = false;
  if (activity.isLate) scrolled();
}

function draw() {
  const { order, total, first, rows } = now.table, before = activity.rows;
  /** @type {Record<string, string>} */
  const named = { name: upper(noun()), flow: wording().flows, capacity: wording().fits };
  const heads = COLUMNS.map(([column, told]) => {
    const sort = make("button", named[column] ?? told, { type: "button", class: "link" });
    sort.addEventListener("click", () => {
      update("table", { order: nextOrder(column) });
      at("rows").scrollTop = 0;
      showTable();
    });
    const way = order === column ? "ascending" : order === `-${column}` ? "descending" : "none";
    return make("th", sort, { scope: "col", class: column, "aria-sort": way });
  });
  const grid = /** @type {HTMLTableElement} */ (at("grid"));
  grid.setAttribute("aria-rowcount", String(total + 1));
  activity.signs = Math.max(activity.signs, ...rows.flatMap((arc) => [arc.flow.length, arc.capacity.length]));
  grid.style.setProperty("--signs", String(activity.signs));
  grid.classList.toggle("unchanged", now.state?.at === 0);
  const keys = "arrow keys move, Space chooses, Control and A all, Enter shows one";
  grid.setAttribute("aria-label", `All ${noun()}s ${caption()}; ${keys}`);
  if (grid.tHead) replace(grid.tHead, [make("tr", [title("tick", "chosen"), ...heads, title("marks", "state")])]);
  activity.rows = new Map(rows.map((arc, place) => {
    const key = `${first + place} ${arc.number}`, made = before.get(key) ?? row(first + place);
    fill(made, arc);
    return [key, made];
  }));
  replace(grid.tBodies[0], [spacer(first), ...activity.rows.values(), spacer(total - first - rows.length)]);
  point();
}

/** Marks the current row, from which keys move, and the selected ones. */
function point() {
  const { total, first, rows, current } = now.table;
  for (const [place, { number }] of rows.entries()) {
    const made = document.getElementById(`row-${first + place}`), is = isPicked(number), tick = made?.querySelector("input");
    made?.classList.toggle("current", first + place === current);
    made?.classList.toggle("chosen", number === theChoice()?.arc);
    if (made && made.ariaSelected !== String(is)) made.ariaSelected = String(is);
    if (tick) tick.checked = is;
  }
  at("grid").setAttribute("aria-activedescendant", total ? `row-${current}` : "");
}

/**
 * Makes a row the current one, and scrolls to it.
 * @param {number} place
 */
async function go(place) {
  const current = Math.max(0, Math.min(now.table.total - 1, place));
  update("table", { current });
  const box = at("rows"), top = current * HEIGHT, room = box.clientHeight - HEIGHT;
  if (top < box.scrollTop) box.scrollTop = top;
  else if (top + HEIGHT > box.scrollTop + room) box.scrollTop = top + HEIGHT - room;
  await scrolled();
  point();
}

/** Marks the rows and, if the table is visible, updates them. */
export async function showRows() {
  point();
  if (!at("part-all").hidden) await scrolled();
}

/** Goes to the row of the selected arc, if it was selected elsewhere while the table is visible, and it matches the filter. */
export async function goToChosen() {
  const number = theChoice()?.arc, host = at("part-all");
  point();
  if (!number || host.hidden || host.contains(document.activeElement)) return;
  const told = await ask(`numbers?${words()}&first=0&count=${now.table.total}`), place = told?.numbers.indexOf(number) ?? -1;
  if (place >= 0 && number === theChoice()?.arc) await go(place);
}

const arcAt = (/** @type {number} */ place) => now.table.rows[place - now.table.first];

/** Selects the rows between the one where the selection began and the current one. */
async function pickRange() {
  const { anchor, current } = now.table, found = await numbers(Math.min(anchor, current), Math.abs(anchor - current) + 1);
  if (found) pickThese(found);
}

/** Selects all arcs that match the filter. */
async function pickAll() {
  const found = await numbers(0, now.table.total);
  if (found) pickMore(found);
}

/** @param {MouseEvent} event */
async function clicked(event) {
  const target = event.target instanceof Element ? event.target : null;
  const made = target?.closest("tbody tr[id]");
  if (!made) return;
  const current = Number(made.id.slice("row-".length)), arc = arcAt(current);
  update("table", { current });
  if (event.shiftKey) {
    await pickRange();
  } else {
    update("table", { anchor: current });
    if (event.ctrlKey || event.metaKey || target?.matches("input, .tick")) await toggle(arc.number);
    else await Promise.all([pickThese([arc.number]), choose({ arc: arc.number })]);
  }
  point();
}

/** @param {KeyboardEvent} event */
async function typed(event) {
  const { total, current } = now.table;
  if (event.target !== at("grid") || !total) return;
  const steps = { ArrowDown: 1, ArrowUp: -1, PageDown: PAGE, PageUp: -PAGE, Home: -total, End: total }[event.key];
  const to = steps && current + steps;
  const isAll = event.key === "a" && (event.ctrlKey || event.metaKey);
  if (to === undefined && !isAll && ![" ", "Enter", "Escape"].includes(event.key)) return;
  event.preventDefault();
  if (isAll) await pickAll();
  else if (event.key === "Escape") pickThese([]);
  else if (to !== undefined) {
    await go(to);
    if (event.shiftKey) await pickRange();
    else update("table", { anchor: now.table.current });
  } else if (arcAt(current)) {
    update("table", { anchor: current });
    await (event.key === " " ? toggle(arcAt(current).number) : choose({ arc: arcAt(current).number }));
  }
}

export function beginTable() {
  beginHelp();
  at("rows").addEventListener("scroll", scrolled);
  at("grid").addEventListener("click", clicked);
  at("grid").addEventListener("keydown", typed);
  onClick("pick-all", pickAll);
  at("filter").addEventListener("input", () => {
    showFiltered();
    typeFilter();
  });
  watch("picked", point);
}

/** If the filter has changed, shows its rows from the first on. */
export function showFiltered() {
  if (filterWords() === now.table.filter) return undefined;
  at("rows").scrollTop = 0;
  update("table", { filter: filterWords(), current: 0, anchor: 0 });
  return showTable();
}

/** Says what can be typed into the filter, and the unit of amounts. */
export const showForms = () => {
  at("listed-head").textContent = `All ${noun()}s`;
  at("filter-forms").textContent = `A part of a name, or use > 80, ${wording().forms}, full, bottleneck,`
    + ` closed, added, changed; with “and” between two, and “not” before one. Amounts are in${units() || " the table’s unit"}, use in %.`;
};
