/**
 * The first rows of the file, with a menu above each column for what it is taken for, and a mark on what cannot be read.
 * @typedef {import("./import_state.js").View} View
 * @typedef {import("./import_state.js").Column} Column
 * @typedef {import("./import_state.js").Options} Options
 */
import { at, make, replace, replaceAlike } from "./elements.js";
import { saidBy, showFaults } from "./import_faults.js";
import { fillMenu } from "./import_menus.js";
import { change, now, present } from "./import_state.js";
import { news } from "./messages.js";

const IGNORE = "ignore";
/** How many characters of a cell are seen in any case. */
const LONG = 20;
/** How sure it is what a column is, in words. */
const SURE = new Map([["named", "by its title"], ["only", "the only one possible"], ["chosen", "as you chose"]]);
/**
 * The cells with the menus, by the place of their column. They stay, so that a menu keeps the focus.
 * @type {Map<number, HTMLTableCellElement>}
 */
const heads = new Map();
/** The fault whose cell was scrolled to last. */
let revealed = "";
const corner = make("th", make("span", "Line", { class: "unseen" }), { scope: "col" }), row = make("tr", corner, { class: "roles" });

/** @param {View} view */
export function showPreview(view) {
  const { preview, columns, file } = view, table = /** @type {HTMLTableElement} */ (at("preview-table"));
  const hasRows = Boolean(preview?.rows.length);
  // The headline has a single fault of a file that has no rows.
  at("preview").hidden = !hasRows && view.faults.length < 2;
  at("preview-head").hidden = at("preview-scroll").hidden = !hasRows;
  at("preview-head").textContent = `The first rows of ${file?.name ?? "the file"}`;
  at("preview-note").hidden = !columns.length;
  row.hidden = !columns.length;
  if (table.tHead && row.parentElement !== table.tHead) table.tHead.append(row);
  replace(row, [corner, ...widths(view).map((place) => head(place, view))]);
  replaceAlike(table.tBodies[0], (preview?.rows ?? []).map((_, index) => rowOf(index, view)));
  showFaults(view);
  reveal(view);
}

/**
 * Scrolls to the first cell that cannot be read, unless it is the same as before.
 * @param {View} view
 */
function reveal({ faults }) {
  const [cell] = at("preview-table").querySelectorAll("td.fault"), first = cell ? JSON.stringify(faults[0]) : "";
  if (cell instanceof HTMLElement && first !== revealed) {
    at("preview-scroll").scrollLeft = cell.offsetLeft + cell.offsetWidth - at("preview-scroll").clientWidth;
  }
  revealed = first;
}

/**
 * Returns the places of all columns, of which some rows may have fewer.
 * @param {View} view
 */
function widths({ preview, columns }) {
  const wide = Math.max(0, ...(preview?.rows ?? []).map((cells) => cells.length), ...columns.map((column) => column.at + 1));
  return [...Array(wide).keys()];
}

/**
 * @param {number} place
 * @param {View} view
 */
function head(place, { columns, roles }) {
  const cell = heads.get(place) ?? newHead(place), column = columns.find((it) => it.at === place);
  const [list, sure] = [/** @type {HTMLSelectElement} */ (cell.firstElementChild), cell.lastElementChild];
  list.hidden = !column;
  if (sure) sure.textContent = SURE.get(column?.sure ?? "") ?? "";
  if (!column) return cell;
  list.setAttribute("aria-label", `What column ${column.title || place + 1} is`);
  const isOffered = roles.some(([role]) => role === column.role);
  fillMenu(list, isOffered ? roles : [...roles, [column.role, column.role]], column.role);
  cell.className = column.role && column.role !== IGNORE ? "used" : column.role;
  return cell;
}

/** @param {number} place */
function newHead(place) {
  const list = make("select", [], { id: `role-${place}`, "aria-describedby": `sure-${place}` });
  list.addEventListener("change", () => choose(place, list.value));
  const cell = make("td", [list, make("span", [], { id: `sure-${place}`, class: "soft" })]);
  heads.set(place, cell);
  return cell;
}

/**
 * Takes a column for something. The column that was taken for this before loses it.
 * @param {number} place
 * @param {string} role
 */
async function choose(place, role) {
  const column = present().columns.find((it) => it.at === place);
  if (!column) return;
  await change(optionsWith(column, role));
  const taken = present().columns.find((it) => it.at === place), [, word] = present().roles.find(([it]) => it === taken?.role) ?? ["", ""];
  news(!role && taken?.title === column.title && taken.role === column.role && word
    ? `${column.title || `Column ${place + 1}`} is still taken for “${word}”. To take it for nothing, leave it out.` : "");
}

/**
 * @param {Column} column
 * @param {string} role
 * @returns {Options}
 */
function optionsWith({ option }, role) {
  const { options } = now, others = [options[IGNORE] ?? []].flat().map(String).filter((it) => it !== option);
  const freed = Object.entries(options).filter(([name, value]) => present().roles.some(([it]) => it === name) && value === option);
  return {
    ...Object.fromEntries(freed.map(([name]) => [name, ""])),
    [IGNORE]: role === IGNORE ? [...others, option] : others,
    ...(role && role !== IGNORE ? { [role]: option } : {})
  };
}

/**
 * @param {number} index
 * @param {View} view
 */
function rowOf(index, view) {
  const preview = /** @type {import("./import_state.js").Preview} */ (view.preview);
  const line = preview.lines[index], cells = preview.rows[index];
  const isHead = line === preview.header, isOut = preview.left_out.includes(line);
  const shown = widths(view).map((place) => {
    const text = cells[place] ?? "", looks = { title: text.length > LONG && text, ...marks(line, place + 1, view) };
    return isHead ? make("th", text, { ...looks, scope: "col" }) : make("td", text, looks);
  });
  const number = make("th", String(line), { scope: "row", class: "number", ...marks(line, 0, view) });
  const what = isHead ? "titles" : isOut ? "left-out" : "";
  return make("tr", [number, ...shown], { class: what, title: isOut && "left out" });
}

/**
 * Returns how a cell is marked in which something cannot be read.
 * @param {number} line
 * @param {number} column
 * @param {View} view
 * @returns {Record<string, string>}
 */
function marks(line, column, view) {
  const { faults } = view, index = faults.findIndex((fault) => fault.line === line && (fault.column ?? 0) === column);
  return index < 0 ? {} : { class: column ? "fault" : "number fault", "aria-describedby": saidBy(index, view), title: faults[index].text };
}
