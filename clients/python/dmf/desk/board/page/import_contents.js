/**
 * What the file has, part by part: the sections of a network of EPANET, the sheets of a workbook, the kinds of lines of a map.
 * @typedef {import("./import_state.js").View} View
 */
import { at, cell, make, numberCell, replaceAlike } from "./elements.js";
import { grouped } from "./words.js";

/** @param {View} view */
export function showContents({ contents }) {
  const table = /** @type {HTMLTableElement} */ (at("contents-table"));
  at("contents").hidden = !contents.length;
  replaceAlike(table.tBodies[0], contents.map(({ name, count, said }) => make("tr", [
    make("th", name, { scope: "row" }), numberCell(count === null ? "" : grouped(count)), cell(said)
  ])));
}
