/**
 * The file that is read: it is chosen, or dropped anywhere on the page.
 * @typedef {import("./import_state.js").View} View
 */
import { at, field } from "./elements.js";
import { now, upload } from "./import_state.js";
import { trouble } from "./messages.js";
import { grouped } from "./words.js";

/** How the names of the other files of a shapefile end. */
const PART = /\.(dbf|shx|prj|cpg|sbn|sbx|qix|qpj)$/i;
const MEGABYTE = 2 ** 20, MOST_MEGABYTES = 256;

/**
 * @param {View} view
 * @param {View | null} before
 */
export function showFile({ file }, before) {
  document.title = file ? `${file.name}: import` : "dmf-board";
  at("title").textContent = file?.name ?? "Which network is it?";
  at("file-said").textContent = file ? `${file.kind}, ${sizeOf(file.bytes)}, in ${file.folder}` : "";
  at("file-label").textContent = file ? "Choose another file" : "Choose a file";
  at("file-label").classList.toggle("plain", Boolean(file));
  at("drop-hint").hidden = Boolean(file);
  at("parts").hidden = !file;
  if (!before && !file) at("file").focus();
}

/** @param {number} bytes */
function sizeOf(bytes) {
  return bytes < MEGABYTE ? `${grouped(bytes)} byte${bytes === 1 ? "" : "s"}` : `${(bytes / MEGABYTE).toFixed(1)} MB`;
}

/** @param {File} file */
const stemOf = (file) => file.name.replace(/\.[^.]*$/, "");

/**
 * Sends the files that were chosen. Several are those of a shapefile, of which the lines are read.
 * @param {File[]} files
 */
function take(files) {
  if (!files.length || now.shut.length) return;
  const large = files.find((file) => file.size > MOST_MEGABYTES * MEGABYTE);
  const parts = files.filter((file) => PART.test(file.name)), [lines, ...more] = files.filter((file) => !parts.includes(file));
  if (large) {
    trouble(`${large.name} has ${sizeOf(large.size)}, and at most ${MOST_MEGABYTES} MB are read.`);
  } else if (files.length === 1) {
    upload(files);
  } else if (more.length || files.some((file) => stemOf(file) !== stemOf(files[0])) || lines && !/\.shp$/i.test(lines.name)) {
    trouble("These are several files: choose the one with the pipes, roads or lines. Only the files of a shapefile go together.");
  } else if (!lines) {
    trouble(`These are parts of a shapefile. Give its lines with them: ${stemOf(files[0])}.shp.`);
  } else {
    upload([...parts, lines]);
  }
}

/** @param {DragEvent} event */
function drop(event) {
  event.preventDefault();
  document.body.classList.remove("dragged");
  const items = [...event.dataTransfer?.items ?? []];
  if (items.some((item) => item.webkitGetAsEntry()?.isDirectory)) trouble("That is a folder: choose a file in it.");
  else take([...event.dataTransfer?.files ?? []]);
}

export function beginFile() {
  const chosen = field("file");
  chosen.addEventListener("change", () => {
    const files = [...chosen.files ?? []];
    // The same file may be chosen again after it was mended.
    chosen.value = "";
    take(files);
  });
  document.addEventListener("dragover", (event) => {
    event.preventDefault();
    document.body.classList.toggle("dragged", Boolean(event.dataTransfer?.types.includes("Files")));
  });
  document.addEventListener("dragleave", (event) => {
    if (!event.relatedTarget) document.body.classList.remove("dragged");
  });
  document.addEventListener("drop", drop);
}
