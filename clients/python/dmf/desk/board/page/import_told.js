/**
 * What was taken for what, and the command that reads the file in the same way.
 * @typedef {import("./import_state.js").View} View
 */
import { at, make, onClick, replaceAlike } from "./elements.js";
import { present } from "./import_state.js";
import { news } from "./messages.js";
import { sentence } from "./words.js";

/** @param {View} view */
export function showTold({ told, command }) {
  at("taken").hidden = !told.length;
  replaceAlike(at("told"), told.map((note) => make("li", sentence(note))));
  at("typing").hidden = !command;
  if (at("command").textContent !== command) at("command").textContent = command;
}

/** Copies the command. Where the page may not write to the clipboard, as under another name of this machine, it selects the command. */
async function copy() {
  try {
    await navigator.clipboard.writeText(present().command);
    news("The command is copied.");
  } catch {
    getSelection()?.selectAllChildren(at("command"));
    news(document.execCommand("copy") ? "The command is copied." : "The command is selected: Ctrl-C copies it.");
  }
}

export function beginTold() {
  onClick("copy", copy);
}
