/**
 * How the file is read: a menu, a field or a box to tick for each setting that files of its kind have.
 * @typedef {import("./import_state.js").View} View
 * @typedef {import("./import_state.js").Setting} Setting
 * @typedef {HTMLSelectElement | HTMLInputElement} Control
 */
import { at, make, replace } from "./elements.js";
import { fillMenu } from "./import_menus.js";
import { change, now } from "./import_state.js";

/**
 * The labels with their controls, by option. They stay, so that a control keeps the focus.
 * @type {Map<string, { kind: string, label: HTMLLabelElement, words: Text, control: Control }>}
 */
const shown = new Map();

/**
 * @param {View} view
 * @param {View | null} before
 */
export function showSettings({ settings, file }, before) {
  const isNew = file?.name !== before?.file?.name;
  at("settings").hidden = !settings.length;
  replace(at("setting-list"), settings.map((setting) => labelOf(setting, isNew)));
}

/** @param {Setting} setting */
function kindOf({ option, choices }) {
  return choices?.length ? "menu" : typeof now.options[option] === "boolean" ? "checkbox" : "text";
}

/**
 * @param {Setting} setting
 * @param {boolean} isNew whether another file is shown, for which nothing is typed yet
 */
function labelOf(setting, isNew) {
  const kind = kindOf(setting), known = shown.get(setting.option), value = now.options[setting.option] ?? "";
  const { label, words, control } = known?.kind === kind ? known : newLabel(setting.option, kind);
  words.data = ` ${setting.label} `;
  if (control instanceof HTMLSelectElement) {
    fillMenu(control, setting.choices ?? [], String(value));
  } else if (kind === "checkbox") {
    control.checked = Boolean(value);
  } else if (isNew || control.value === control.defaultValue || control.defaultValue !== value) {
    control.defaultValue = control.value = String(value);
  }
  return label;
}

/**
 * @param {string} option
 * @param {string} kind
 */
function newLabel(option, kind) {
  const words = document.createTextNode(""), id = `setting-${option}`;
  const control = kind === "menu" ? make("select", [], { id }) : make("input", [], { id, type: kind, autocomplete: "off" });
  control.addEventListener("change", () => change({
    [option]: control instanceof HTMLInputElement && kind === "checkbox" ? control.checked : control.value.trim()
  }));
  const made = { kind, label: make("label", kind === "checkbox" ? [control, words] : [words, control], { class: kind }), words, control };
  shown.set(option, made);
  return made;
}
