/** Texts that are shortened until they have room. */
import { at, make } from "./elements.js";

/**
 * What is shown by each element: the words in bold at the beginning, and the texts after them.
 * @type {Map<HTMLElement, { bold: string, texts: string[] }>}
 */
const shown = new Map();

/** @param {HTMLElement} host */
const isCut = (host) => host.scrollWidth > host.clientWidth || host.scrollHeight > host.clientHeight;

/** @param {HTMLElement} host */
function fit(host) {
  const { bold, texts } = shown.get(host) ?? { bold: "", texts: [] };
  for (const [place, text] of texts.entries()) {
    const pieces = bold ? [make("strong", bold), text] : [text];
    const whole = make("span", bold + texts[0], { class: "unseen" });
    host.replaceChildren(...place ? [make("span", pieces, { "aria-hidden": "true" }), whole] : pieces);
    if (!isCut(host)) return;
  }
}

/**
 * Shows the first of these texts that has room in an element, or the last one. Screen readers have the first one in any case.
 * @param {HTMLElement} host
 * @param {string[]} texts the longest first
 * @param {string} bold what stands before each of them in bold
 */
export function showFitting(host, texts, bold = "") {
  shown.set(host, { bold, texts });
  host.title = bold + texts[0];
  fit(host);
}

/** Chooses the texts anew when the window, the panel or what stands beside the texts has another size. */
export function heedRoom() {
  const watcher = new ResizeObserver(() => [...shown.keys()].forEach(fit));
  for (const id of ["picture", "panel", "head-acts", "show-limit"]) watcher.observe(at(id));
}
