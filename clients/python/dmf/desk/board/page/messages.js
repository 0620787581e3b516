/** The messages above the picture: news, trouble, and that something takes long. */
import { at, make } from "./elements.js";

const LONG = 1500;

/**
 * Shows what went wrong, with buttons beside it, or clears it.
 * @param {string} text
 * @param {HTMLElement[]} acts
 */
export function trouble(text, ...acts) {
  at("trouble").replaceChildren(...(text ? [make("p", text), ...acts] : []));
  at("trouble").hidden = !text;
}

export const hasTrouble = () => !at("trouble").hidden;

/** @param {string} text */
export function news(text) {
  at("news").textContent = text;
}

/**
 * Waits for an answer, and offers to stop what takes long.
 * @template Told
 * @param {Promise<Told>} answer
 */
export async function patiently(answer) {
  const hide = (/** @type {boolean} */ isHidden) => {
    at("long").hidden = isHidden;
  };
  const late = setTimeout(() => hide(false), LONG);
  try {
    return await answer;
  } finally {
    clearTimeout(late);
    if (!at("long").hidden) hide(true);
  }
}
