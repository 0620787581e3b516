/** Drop-down lists that stay when a new view comes, so that they keep the focus, and an open one stays open. */
import { make } from "./elements.js";

/**
 * Fills a drop-down list with these values and their words, and selects a value.
 * @param {HTMLSelectElement} list
 * @param {[string, string][]} pairs
 * @param {string} value
 */
export function fillMenu(list, pairs, value) {
  const isSame = pairs.length === list.options.length
    && pairs.every(([word, text], place) => list.options[place].value === word && list.options[place].textContent === text);
  if (!isSame) list.replaceChildren(...pairs.map(([word, text]) => make("option", text, { value: word })));
  list.value = value;
}
