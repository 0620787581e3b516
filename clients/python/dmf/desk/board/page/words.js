/** Makes sentences from the words of the board. */

/** @param {string} text */
export const upper = (text) => text.charAt(0).toUpperCase() + text.slice(1);

/** @param {string} text */
export const sentence = (text) => upper(text) + (/[.?!]$/.test(text) ? "" : ".");

/** @param {string} name */
export const quoted = (name) => `“${name}”`;

/** @param {number} count */
export const grouped = (count) => count.toLocaleString("en");

/** The most names of a list in a sentence. */
const MOST_NAMED = 5;

/**
 * Returns the first names of a list, and how many more it has.
 * @param {string[]} names
 * @param {number} count how many names the whole list has
 * @param {string} sign the separator
 */
export function listed(names, count = names.length, sign = ", ") {
  const rest = count - Math.min(names.length, MOST_NAMED);
  return names.slice(0, MOST_NAMED).join(sign) + (rest ? ` and ${grouped(rest)} more` : "");
}

/**
 * Returns the name of a file, without its folders.
 * @param {string} path
 */
export const fileName = (path) => path.split(/[\\/]/).pop() || path;
