/**
 * Finds and makes elements of the page. Names of places and arcs are text in them, never markup.
 * @typedef {Node | string} Piece
 */

/**
 * Returns the element with this id. Throws an error if there is none.
 * @param {string} id
 */
export function at(id) {
  const found = document.getElementById(id);
  if (!found) throw new Error(`the page has no ${id}`);
  return found;
}

/** @param {string} id */
export const field = (id) => /** @type {HTMLInputElement} */ (at(id));

/** @param {string} id */
const tableAt = (id) => /** @type {HTMLTableElement} */ (at(id));

/**
 * Sets what a click on the element with this id does.
 * @param {string} id
 * @param {(event: MouseEvent) => unknown} act
 */
export function onClick(id, act) {
  at(id).addEventListener("click", act);
}

/**
 * Returns a new element with its content and its attributes. An attribute that is false is left out.
 * @template {keyof HTMLElementTagNameMap} Tag
 * @param {Tag} tag
 * @param {Piece | Piece[]} content
 * @param {Record<string, string | boolean>} looks
 * @returns {HTMLElementTagNameMap[Tag]}
 */
export function make(tag, content = [], looks = {}) {
  const made = document.createElement(tag);
  for (const [name, value] of Object.entries(looks)) {
    if (value !== false) made.setAttribute(name, value === true ? "" : value);
  }
  made.append(...[content].flat());
  return made;
}

/** What stands between the names of two places. */
const ARROW = " -> ";

/**
 * Returns a text in pieces, so that no line is broken inside an arrow between two places.
 * @param {string} text
 * @returns {Piece[]}
 */
export const withArrows = (text) => text.split(ARROW).flatMap((it, place) =>
  (place ? [" ", make("span", ARROW.trim(), { class: "arrow" }), ` ${it}`] : [it]));

/**
 * @param {string} text
 * @param {() => unknown} act
 * @param {string} kind its class
 */
export function button(text, act, kind = "") {
  const made = make("button", text, { type: "button", class: kind });
  made.addEventListener("click", act);
  return made;
}

/**
 * The form that is being sent.
 * @type {HTMLFormElement | null}
 */
let sent = null;

/** Forgets what was typed into the form that is being sent, since it was carried out. */
export function dropTyped() {
  for (const it of sent?.querySelectorAll("input") ?? []) delete it.dataset.of;
}

/**
 * Returns a form that does something when its button is pressed, or Enter in one of its fields.
 * @param {Piece[]} fields
 * @param {string} word on its button
 * @param {() => unknown} done
 */
export function form(fields, word, done) {
  const made = make("form", [...fields, make("button", word, { type: "submit" })]);
  made.addEventListener("submit", async (event) => {
    event.preventDefault();
    sent = made;
    await done();
    sent = null;
  });
  return made;
}

/**
 * Fills a drop-down list with these values and their words, and keeps its selection if that is still there. Options that it has already
 * stay, so that a list which is open stays as it is.
 * @param {string} id
 * @param {string[][]} pairs
 * @param {string} usual
 */
export function offer(id, pairs, usual) {
  const list = /** @type {HTMLSelectElement} */ (at(id)), before = list.value;
  replaceAlike(list, pairs.map(([value, words]) => make("option", words, { value })));
  list.value = pairs.some(([value]) => value === before) ? before : usual;
}

/** @param {Element} host */
const controls = (host) => [...host.querySelectorAll("button:enabled, input:enabled")];

/**
 * Returns the fields of an element that say what they belong to.
 * @param {Element} host
 */
const fieldsIn = (host) => [...host.querySelectorAll("input")].filter((it) => it.dataset.of);

/**
 * Sets the children of an element. Equal ones that it has already stay, so that nothing has to be laid out again. What was typed into
 * fields stays too, and a new field hears of it as if it were typed there; and so does the focus: on a child like the one that had it, or
 * else in the same position.
 * @param {Element} host
 * @param {Element[]} children
 */
export function replace(host, children) {
  const held = document.activeElement, wanted = new Set(children);
  const before = fieldsIn(host);
  const typed = new Map(before.filter((it) => it.value !== it.defaultValue).map((it) => [it.dataset.of, it.value]));
  const place = held && host.contains(held) ? controls(host).indexOf(held) : -1;
  for (const child of [...host.children]) if (!wanted.has(child)) child.remove();
  let next = host.firstElementChild;
  for (const child of children) {
    if (child === next) next = next.nextElementSibling;
    else host.insertBefore(child, next);
  }
  const taken = typed.size ? fieldsIn(host).filter((it) => !before.includes(it) && typed.has(it.dataset.of)) : [];
  for (const it of taken) it.value = typed.get(it.dataset.of) ?? "";
  for (const it of taken) it.dispatchEvent(new Event("input"));
  if (!held || place < 0 || held === document.activeElement) return;
  const now = controls(host), like = now.find((it) => it.id && it.id === held.id) ?? now.find((it) => it.textContent === held.textContent);
  const found = like ?? now[Math.min(place, now.length - 1)] ?? host;
  if (found instanceof HTMLElement) found.focus();
}

/**
 * Replaces the rows of a list or a table, in which buttons that look the same do the same. So rows that look as before can stay.
 * @param {Element} host
 * @param {Element[]} rows
 */
export function replaceAlike(host, rows) {
  replace(host, rows.map((row, place) => (host.children[place]?.isEqualNode(row) ? host.children[place] : row)));
}

/** @param {Piece | Piece[]} content */
export const cell = (content) => make("td", content);

/** @param {string} text */
export const numberCell = (text) => make("td", text, { class: "number" });

/**
 * Replaces the title line and the rows of a table.
 * @param {string} id
 * @param {string} caption
 * @param {string[]} heads the titles; all columns but the first have numbers, unless their title is empty
 * @param {HTMLTableCellElement[][]} rows
 * @param {boolean} isWords whether no column has numbers
 */
export function fill(id, caption, heads, rows, isWords = false) {
  const table = tableAt(id);
  const titles = heads.map((head, place) => make("th", head || make("span", "what can be done", { class: "unseen" }),
    { scope: "col", class: place && head && !isWords ? "number" : "" }));
  table.createCaption().textContent = caption;
  table.tHead?.replaceChildren(make("tr", titles));
  replaceAlike(table.tBodies[0], rows.map((row) => make("tr", row)));
}
