/**
 * Boxes on the screen, and which of them meet.
 * @typedef {import("./ink.js").Edges} Edges
 */
/** The side of a field of the grid, in pixels. */
const FIELD = 64;

/** An index of boxes by the fields of a grid. */
export class Boxes {
  /** @type {Map<string, Edges[]>} */
  #fields = new Map();

  /**
   * @param {Edges} box
   * @returns {string[]}
   */
  static #keys({ left, right, top, bottom }) {
    const keys = [];
    for (let column = Math.floor(left / FIELD); column <= right / FIELD; column += 1) {
      for (let row = Math.floor(top / FIELD); row <= bottom / FIELD; row += 1) keys.push(`${column} ${row}`);
    }
    return keys;
  }

  /** Returns an index of the same boxes, to which others can be added. */
  copy() {
    const copy = new Boxes();
    copy.#fields = new Map(this.#fields);
    return copy;
  }

  /** @param {Edges} box */
  add(box) {
    for (const key of Boxes.#keys(box)) this.#fields.set(key, [...this.#fields.get(key) ?? [], box]);
  }

  /**
   * Returns true if a box meets no box except `own`.
   * @param {Edges} box
   * @param {Edges | null} own
   */
  isFree(box, own) {
    return Boxes.#keys(box).every((key) => (this.#fields.get(key) ?? []).every((it) => it === own || isApart(it, box)));
  }
}

/**
 * Returns true if two boxes have no area in common.
 * @param {Edges} one
 * @param {Edges} other
 */
export const isApart = (one, other) =>
  one.right <= other.left || other.right <= one.left || one.bottom <= other.top || other.bottom <= one.top;

/**
 * Returns true if the first box lies inside the other.
 * @param {Edges} one
 * @param {Edges} other
 */
export const isWithin = (one, other) =>
  one.left >= other.left && one.right <= other.right && one.top >= other.top && one.bottom <= other.bottom;

/**
 * @param {number} x
 * @param {number} y
 * @param {number} right how far it reaches
 * @param {number} down
 * @returns {Edges}
 */
export const edges = (x, y, right, down) => ({ left: x - right, right: x + right, top: y - down, bottom: y + down });

/**
 * @param {Edges} box
 * @param {number} by how much further it reaches to each side
 * @returns {Edges}
 */
export const larger = ({ left, right, top, bottom }, by) => ({ left: left - by, right: right + by, top: top - by, bottom: bottom + by });
