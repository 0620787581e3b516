/** A store of what a page shows: parts that each have one value, and the functions that are called when it changes. */

/**
 * Returns a store with these values.
 * @template {object} Parts
 * @param {Parts} parts
 */
export function newStore(parts) {
  /** @type {Map<keyof Parts, ((value: any, before: any) => unknown)[]>} */
  const watchers = new Map();
  /**
   * Sets the value of a part, and waits until all that depends on it is shown.
   * @template {keyof Parts} Name
   * @param {Name} name
   * @param {Parts[Name]} value
   */
  function put(name, value) {
    const before = parts[name];
    parts[name] = value;
    return Promise.all((watchers.get(name) ?? []).map((watcher) => watcher(value, before)));
  }
  /**
   * Sets some fields of a part.
   * @template {keyof Parts} Name
   * @param {Name} name
   * @param {Partial<Parts[Name]>} fields
   */
  const update = (name, fields) => put(name, { ...parts[name], ...fields });
  /**
   * Calls `watcher` with each new value of a part, and the one before it.
   * @template {keyof Parts} Name
   * @param {Name} name
   * @param {(value: Parts[Name], before: Parts[Name]) => unknown} watcher
   */
  function watch(name, watcher) {
    watchers.set(name, [...watchers.get(name) ?? [], watcher]);
  }
  /** @type {Readonly<Parts>} */
  const now = parts;
  return { now, watch, put, update };
}
