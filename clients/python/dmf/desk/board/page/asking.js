/** Requests to the board, over connections that may break. */

/** The pauses before a request whose connection broke is repeated, in milliseconds. After the last one the board counts as lost. */
const PAUSES = [200, 800, 2000];
/** The requests that are not repeated, since the board may have carried them out. */
export const ONCE = ["do", "stop"];

/** Requests of one kind, of which only the latest counts. */
export class Requests {
  #latest = 0;

  /** Begins a request. Returns a function that tells whether none was begun since. */
  begin() {
    this.#latest += 1;
    return this.sinceNow();
  }

  /** Returns a function that tells whether no request was begun since. */
  sinceNow() {
    const turn = this.#latest;
    return () => turn === this.#latest;
  }
}

/** The number of requests that were answered so far. */
let answered = 0;

/**
 * Returns the board's answer, or null if the board cannot be reached. If the connection breaks, the request is repeated; and once more if
 * another request was answered meanwhile, which shows that the board can be reached.
 * @param {string} path
 * @param {object} [content] what is posted, if anything
 * @param {AbortSignal} [signal] what ends the request, which is not repeated then
 * @returns {Promise<{ answer: Response, told: any } | null>}
 */
export async function heard(path, content, signal) {
  const before = answered, first = await tried(path, content, signal);
  const isRepeated = answered > before && !ONCE.includes(path) && !signal?.aborted;
  return first ?? (isRepeated ? tried(path, content, signal) : null);
}

/**
 * @param {string} path
 * @param {object} [content]
 * @param {AbortSignal} [signal]
 */
async function tried(path, content, signal) {
  const sent = { ...(content === undefined ? {} : posted(content)), signal };
  for (const pause of [...(ONCE.includes(path) ? [] : PAUSES), null]) {
    try {
      const answer = await fetch(path, sent);
      const told = await answer.json();
      answered += 1;
      return { answer, told };
    } catch (error) {
      if (signal?.aborted) return null;
      if (pause !== null) await new Promise((go) => setTimeout(go, pause));
    }
  }
  return null;
}

/** @param {object | Blob} content an object, or the bytes of a file */
export const posted = (content) => (content instanceof Blob
  ? { method: "POST", headers: { "Content-Type": "application/octet-stream" }, body: content }
  : { method: "POST", headers: { "Content-Type": "application/json" }, body: JSON.stringify(content) });
