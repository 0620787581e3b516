/**
 * The connection on which the board sends the number of each newer state; the board runs as long as a page holds one. A browser has few
 * connections to one server, so one tab of a board holds it and tells the others. When that tab is closed, or does not answer because a
 * dialog is open in it, another one takes over.
 */
import { posted } from "./asking.js";

/** The name by which the board and the other tabs know this page. */
const PAGE = [...crypto.getRandomValues(new Uint32Array(4))].map((word) => word.toString(16)).join("-");
/** How long the tab that holds the connection has to answer, and how long it may be silent before it is asked, in milliseconds. */
const PATIENCE = 300, QUIET = 4000;
const tabs = new BroadcastChannel(location.pathname);
/**
 * The connection, if this tab holds it.
 * @type {EventSource | null}
 */
let source = null;
let waiting = 0;

/**
 * @typedef {object} Listener
 * @property {(turn: number, picture?: number) => unknown} heard is called when there is a newer state, or places of the picture have moved
 * @property {() => unknown} broke is called when the connection breaks; if the board still answers, the browser reconnects
 * @property {() => unknown} lost is called when the board refuses it
 *
 * A message between tabs: who holds the connection? Or, from the tab that holds it: here, the number of a state and of its picture, it
 * broke, this tab was left.
 * @typedef {{ from: string, what: "who" | "here" | "broke" | "left" | [number, number?] }} Said
 */

/** @param {Said["what"]} what */
const say = (what) => tabs.postMessage({ from: PAGE, what });

/**
 * Holds the connection, or listens to the tab that does.
 * @param {Listener} listener
 * @returns {() => void} a function that ends this
 */
export function live(listener) {
  const hold = () => {
    clearTimeout(waiting);
    source = connect(listener);
    say("here");
  };
  tabs.onmessage = (/** @type {MessageEvent<Said>} */ { data: { from, what } }) => {
    if (Array.isArray(what)) listener.heard(...what);
    else if (what === "broke") listener.broke();
    if (source) meet(from, what, hold);
    // Timers may be late in a hidden tab, and the board may end meanwhile.
    else if (what === "left") hold();
    else if (what !== "who") wait(() => seek(hold), QUIET);
  };
  seek(hold);
  return () => {
    tabs.onmessage = null;
    sayLeft();
    letGo();
  };
}

/**
 * @param {() => void} next
 * @param {number} time
 */
function wait(next, time) {
  clearTimeout(waiting);
  waiting = setTimeout(next, time);
}

/**
 * Asks who holds the connection. If no tab answers, this one will.
 * @param {() => void} hold
 */
function seek(hold) {
  say("who");
  wait(hold, PATIENCE);
}

/**
 * Handles a message from another tab while this one holds the connection. If both hold one, because one did not answer in time, the tab
 * with the lesser name keeps its own.
 * @param {string} from
 * @param {Said["what"]} what
 * @param {() => void} hold
 */
function meet(from, what, hold) {
  if (what === "who" || from > PAGE) {
    say("here");
  } else if (what !== "left") {
    letGo();
    leave();
    wait(() => seek(hold), QUIET);
  }
}

function letGo() {
  clearTimeout(waiting);
  source?.close();
  source = null;
}

/** @param {Listener} listener */
function connect({ heard, broke, lost }) {
  const made = new EventSource(`life?page=${PAGE}`);
  made.addEventListener("error", () => {
    say("broke");
    if (made.readyState === EventSource.CLOSED) lost();
    else broke();
  });
  made.addEventListener("message", ({ data }) => {
    const told = /** @type {[number, number?]} */ (data.split(" ").map(Number));
    say(told);
    heard(...told);
  });
  return made;
}

/** Tells the board that this page was left. Without that the board would wait for it, as for a page whose connection broke. */
const leave = () => fetch("left", { ...posted({ page: PAGE }), keepalive: true }).catch(() => undefined);

/** Tells the other tabs that this one no longer holds the connection, so that one of them takes over. */
const sayLeft = () => source && say("left");

/** Makes this page tell the board and the other tabs when it is left. */
export const heedLeaving = () => addEventListener("pagehide", () => {
  sayLeft();
  leave();
});
