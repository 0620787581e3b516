/**
 * The bottleneck: the arcs that hold back what can be sent, and what a second one beside each would bring, once that is asked for.
 * @typedef {import("./state.js").State} State
 * @typedef {{ number: number, short: string, doubled: string, won: string, gain: string }} Second
 * @typedef {{ turn: number, found: Map<number, Second>, isOver: boolean }} Seconds
 */
import { pick } from "./choice.js";
import { at, fill, numberCell, onClick } from "./elements.js";
import { ask, caption, noun, present, units, wording } from "./state.js";
import { now, put, watch } from "./store.js";
import { grouped, listed, upper } from "./words.js";

/**
 * Shows the bottleneck of a state. What a second one brings belongs to the state in which it was asked for.
 * @param {State} state
 */
export function showBottleneck(state) {
  const rest = state.limit_count - state.limit.length;
  const { crosses, crosses_one: one, severed } = state.words, said = state.limit_count > 1 ? crosses : state.limit_count ? one : severed;
  const filled = said.replace("{count}", grouped(state.limit_count)).replace("{value}", `${state.value}${units()}`);
  at("limit-note").textContent = `${filled} Before ${state.limit_count === 1 ? "it" : "them"}: ${listed(state.side, state.side_count)}.`
    + (rest ? ` The first ${state.limit.length} of ${grouped(state.limit_count)}:` : "");
  if (now.seconds && now.seconds.turn !== state.turn) put("seconds", null);
  else show(now.seconds);
}

/** @param {Second | undefined} second */
const brings = (second) => (!second ? ".." : second.won ? `${second.won} more` : second.doubled ? "nothing" : "too large");

/** @param {Seconds | null} seconds */
function show(seconds) {
  const { limit } = present();
  at("seconds").hidden = !limit.length;
  at("seconds").textContent = seconds && !seconds.isOver ? "Stop" : "What would a second one bring?";
  at("seconds-told").textContent = seconds ? verdict(seconds, limit.length) : "";
  fill("limit-table", caption(), [upper(noun()), wording().most, ...(seconds ? ["a second one brings"] : [])], limit.map((arc) => [
    pick(arc), numberCell(arc.capacity), ...(seconds ? [numberCell(brings(seconds.found.get(arc.number)))] : [])]));
}

/**
 * @param {Seconds} seconds
 * @param {number} count of how many that is asked
 */
function verdict({ found, isOver }, count) {
  if (!isOver) return `${found.size} of ${count} are tried ..`;
  const stopped = found.size < count ? `Stopped: ${found.size} of ${count} are tried. ` : "";
  const tried = [...found.values()], most = tried.map((it) => it.gain).sort().pop();
  const best = tried.filter((it) => it.won && it.gain === most);
  if (!best.length) return stopped + (tried.length ? "A second one of any of them alone brings nothing." : "");
  return `${stopped}Best to have a second of: ${listed(best.map((it) => it.short), best.length, " or ")}, ${best[0].won}${units()} more.`;
}

/**
 * Returns true if a second one beside an arc is tried when that is asked for.
 * @param {{ number: number }} arc
 */
export const canTry = ({ number }) => present().limit.some((it) => it.number === number);

/** Finds what a second one beside each arc of the bottleneck brings, and shows what is found so far. */
export async function findSeconds() {
  const { limit, turn } = present();
  /** @type {Seconds} */
  const mine = { turn, found: new Map(), isOver: false };
  let left = limit.map((arc) => arc.number);
  while (left.length && !mine.isOver) {
    put("seconds", mine);
    const told = await ask("seconds", { arcs: left });
    if (now.seconds !== mine) return;
    if (!told) break;
    for (const it of told.seconds) mine.found.set(it.number, it);
    ({ left } = told);
  }
  mine.isOver = true;
  put("seconds", mine);
}

/**
 * Ends the search. It does not wait for what is being tried, which the board ends.
 * @param {Seconds} seconds
 */
function stop(seconds) {
  put("seconds", { ...seconds, isOver: true });
  ask("seconds", { arcs: [] }, true);
}

export function beginBottleneck() {
  watch("seconds", show);
  onClick("seconds", () => (now.seconds && !now.seconds.isOver ? stop(now.seconds) : findSeconds()));
}
