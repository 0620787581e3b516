/**
 * The states from the board, and the requests to the board.
 * @typedef {{ number: number, node: number, tail_node: number, head_node: number, name: string, label: string, short: string, tail: string,
 *   head: string,
 *   flow: string, capacity: string, way: string, other_way: string, there: string, back: string, closed: boolean, replaced: boolean,
 *   unlimited: boolean, full: boolean, limit: boolean, without: string, lost: string, won?: string }} Arc
 *   `way` is empty unless it leads both ways: ">" if it flows from tail to head, "<" if back, "-" if not at all; and `other_way` says what
 *   it can carry the other way, if that is something else; `there` and `back` are its capacities, if both ways are open; `won` is what a
 *   second one beside the selected arc gains, once that is known
 * @typedef {Arc & { kind: string }} Role what a place gives, takes or lets through at most, and which of these it is
 * @typedef {{ node: number, name: string, in: string, out: string, roles: Role[], is_source: boolean, is_sink: boolean, shut: boolean,
 *   open: boolean, side: boolean, entering: Arc[], leaving: Arc[], more: [number, number], without: string, lost: string }} Place
 *   `more`: how many other arcs enter it, and leave it
 * @typedef {{ arc: string, tasks: string[], picture: string, choose: string, short: string, met: string, source: string, sink: string,
 *   all_given: string, all_taken: string, all_through: string, place: string, without: string, twice: string, most: string, flow: string,
 *   idle: string, amount: string, legend: string, enters: string, leaves: string, rest: string, shut: string, again: string,
 *   shutting: string, is_shut: string, is_open: string, through: string, added: string, each: string, flowing: string, flows: string,
 *   fits: string, forms: string, severed: string, crosses: string, crosses_one: string, whole: string, line: string, compared: string,
 *   more_flows: string, less_flows: string, demand_titles: string[], shades: Record<string, string> }} Words
 *   the words for this network: of pipes and places, or of a roster's people and shifts
 * @typedef {{ turn: number, title: string, unit: string, words: Words, notes: string[], source: string, sink: string, value: string,
 *   arcs: number, given: number, places: number, kept_in: string, scenario: string, why_not: string, floor: number,
 *   offer: string, flows_follow: boolean, at: number, by: string,
 *   steps: { text: string, value: string, by: string }[], limit: Arc[], limit_count: number, side: string[], side_count: number,
 *   demands: string, asked: string, short: Short[], short_count: number, names: string[], parts?: Record<string, any>,
 *   can_print: boolean }} State
 * @typedef {{ node: number, name: string, flow: string, limit: string, missing: string }} Short a place that gets less than it asks for
 * @typedef {{ arc?: number, node?: number }} Choice
 */
import { heard, ONCE } from "./asking.js";
import { at, button, dropTyped } from "./elements.js";
import { heedLeaving, live } from "./live.js";
import { hasTrouble, news, patiently, trouble } from "./messages.js";
import { openControls, shutControls } from "./shutting.js";
import { now, put, watch } from "./store.js";
import { sentence, upper } from "./words.js";

/** What the parts of the page request after each state. The latest address of each path is remembered. */
const SHOWN = ["picture", "looks", "rows", "arc", "place", "scenarios"];
/**
 * Whether this page is acting, and how many actions, and displays of a state, have not ended; these addresses, by their paths; what came
 * with a state, by the addresses that request it; and what ends the connection.
 * @type {{ isActing: boolean, pending: number, addresses: Map<string, string>, parts: Record<string, any>, letGo: () => void }}
 */
const activity = { isActing: false, pending: 0, addresses: new Map(), parts: {}, letGo: () => undefined };

/** Returns the present state. Throws an error before there is one. */
export function present() {
  if (!now.state) throw new Error("nothing is told yet");
  return now.state;
}

export const wording = () => present().words;
export const noun = () => wording().arc;
export const units = () => (now.state?.unit ? ` ${now.state.unit}` : "");
export const caption = () => now.state?.unit && `in ${now.state.unit}` || "";

/**
 * Returns the board's answer, parsed from JSON. Returns null if the board refuses, after showing why; and undefined if the answer belongs
 * to another state than this page shows, which is then, or soon, updated, or if the connection broke before it came.
 * @param {string} path
 * @param {object} [content] what is posted, if anything
 * @param {boolean} isQuiet whether a refusal is not shown
 * @returns {Promise<any>}
 */
export async function ask(path, content, isQuiet = false) {
  const [name] = path.split("?"), part = activity.parts[path];
  if (!content && SHOWN.includes(name)) activity.addresses.set(name, path);
  delete activity.parts[path];
  if (!content && part && part.turn === now.state?.turn) return part;
  const reply = await heard(path, content && { turn: now.state?.turn, ...content });
  if (!reply) {
    if (!ONCE.includes(path) || !await heard("state")) {
      lost();
      return null;
    }
    trouble("The connection broke: look whether this was done.");
    await renew();
    return undefined;
  }
  const { answer, told } = reply, { state } = now;
  if (answer.status === 410) {
    trouble(`The session ended by itself: ${told.ended}. To take along, there is the problem below.`, button(
      told.steps ? `Begin again, with the steps made so far (${told.steps})` : "Begin again", () => act({ what: "again" }, "begun again")));
    return null;
  }
  if (!answer.ok && !isQuiet || told.told) trouble(sentence(told.error || told.told));
  if (state && told.turn !== undefined && told.turn !== state.turn && path !== "state" && !(path === "do" && answer.ok)) {
    // While this page is acting itself, it updates when that has ended.
    if (told.turn > state.turn && (!activity.isActing || path === "do")) await renew();
    return undefined;
  }
  return answer.ok ? told : null;
}

/** Says that the board cannot be reached, and disables everything except the button that tries again. */
function lost() {
  const { shut, state } = now;
  if (shut.length) return;
  activity.letGo();
  put("shut", shutControls());
  const kept = state?.kept_in ? `Each step is in ${state.kept_in}.` : "The steps on this page are not kept: there they can still be read.";
  trouble(`The board does not answer. Where it has ended, start it again with “dmf-board ${state?.title ?? "FILE"}”, and open the address `
    + `that it tells. ${kept} What you typed stays here.`, button("Look again", lookAgain));
}

/** Goes on if the board can be reached again. What was requested meanwhile did not come, so the state is shown again. */
async function lookAgain() {
  if (!await heard("state")) return;
  openControls(now.shut);
  put("shut", []);
  trouble("");
  activity.letGo = follow();
  await renew(true);
}

/**
 * Shows the board's present state, which another tab may have changed.
 * @param {boolean} isForced also if this page shows it already
 */
async function renew(isForced = false) {
  const told = await patiently(ask("state")), { state } = now;
  if (!told || state && (told.turn < state.turn || told.turn === state.turn && !isForced)) return;
  if (state && state.turn !== told.turn) news(hasTrouble() ? "" : `The ${wording().whole} has changed in another tab.`);
  await show(told);
}

/**
 * Marks the page as busy until something has ended.
 * @template Told
 * @param {() => Promise<Told>} task
 */
async function busily(task) {
  const note = (/** @type {number} */ change) => {
    activity.pending += change;
    at("main").setAttribute("aria-busy", String(activity.pending > 0));
  };
  note(1);
  try {
    return await task();
  } finally {
    note(-1);
  }
}

/** Shows the newest state, if this page shows an older one. */
async function catchUp() {
  if (now.state && now.newest.turn > now.state.turn) await renew();
}

/**
 * Shows a state. For a large network the board first sends the value and the bottleneck; the parts that need the flows wait for them.
 * @param {State} told
 */
const show = (told) => busily(async () => {
  activity.parts = told.parts ?? {};
  activity.addresses.clear();
  // Hidden until now, since laying it out without its content would be wasted work.
  at("main").hidden = false;
  const shown = put("state", told);
  if (told.flows_follow) news("What can be sent and the bottleneck are known; the flows follow.");
  await (told.flows_follow ? patiently(shown) : shown);
  if (told.flows_follow) news("The flows are there.");
});

/**
 * Makes a change, and reports it in these words or else in those of the step. A second click meanwhile is ignored: it was meant for the
 * state before the change.
 * @param {object} content
 * @param {string} words
 * @returns {Promise<boolean>} whether it was done
 */
export const act = (content, words = "") => busily(async () => {
  if (activity.isActing) return false;
  activity.isActing = true;
  trouble("");
  /** @type {State & { moved: string } | null | undefined} */
  const told = await patiently(ask("do", { ...content, shown: [...activity.addresses.values()] }));
  activity.isActing = false;
  if (told) {
    dropTyped();
    news(`${upper(words || told.steps[told.at].text)}: ${told.value}${units()}, ${told.moved}`);
    await show(told);
  } else {
    // The news about the change before would seem to belong to the refusal.
    news("");
  }
  await catchUp();
  return Boolean(told);
});

export const undo = () => present().at > present().floor && act({ what: "go", step: present().at - 1 }, "undone");
export const redo = () => present().at < present().steps.length - 1 && act({ what: "go", step: present().at + 1 }, "done again");

/** Follows the newer states of the board. While this page is acting itself, it updates when that has ended. */
const follow = () => live({
  heard: (turn, picture = 0) => put("newest", { turn, picture }),
  broke: () => activity.isActing || renew(),
  lost,
});

watch("newest", () => activity.isActing || catchUp());
activity.letGo = follow();
heedLeaving();

/** Shows the page for the first time. */
export const begin = () => busily(async () => {
  at("end").addEventListener("click", () => ask("stop", {}));
  await renew();
  await catchUp();
});
