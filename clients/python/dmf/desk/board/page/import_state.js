/**
 * The store of the import's page: the latest view, and the options as the page shows them; and the requests to the board, which are made
 * one after another.
 * @typedef {Record<string, string | boolean | string[]>} Options
 * @typedef {{ option: string, label: string, choices?: [string, string][] }} Setting
 * @typedef {{ rows: string[][], lines: number[], header: number | null, left_out: number[] }} Preview
 * @typedef {{ at: number, title: string, option: string, role: string, sure: string }} Column
 * @typedef {{ text: string, option: string, choices: [string, string][] }} Question
 * @typedef {{ text: string, line?: number, column?: number }} Fault
 * @typedef {{ source: string[], sink: string[], assumed: string[] }} Ends
 * @typedef {{ name: string, count: number | null, said: string }} Content
 * @typedef {{ file: { name: string, folder: string, kind: string, bytes: number } | null, is_stopped: boolean, options: Options,
 *   settings: Setting[], contents: Content[], preview: Preview | null, columns: Column[], roles: [string, string][], told: string[],
 *   question: Question | null, faults: Fault[], more_faults: number, places: string[], ends: Ends,
 *   answer: { said: string, rows: number } | null, command: string, turn: number }} View
 * @typedef {object} Store
 * @property {View | null} view the latest view, or null before there is one
 * @property {Options} options those of the view, and what was chosen since
 * @property {HTMLElement[]} shut the controls that are disabled while the board cannot be reached
 */
import { heard } from "./asking.js";
import { at, button, onClick } from "./elements.js";
import { heedLeaving, live } from "./live.js";
import { news, patiently, trouble } from "./messages.js";
import { newStore } from "./new_store.js";
import { openControls, shutControls } from "./shutting.js";
import { sentence } from "./words.js";

export const { now, watch, put } = newStore(/** @type {Store} */ ({ view: null, options: {}, shut: [] }));
/**
 * Whether something was chosen that no request has sent yet; how many requests have not ended, and the end of those so far; what ends the
 * sending of a file; and what ends the connection.
 * @type {{ isChanged: boolean, pending: number, last: Promise<unknown>, sending: AbortController | null, letGo: () => void }}
 */
const activity = { isChanged: false, pending: 0, last: Promise.resolve(), sending: null, letGo: () => undefined };

/** Returns the present view. Throws an error before there is one. */
export function present() {
  if (!now.view) throw new Error("nothing is told yet");
  return now.view;
}

/**
 * Does something after what was begun before, and marks the page as busy meanwhile.
 * @param {() => Promise<unknown>} task
 */
function inTurn(task) {
  const note = (/** @type {number} */ step) => {
    activity.pending += step;
    at("main").setAttribute("aria-busy", String(activity.pending > 0));
  };
  note(1);
  activity.last = patiently(activity.last.then(task, task)).finally(() => note(-1));
  return activity.last;
}

/**
 * Sets options, and sends all of them. What is chosen before they are sent goes with them.
 * @param {Options} words
 */
export async function change(words) {
  put("options", { ...now.options, ...words });
  if (!activity.isChanged) inTurn(send);
  activity.isChanged = true;
  await activity.last;
}

async function send() {
  if (!activity.isChanged || now.shut.length) return;
  activity.isChanged = false;
  await hear("import", { options: now.options });
}

/** Sends the options once more, so that what was stopped is read again. */
export const readAgain = () => change({});

/**
 * Sends files, of which the last one is read and the others belong to it.
 * @param {File[]} files
 */
export const upload = (files) => inTurn(async () => {
  const main = files[files.length - 1], of = `&of=${encodeURIComponent(main.name)}`;
  const { signal } = activity.sending = new AbortController();
  for (const file of files) {
    news(`Reading ${file.name} ..`);
    const path = `upload?name=${encodeURIComponent(file.name)}${file === main ? "" : of}`;
    const isHeard = await hear(path, file, file !== main, signal);
    news("");
    if (!isHeard) break;
  }
  activity.sending = null;
  // The last piece may have arrived all the same: the board knows.
  if (signal.aborted) await hear("import");
});

/** Stops what the board reads, or else the file that is still being sent, of which nothing is kept. */
async function stop() {
  const sent = activity.sending, reply = await heard("stop", {});
  if (sent === activity.sending && !reply?.told.is_stopped) sent?.abort();
}

/** Goes on to the board. */
export const open = () => inTurn(async () => {
  const reply = await heard("open", {});
  if (!reply) lost();
  else if (reply.answer.ok) location.reload();
  else await refused(reply.answer.status, reply.told.error);
});

/**
 * Makes a request, and shows the view that answers it, unless something was chosen since.
 * @param {string} path
 * @param {object} [content] what is posted, if anything
 * @param {boolean} isFollowed whether another request follows, whose answer is shown
 * @param {AbortSignal} [signal] what ends the request
 * @returns {Promise<boolean>} whether it was answered
 */
async function hear(path, content, isFollowed = false, signal) {
  const reply = await heard(path, content, signal);
  if (signal?.aborted) return false;
  if (!reply) {
    // Once the board can be reached again, it is sent again.
    activity.isChanged = activity.isChanged || path === "import" && content !== undefined;
    lost();
    return false;
  }
  if (!reply.answer.ok) {
    await refused(reply.answer.status, reply.told.error);
    return false;
  }
  trouble("");
  if (path.startsWith("upload")) activity.isChanged = false;
  if (!activity.isChanged && !isFollowed) show(reply.told);
  return true;
}

/**
 * Says why the board refused. If the table was opened in another tab, this page becomes the board.
 * @param {number} status
 * @param {string} error
 */
async function refused(status, error) {
  if (status !== 400 && (await heard("state"))?.answer.ok) {
    location.reload();
    return;
  }
  trouble(sentence(error));
  // Menus show what holds; what was typed stays in its field.
  if (now.view && !activity.isChanged) show(now.view);
}

/** @param {View} told */
function show(told) {
  put("options", told.options);
  put("view", told);
}

/** Says that the board cannot be reached, and disables everything except the button that tries again. */
function lost() {
  if (now.shut.length) return;
  activity.letGo();
  put("shut", shutControls());
  const file = now.view?.file?.name ?? "FILE";
  trouble(`The board does not answer. Where it has ended, start it again with “dmf-board --import ${file}”, and open the address that it `
    + "tells. What you typed stays here.", button("Look again", lookAgain));
}

/** Goes on if the board can be reached again, with what was chosen meanwhile. */
async function lookAgain() {
  if (!await heard("import")) return;
  openControls(now.shut);
  put("shut", []);
  trouble("");
  activity.letGo = follow();
  await inTurn(() => (activity.isChanged ? send() : hear("import")));
}

/** Shows what another tab has changed. */
const renew = () => inTurn(async () => {
  if (!activity.isChanged && !now.shut.length) await hear("import");
});

const follow = () => live({
  heard: (turn) => turn !== now.view?.turn && renew(),
  broke: renew,
  lost,
});

activity.letGo = follow();
heedLeaving();

/** Shows the page for the first time. */
export function begin() {
  // Requests are made one after another, and this one stops the one that is waited for.
  onClick("end", stop);
  return renew();
}
