/** The layout of the picture from the beginning, for the present form of the window. The board computes it while the page goes on. */
import { at, onClick } from "./elements.js";
import { news } from "./messages.js";
import { showPicture } from "./picture.js";
import { formOf } from "./room.js";
import { ask } from "./state.js";
import { now, watch } from "./store.js";

/** The first and the longest pause before the board is asked whether it is done, in milliseconds. */
const SOON = 50, LATE = 1000;
let isGoing = false, isTried = false;

/** Returns what to ask before, or an empty text if nothing would be lost. */
function question() {
  const { moved, origin } = now.drawing, places = moved === 1 ? "The place" : `The ${moved} places`;
  if (!origin) return "This project does not say whether its places lie as on a map. If they do, they no longer will. Lay them out anew?";
  return moved ? `${places} that you moved will lie where the picture puts ${moved === 1 ? "it" : "them"}. Lay all out anew?` : "";
}

/** Lays the picture out anew, after a question if places were moved by hand. */
export async function tidy() {
  const asked = question();
  if (isGoing || !now.drawing.canLayOut || asked && !confirm(asked)) return;
  news("The picture is being laid out ..");
  news(await layOut() ? "The picture is laid out anew." : "");
}

/**
 * Lays the picture out, and returns whether that was done.
 * @param {boolean} isQuiet whether a refusal is not shown
 */
async function layOut(isQuiet = false) {
  isGoing = true;
  let told = await ask("tidy", { near: now.drawing.near, form: formOf() }, isQuiet), isDone = false;
  // An answer that belongs to the state before a step is undefined.
  for (let pause = told ? SOON : 0; pause && told !== null && !isDone; pause = Math.min(2 * pause, LATE)) {
    await new Promise((go) => setTimeout(go, pause));
    told = await ask("tidied", {}, isQuiet);
    isDone = told?.is_laying_out === false;
  }
  isGoing = false;
  if (isDone) await showPicture();
  return isDone;
}

export function beginTidying() {
  onClick("tidy", tidy);
  watch("drawing", ({ canLayOut, canDrawAll }) => {
    at("tidy").hidden = !canLayOut;
    // Once is enough if that fails.
    if (canDrawAll && !isTried) layOut(true);
    isTried = isTried || canDrawAll;
  });
}
