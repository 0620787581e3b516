/**
 * What the page shows, and what more than one of its modules reads or waits for. Each part has one owner, the only module that puts it,
 * and what depends on the part watches it. A module has variables of its own, more than three in one record, only for what no other module
 * reads: its latest request, a timer, what a gesture holds while it lasts, and caches.
 * @typedef {object} Store
 * @property {import("./state.js").State | null} state the latest state from the board, or null before there is one
 * @property {{ turn: number, picture: number }} newest the numbers of the board's newest state, and of its picture, which is another one
 *   after a place was moved
 * @property {HTMLElement[]} shut the controls that are disabled while the board cannot be reached
 * @property {import("./state.js").Choice | null} choice the arc or the place that is selected
 * @property {import("./state.js").Arc | null} described the selected arc, as the panel describes it
 * @property {Set<number>} picked the arcs that are selected in the table
 * @property {string} tab the part of the panel that is open
 * @property {import("./table.js").Table} table the visible rows of the table, and their order and filter
 * @property {Set<number> | null} matches the arcs that match what was typed into the filter, or null if that is nothing or has no meaning
 * @property {import("./colourings.js").Shade | null} shade the entry of the legend that is the filter, if it cannot be typed
 * @property {boolean} isHelpAsked whether the button asked for what can be typed into the filter
 * @property {string} colouring what the picture is coloured by
 * @property {{ byNumber: Map<number, import("./colourings.js").Mark>, isAll: boolean }} marks the looks of the arcs that are shown, and
 *   whether these are all arcs
 * @property {boolean} isWorthTold whether the search in the present state has told what each arc is worth
 * @property {import("./colourings.js").Losses} losses what is lost without each arc, as far as that is known
 * @property {import("./bottleneck.js").Seconds | null} seconds what a second one beside each arc of the bottleneck brings, once that is
 *   asked for
 * @property {import("./compare.js").Comparison | null} comparison the comparison of two scenarios that is shown
 * @property {import("./compare.js").Row[]} differing the arcs that differ between these, as far as they are listed
 * @property {import("./picture.js").Drawing} drawing what is known of the picture
 * @property {import("./picture.js").Around} around the place that the picture is around
 * @property {import("./picture.js").Drawn} drawn the parts of the picture in front
 * @property {import("./ground.js").Ground} ground all arcs and places at their positions, behind that
 * @property {import("./spots.js").Taken | null} taken what the labels lie on since they were arranged last
 * @property {number} dot the radius of a place that is neither a source nor a sink, in pixels
 * @property {import("./view.js").View} view the visible part of the picture
 * @property {number} form how many hundredths of its height the free part of the window is wide, or 0 until the window changes its size
 * @property {import("./view.js").Box | null} whole the box of the whole picture, if it is too large to be drawn for each frame
 * @property {import("./gliding.js").Overview | null} overview the overview, or null while there is none of what the picture shows now
 * @property {import("./moving.js").Move[]} moves where places were before they were moved on this page, the latest last
 */
import { newStore } from "./new_store.js";

/** Before there is a picture. */
const NOWHERE = { x: 0, y: 0, width: 1, height: 1 };

/** What the page shows `now`; only `put` and `update` change it, and `watch` tells of each change. */
export const { now, watch, put, update } = newStore(/** @type {Store} */ ({
  state: null, newest: { turn: 0, picture: 0 }, shut: [],
  choice: null, described: null, picked: new Set(), tab: "part-selected",
  table: { order: "", filter: "", total: 0, first: 0, rows: [], reading: "", fault: "", current: 0, anchor: 0 },
  matches: null, shade: null, isHelpAsked: false, colouring: "use", marks: { byNumber: new Map(), isAll: false },
  isWorthTold: false, losses: { byNumber: new Map(), others: 0, last: 0 }, seconds: null, comparison: null, differing: [],
  drawing: { version: 0, layout: 0, near: "", form: 0, count: 0, origin: "", fixed: "not drawn yet", canLayOut: false, canDrawAll: false,
    moved: 0 },
  around: { wanted: "", shown: "none", isFollowing: false },
  drawn: { labels: [], arrows: [], limits: [], usual: 1, ids: new Set() },
  ground: { lines: [], usual: 1, places: new Map() }, taken: null, dot: 5,
  view: { box: NOWHERE, wide: 1, high: 1, fitted: null, focus: { x: 0, y: 0 }, drawnBox: null, isGliding: false },
  form: 0, whole: null, overview: null, moves: [],
}));
