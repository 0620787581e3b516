/**
 * The picture of the network, or of the part of it near a place or the bottleneck.
 * @typedef {{ version: number, layout: number, near: string, form: number, count: number, origin: string, fixed: string,
 *   canLayOut: boolean, canDrawAll: boolean, moved: number }} Drawing
 *   `version` is another one after a place was moved, and `layout` if all lie elsewhere; the picture is that near a place, for a window
 *   of this `form`, and has a `count` of arcs; `origin` says where positions come from, if that is known, `fixed` why no place can be
 *   moved, if so, and `moved` how many were; with `canDrawAll` the picture is a part, and all can be laid out
 * @typedef {{ wanted: string, shown: string, isFollowing: boolean }} Around the place that the picture should be around, or an empty text
 *   for the bottleneck; the one that it is around; and whether it should be because the view has moved there
 * @typedef {{ labels: import("./labels.js").Label[], arrows: import("./arrows.js").Arrow[], limits: number[][], usual: number,
 *   ids: Set<string> }} Drawn `limits` are the middles of the arcs of the bottleneck, and `usual` the usual length of lines, in units of
 *   the picture; `ids` are those of all parts
 */
import { arrangeIn } from "./arranging.js";
import { arrowsOf, pointArrows } from "./arrows.js";
import { Requests } from "./asking.js";
import { hintBeyond } from "./beyond.js";
import { choose, theChoice } from "./choice.js";
import { markOf, shadeOf, thicker, thickness, usualLength } from "./colourings.js";
import { mostLong, sizeDots } from "./dots.js";
import { boxOf, partOf, parts, show } from "./drawing.js";
import { at, onClick } from "./elements.js";
import { isFaded } from "./filter.js";
import { setWhole } from "./gliding.js";
import { chooseNear, groundBox, isFar, isGround, isOfLimit, lookAtGround, middlePlace } from "./ground.js";
import { holdChoice } from "./holding.js";
import { labelsOf } from "./labels.js";
import { shades } from "./legend.js";
import { isPicked, pickedCount } from "./many.js";
import { news } from "./messages.js";
import { renewOverview } from "./overview.js";
import { paint } from "./painting.js";
import { formOf, freePart } from "./room.js";
import { ask, present, wording } from "./state.js";
import { now, put, update, watch } from "./store.js";
import { beginView, fit, isFitted, scale, see, seenBox, settle, zoom } from "./view.js";
import { grouped } from "./words.js";

/** The factor by which a button or a key enlarges it. */
export const LARGER = 1.4;
/** How long the view has to rest, in milliseconds, and the most labels of a picture that is drawn for each frame of a move. */
const STILL = 300, QUICK = 60;
const requests = new Requests();
let pending = 0, moving = 0;

/** Returns true if not all arcs are shown. */
export const isPart = () => now.drawing.count < present().arcs;

/**
 * Shows what is near a place, or near the bottleneck.
 * @param {number | ""} node
 * @param {boolean} isMoved whether the view has moved there already
 */
export function showNear(node, isMoved = false) {
  const wanted = String(node);
  put("around", { wanted, shown: isMoved ? wanted : now.around.shown, isFollowing: isMoved && Boolean(wanted) });
  return showPicture();
}

/**
 * Shows what is near the middle of the view, and what is near the selection or the bottleneck once the view is wide again. A picture that
 * was requested, and is not shown yet, may have the selection.
 */
function follow() {
  const node = middlePlace(), { wanted, isFollowing } = now.around;
  if (node && String(node) !== wanted) showNear(node, true);
  else if (isFollowing && now.drawing.near === wanted && isFar() && !partOf(theChoice())) showNear("", true);
}

/**
 * Shows the picture for another form of the window, if all was fitted to it. Only then, since no other change moves a place.
 * @param {number} form
 */
async function reshape(form) {
  if (!isFitted() || isGround() || form === now.drawing.form) return undefined;
  const isLatest = requests.begin(), told = await ask(`picture?near=${now.around.wanted}&form=${form}`);
  if (!told || !isLatest()) return undefined;
  // Whoever moves the picture meanwhile keeps it as it is.
  if (!isFitted()) return showPicture();
  update("around", { shown: "none" });
  return showTold(told, form, isLatest);
}

export async function showPicture() {
  const form = now.drawing.form || formOf();
  const isLatest = requests.begin(), told = await ask(`picture?near=${now.around.wanted}&form=${form}`);
  if (told && isLatest()) await showTold(told, form, isLatest);
}

/**
 * Shows the board's answer, unless another one was requested meanwhile.
 * @param {{ svg: string, reason: string, arcs: any[], has_ground: boolean, version: number, layout: number, origin: string,
 *   fixed: string, can_lay_out: boolean, can_draw_all: boolean, moved: number }} told
 * @param {number} form
 * @param {() => boolean} isLatest
 */
async function showTold(told, form, isLatest) {
  await lookAtGround(told.has_ground, told.version);
  if (!isLatest()) return;
  const isElsewhere = told.layout !== now.drawing.layout, hold = isElsewhere ? holdChoice() : null;
  if (isElsewhere) update("around", { shown: "none" });
  const near = now.around.wanted, count = told.arcs.length;
  put("drawing", { version: told.version, layout: told.layout, near, form, count, origin: told.origin, fixed: told.fixed,
    canLayOut: told.can_lay_out, canDrawAll: told.can_draw_all, moved: told.moved });
  const where = near && theChoice()?.node ? "the chosen place" : near ? "a place" : "the bottleneck";
  const part = isGround() ? `All ${grouped(present().arcs)} are drawn. Move in to read their names and numbers. `
    : isPart() ? `${count} of ${grouped(present().arcs)}: what lies nearest to ${where}. ` : "";
  at("drawn-note").classList.toggle("reason", Boolean(told.reason));
  at("drawn-note").textContent = told.reason ? `${told.reason}.` : part;
  at("near-limit").hidden = !near;
  at("take-svg").setAttribute("href", `picture.svg?near=${near}&form=${form}&turn=${present().turn}`);
  const marks = isGround() ? now.ground.lines.map((line) => line.mark) : told.arcs.map((arc) => markOf(arc.number, arc.mark));
  put("marks", { byNumber: new Map(marks.map((it) => [it.number, it])), isAll: isGround() || !isPart() });
  draw(told.svg);
  hold?.();
}

/** @param {string} text */
function draw(text) {
  const active = document.activeElement;
  const held = active && at("picture").contains(active) ? active.id : "";
  // Without Graphviz a map is drawn all the same.
  const box = boxOf(text) ?? groundBox(".node, .arc");
  // After the picture is in the page, reading its size would lay it out, and changes to its labels would do that once more.
  const { shown, wanted } = now.around;
  if (box && (text ? shown !== wanted : shown === "none")) takeRoom(box);
  show(text);
  if (!box) return;
  const labels = labelsOf(parts()), { lines, usual } = now.ground;
  setWhole(isGround() || labels.length > QUICK ? groundBox(".node, .arc") ?? box : null);
  mark();
  const arrows = arrowsOf(parts()), limits = isGround()
    ? lines.filter(isOfLimit).map(({ from, to }) => [(from[0] + to[0]) / 2, (from[1] + to[1]) / 2])
    : arrows.filter(({ part }) => part.matches(".cut")).map(({ path, long }) => path.getPointAtLength(long / 2)).map(({ x, y }) => [x, y]);
  const long = isGround() ? usual : Math.min(usualLength(arrows.map((arrow) => arrow.long)), mostLong(parts()));
  put("drawn", { labels, arrows, limits, usual: long, ids: new Set(parts().map((part) => part.id)) });
  see();
  if (held && document.activeElement?.id !== held) (document.getElementById(held) ?? at("picture")).focus();
}

/**
 * Fits the view to a picture around another place than before; only then, so that nothing jumps at a step.
 * @param {import("./view.js").Box} box
 */
function takeRoom(box) {
  fit(now.around.shown === "none" ? groundBox(".node, .arc") ?? box : box);
  update("around", { shown: now.around.wanted });
}

/** Colours the parts, marks the selection, and arranges the labels again. */
export function mark() {
  const chosen = partOf(theChoice()), entries = shades();
  for (const part of parts()) {
    const is = part === chosen || part.matches(".arc") && isPicked(Number(part.id.slice("arc-".length)));
    part.classList.toggle("chosen", is);
    if (part.ariaPressed !== String(is)) part.ariaPressed = String(is);
    const it = part.matches(".arc") && now.marks.byNumber.get(Number(part.id.slice("arc-".length)));
    if (!it) continue;
    const shade = shadeOf(entries, it);
    part.style.setProperty("--shade", `var(--${shade.ink})`);
    part.style.setProperty("--thick", String(thickness(it)));
    part.classList.toggle("dashed", Boolean(shade.isDashed));
    part.classList.toggle("faded", isFaded(it));
  }
  renewOverview();
  label();
}

/** Returns the usual length of lines, in pixels. */
export const usualPixels = () => now.drawn.usual * scale();

/**
 * Arranges the labels before the next frame. If the view has moved to another part and stays there, that part gets its numbers.
 * @param {boolean} isGliding whether what is drawn glides along until the view rests
 */
function label(isGliding = false) {
  pending = isGliding ? pending : pending || requestAnimationFrame(() => {
    pending = 0;
    const { arrows, limits } = now.drawn, by = thicker(usualPixels());
    at("picture").style.setProperty("--thicker", String(by));
    at("picture").style.setProperty("--scale", String(scale()));
    sizeDots(usualPixels());
    pointArrows(arrows, scale(), by);
    hintBeyond(limits.map(([x, y]) => [(x - seenBox().x) * scale(), (y - seenBox().y) * scale()]), freePart(),
      at("picture").querySelector(".chosen")?.getBoundingClientRect());
    arrangeIn(null);
    paint();
  });
  clearTimeout(moving);
  moving = setTimeout(follow, STILL);
}

/**
 * Fits the view to all parts that match a selector, or says that none is drawn.
 * @param {string} like a selector
 * @param {string} what they are, in words
 */
function fitTo(like, what) {
  const whole = groundBox(like);
  const boxes = whole ? [whole] : parts().filter((part) => part.matches(like)).map((part) => part.getBBox());
  if (!boxes.length) {
    news(`${what} is not in this picture.`);
    return;
  }
  const [left, top] = [Math.min(...boxes.map((box) => box.x)), Math.min(...boxes.map((box) => box.y))];
  const right = Math.max(...boxes.map((box) => box.x + box.width)), bottom = Math.max(...boxes.map((box) => box.y + box.height));
  fit({ x: left, y: top, width: right - left, height: bottom - top });
}

export const fitAll = () => fitTo(".node, .arc", `The ${wording().whole}`);

/** @param {Element} part */
export function choosePart(part) {
  const [kind, digits] = part.id.split("-");
  return choose(kind === "arc" ? { arc: Number(digits) } : { node: Number(digits) });
}

/**
 * Returns what a click means: the label there, although the line of another part may lie over it, or else the uppermost element.
 * @param {MouseEvent} event
 */
function meant(event) {
  const wasMoving = settle(), there = document.elementsFromPoint(event.clientX, event.clientY);
  return there.find((it) => it.matches("#picture text")) ?? (wasMoving || !(event.target instanceof Element) ? there[0] : event.target);
}

export function beginPicture() {
  watch("view", ({ isGliding }) => label(isGliding));
  watch("form", reshape);
  beginView();
  at("picture").addEventListener("click", (event) => {
    const part = meant(event)?.closest("g.arc, g.node");
    if (part) choosePart(part);
    else chooseNear(event);
  });
  onClick("larger", () => zoom(LARGER));
  onClick("smaller", () => zoom(1 / LARGER));
  onClick("fit-all", fitAll);
  for (const id of ["fit-limit", "show-limit", "beyond"]) onClick(id, () => fitTo(".cut", "The bottleneck"));
  onClick("fit-chosen", () => (pickedCount() || theChoice() ? fitTo(".chosen", "What is chosen") : fitAll()));
  onClick("near-limit", () => {
    at("picture").focus();
    showNear("");
  });
}

/** Clears the selection, and moves the focus from its description to its part of the picture. */
export async function closeChoice() {
  const part = partOf(theChoice()), isBeside = at("chosen").contains(document.activeElement);
  await choose(null);
  if (isBeside) (part ?? at("picture")).focus();
}
