/**
 * The gestures of the pointer, of fingers and of the wheel: they move and scale the view, or move what they begin on.
 * @typedef {{ move: (right: number, down: number) => unknown, put: () => unknown, drop: () => unknown }} Held something that is dragged
 *   instead of the view, in pixels from where it was
 */
import { at } from "./elements.js";
import { move, zoom } from "./view.js";

/** The least length of a drag, in pixels. */
const DRAG = 4;
/**
 * Where the pressed pointers are, and whether one was dragged; what is dragged instead of the view, and where it was grabbed.
 * @type {{ pointers: Map<number, { x: number, y: number }>, isDragged: boolean, held: Held | null, grabbed: { x: number, y: number } }}
 */
const gesture = { pointers: new Map(), isDragged: false, held: null, grabbed: { x: 0, y: 0 } };

/** Puts what is dragged back where it was. Returns false if nothing is dragged. */
export function dropHeld() {
  const dropped = gesture.isDragged ? gesture.held : null;
  gesture.held = null;
  dropped?.drop();
  return dropped !== null;
}

/**
 * @param {PointerEvent} event
 * @param {(event: PointerEvent) => Held | null} grab
 */
function pressed(event, grab) {
  if (!gesture.pointers.size) gesture.isDragged = false;
  if (event.button !== 0) return;
  // Two fingers scale the view.
  dropHeld();
  gesture.held = gesture.pointers.size ? null : grab(event);
  gesture.grabbed = { x: event.x, y: event.y };
  gesture.pointers.set(event.pointerId, gesture.grabbed);
}

/** @param {PointerEvent} event */
function released(event) {
  gesture.pointers.delete(event.pointerId);
  const { held } = gesture;
  gesture.held = null;
  if (gesture.isDragged) held?.put();
}

/** @param {PointerEvent} event */
function dragged(event) {
  const { pointers, held, grabbed } = gesture, before = pointers.get(event.pointerId);
  if (!before || !gesture.isDragged && Math.hypot(event.x - before.x, event.y - before.y) < DRAG) return;
  gesture.isDragged = true;
  if (!at("picture").hasPointerCapture(event.pointerId)) at("picture").setPointerCapture(event.pointerId);
  const other = [...pointers].find(([id]) => id !== event.pointerId)?.[1];
  const apart = (/** @type {{ x: number, y: number }} */ one) => other ? Math.max(1, Math.hypot(one.x - other.x, one.y - other.y)) : 1;
  if (other) zoom(apart(event) / apart(before), other, true);
  else if (held) held.move(event.x - grabbed.x, event.y - grabbed.y);
  else move(before.x - event.x, before.y - event.y, true);
  pointers.set(event.pointerId, { x: event.x, y: event.y });
}

/** @param {(event: PointerEvent) => Held | null} grab returns what a drag that begins there moves, or null if that is the view */
export function beginGestures(grab) {
  const host = at("picture");
  host.addEventListener("pointerdown", (event) => pressed(event, grab));
  host.addEventListener("pointermove", dragged);
  addEventListener("pointerup", released);
  addEventListener("pointercancel", (event) => {
    dropHeld();
    gesture.pointers.delete(event.pointerId);
  });
  host.addEventListener("click", (event) => gesture.isDragged && event.stopImmediatePropagation(), true);
  host.addEventListener("wheel", (event) => {
    event.preventDefault();
    zoom(Math.exp(-event.deltaY * (event.deltaMode ? 0.05 : 0.002)), event, true);
  }, { passive: false });
}
