/** The selection when all places are laid out anew: a view that was moved keeps it where it is seen. */
import { theChoice } from "./choice.js";
import { partOf } from "./drawing.js";
import { groundBox } from "./ground.js";
import { freeBox, isFitted, move, scale, zoom } from "./view.js";

/** Returns the middle of the selection in the picture, if it is drawn. */
function middleOfChoice() {
  const part = /** @type {SVGGraphicsElement | null | undefined} */ (partOf(theChoice())?.querySelector("ellipse.inner, path:not(.wide)"));
  const box = part?.getBBox() ?? groundBox(".chosen");
  return box && { x: box.x + box.width / 2, y: box.y + box.height / 2 };
}

/** Returns a function that shows the selection, if it is seen now in a view that was moved, where it is now. */
export function holdChoice() {
  const middle = isFitted() ? null : middleOfChoice(), { x, y, width, height } = freeBox(), by = scale();
  if (!middle) return () => undefined;
  const [right, down] = [(middle.x - x) / width, (middle.y - y) / height], isSeen = Math.min(right, down) > 0 && Math.max(right, down) < 1;
  return () => {
    const now = isSeen && middleOfChoice();
    if (!now) return;
    zoom(by / scale());
    const free = freeBox();
    move((now.x - free.x - right * width) * scale(), (now.y - free.y - down * height) * scale());
  };
}
