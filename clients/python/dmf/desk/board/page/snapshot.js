/** The picture as it is shown, as a file in PNG that is twice as large. */
import { arrangeIn } from "./arranging.js";
import { at, make, onClick } from "./elements.js";
import { isGround } from "./ground.js";
import { paint, paintOn } from "./painting.js";
import { freePart } from "./room.js";
import { present } from "./state.js";
import { freeBox, scale } from "./view.js";
import { fileName } from "./words.js";

/** How many pixels of the file are one of the page. */
const LARGER = 2;
/** What the page's style sheet says about a part of the picture, which the file has to say itself. */
const LOOKS = ["fill", "stroke", "stroke-width", "stroke-dasharray", "opacity", "rx", "ry", "visibility", "display", "paint-order",
  "font-family", "font-size", "font-weight", "text-anchor", "text-decoration"];

/**
 * Returns a copy of the picture that looks the same without the page's style sheet.
 * @param {SVGSVGElement} shown
 */
function copyOf(shown) {
  const copy = /** @type {SVGSVGElement} */ (shown.cloneNode(true)), copies = copy.querySelectorAll("*");
  for (const [place, part] of shown.querySelectorAll("*").entries()) {
    const looks = getComputedStyle(part), it = copies[place];
    for (const name of LOOKS) it.setAttribute(name, looks.getPropertyValue(name));
    it.removeAttribute("style");
    // On the page, lines are as thick as their pixels say, at any scale.
    if (looks.getPropertyValue("vector-effect") === "non-scaling-stroke") {
      for (const name of ["stroke-width", "stroke-dasharray"]) {
        it.setAttribute(name, looks.getPropertyValue(name).replace(/[\d.]+/g, (pixels) => String(Number(pixels) / scale())));
      }
    }
    const isSized = part instanceof SVGGraphicsElement && part.matches("polygon, .rim, .share");
    if (!isSized || !(part.parentElement instanceof SVGGElement)) continue;
    // Arrows, and what is drawn in dots, are sized by the style sheet.
    const by = part.parentElement.getScreenCTM()?.inverse().multiply(/** @type {DOMMatrix} */ (part.getScreenCTM()));
    if (by) it.setAttribute("transform", `matrix(${[by.a, by.b, by.c, by.d, by.e, by.f].join(" ")})`);
  }
  return copy;
}

/**
 * Draws a copy of the picture in front of all arcs.
 * @param {CanvasRenderingContext2D} pen
 * @param {SVGSVGElement} copy
 * @param {import("./view.js").Box} box the part of the picture
 * @param {number} wide the size in pixels of the page
 * @param {number} high
 */
async function drawOn(pen, copy, box, wide, high) {
  const image = new Image();
  for (const [name, value] of [["viewBox", `${box.x} ${box.y} ${box.width} ${box.height}`], ["width", wide], ["height", high]]) {
    copy.setAttribute(String(name), String(value));
  }
  const file = new Blob([new XMLSerializer().serializeToString(copy)], { type: "image/svg+xml" });
  image.src = URL.createObjectURL(file);
  await image.decode();
  pen.resetTransform();
  pen.drawImage(image, 0, 0, LARGER * wide, LARGER * high);
  URL.revokeObjectURL(image.src);
}

/** Draws the part of the picture that nothing covers, with whole names, and hands it to the browser as a download. */
async function take() {
  // Up to what covers the picture, since a place may lie at the edge of the part that it is fitted to.
  const part = freePart(0), box = freeBox(part);
  const [wide, high] = [part.right - part.left, part.bottom - part.top].map(Math.round);
  const canvas = make("canvas", [], { width: String(LARGER * wide), height: String(LARGER * high) });
  const pen = /** @type {CanvasRenderingContext2D} */ (canvas.getContext("2d")), shown = at("picture").querySelector("svg");
  pen.fillStyle = getComputedStyle(at("picture")).backgroundColor;
  pen.fillRect(0, 0, canvas.width, canvas.height);
  arrangeIn(part);
  if (isGround()) paintOn(pen, box, LARGER);
  const copy = shown && copyOf(shown);
  arrangeIn(null);
  paint();
  if (copy) await drawOn(pen, copy, box, wide, high);
  canvas.toBlob((file) => {
    if (!file) return;
    const link = make("a", [], { download: `${fileName(present().title).replace(/\.[^.]*$/, "")}.png`, href: URL.createObjectURL(file) });
    link.click();
    setTimeout(() => URL.revokeObjectURL(link.href), 1000);
  }, "image/png");
}

export const beginSnapshot = () => onClick("take-png", take);
