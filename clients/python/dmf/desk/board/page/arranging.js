/**
 * The arrangement of the picture's labels in the window.
 * @typedef {import("./ink.js").Edges} Edges
 */
import { strokesOf } from "./arrows.js";
import { thicker } from "./colourings.js";
import { isFar } from "./ground.js";
import { Ink } from "./ink.js";
import { arrange } from "./labels.js";
import { strokesSeen } from "./painting.js";
import { covers } from "./room.js";
import { now } from "./store.js";
import { scale, seenBox } from "./view.js";

/**
 * Arranges the labels around what is drawn, so that none is cut in a part of the window.
 * @param {import("./room.js").Room | null} room in pixels from the window's corner, or null for the window beside what covers it
 */
export function arrangeIn(room) {
  const { labels, arrows, usual } = now.drawn, by = thicker(usual * scale());
  const { x, y, width, height } = seenBox(), [across, down] = [x * scale(), y * scale()];
  const inPicture = (/** @type {Edges} */ box) =>
    ({ left: box.left + across, right: box.right + across, top: box.top + down, bottom: box.bottom + down });
  const view = inPicture(room ?? { left: 0, right: width * scale(), top: 0, bottom: height * scale() });
  const ink = new Ink([...strokesOf(arrows, by), ...strokesSeen()], scale(), view);
  // From far away the places of the picture in front are not seen.
  const seen = labels.filter(({ part }) => !isFar() || part.matches(".chosen"));
  arrange(seen, scale(), { ink, view, covers: room ? [] : covers().map(inPicture), thicker: by });
}
