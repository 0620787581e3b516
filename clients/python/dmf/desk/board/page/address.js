/**
 * The page's address names what it shows: the scenario, what is selected, and the two scenarios that are compared. So Back, a reload and
 * a bookmark show it again while the board runs.
 * @typedef {import("./state.js").State} State
 */
import { Requests } from "./asking.js";
import { choose, theChoice } from "./choice.js";
import { closeComparison, compare, theComparison } from "./compare.js";
import { goTo } from "./scenarios.js";
import { ask, present } from "./state.js";

const requests = new Requests();
let isBegun = false, isRestoring = false;

/**
 * Returns the part of the address after its #. An arc that was added also has its name there, since another arc may get its number.
 * @returns {Promise<string>}
 */
async function words() {
  const found = new URLSearchParams(), choice = theChoice(), two = theComparison();
  if (present().scenario) found.set("scenario", present().scenario);
  if (choice?.node) found.set("place", String(choice.node));
  if (choice?.arc) found.set("arc", String(choice.arc));
  if (two) {
    found.set("one", two[0]);
    found.set("two", two[1]);
  }
  const arc = choice?.arc && choice.arc > present().given ? await ask(`arc?number=${choice.arc}`, undefined, true) : null;
  if (arc) found.set("name", arc.label);
  return `#${found}`;
}

/** Makes the address name what is shown now. */
export async function nameShown() {
  const isLatest = requests.begin();
  if (!isBegun || isRestoring) return;
  const now = await words();
  if (!isLatest() || now === (location.hash || "#")) return;
  history.pushState(null, "", now);
}

/** Shows what the address names, as far as it exists. */
async function restore() {
  const wanted = new URLSearchParams(location.hash.slice(1));
  const scenario = wanted.get("scenario"), arc = Number(wanted.get("arc")), node = Number(wanted.get("place"));
  isRestoring = true;
  try {
    if (scenario && scenario !== present().scenario && present().scenario) await goTo(scenario);
    const found = arc > present().given ? await ask(`arc?number=${arc}`, undefined, true) : null;
    const isSame = arc <= present().given || found?.label === wanted.get("name");
    await choose(arc && isSame ? { arc } : node ? { node } : null);
    const [one, two] = [wanted.get("one"), wanted.get("two")], shown = theComparison();
    if (one && two && present().scenario) {
      if (one !== shown?.[0] || two !== shown[1]) await compare(one, two);
    } else if (shown) {
      closeComparison();
    }
  } finally {
    isRestoring = false;
  }
  // The address does not name what no longer exists.
  history.replaceState(null, "", await words());
}

/** Shows what the address names, and from then on makes it name what is shown. */
export async function beginAddress() {
  addEventListener("popstate", restore);
  if (location.hash) await restore();
  isBegun = true;
  history.replaceState(null, "", await words());
}
