/**
 * The scenarios of a project, which the planner can open, begin, copy, rename, annotate and delete.
 * @typedef {import("./state.js").State} State
 * @typedef {{ name: string, from: string, note: string, steps: number, undone: number, value: string, by: string,
 *   left_out: string[] }} Scenario
 */
import { choose, theChoice } from "./choice.js";
import { offerScenarios } from "./compare.js";
import { at, button, field, make, offer, onClick, replace } from "./elements.js";
import { offerTab } from "./panel.js";
import { act, ask, wording } from "./state.js";

/** The network of the table, without a step. */
const BASE = "base";

/** @param {string} name */
export const goTo = (name) => act({ what: "scenario-go", name }, `scenario ${name}`);

/**
 * @param {State} state
 * @param {State | null} before
 */
export async function showScenarios(state, before) {
  // The number of an arc that was added in one scenario may be unused in another, or belong to another arc.
  if (before && before.scenario !== state.scenario && (theChoice()?.arc ?? 0) > state.given) choose(null);
  at("scenarios").hidden = !state.scenario;
  offerTab("tab-scenarios", Boolean(state.scenario));
  if (!state.scenario) return;
  /** @type {{ base: string, scenarios: Scenario[] } | null | undefined} */
  const told = await ask("scenarios");
  if (!told) return;
  const present = told.scenarios.find((it) => it.name === state.scenario);
  at("scenario-base").textContent = `The value of the table's ${wording().whole}, without a step, is ${told.base}. `
    + (present?.note ? `${state.scenario}: ${present.note}` : "");
  replace(at("scenario-list"), told.scenarios.map((it) => line(it, it === present, Boolean(state.why_not))));
  const names = told.scenarios.map((it) => it.name);
  offer("scenario-from", [[BASE, `the ${wording().whole} of the table`], ...names.map((name) => [name, `the steps of ${name}`])], BASE);
  for (const it of at("scenario-acts").querySelectorAll("button, input, select")) it.toggleAttribute("disabled", Boolean(state.why_not));
  offerScenarios([BASE, ...names], state);
}

/**
 * Returns a line of the list.
 * @param {Scenario} it
 * @param {boolean} isPresent
 * @param {boolean} isFixed whether nothing can be deleted
 */
function line(it, isPresent, isFixed) {
  const { by } = it, steps = `${it.steps} step${it.steps === 1 ? "" : "s"}`, from = it.from ? `, begun from ${it.from}` : "";
  const go = button(`${it.name}: ${it.value} (${by === "no change" ? "as base" : by})`, () => goTo(it.name));
  if (isPresent) go.setAttribute("aria-current", "true");
  const left = it.left_out.length ? `; left out when the table had changed: ${it.left_out.join("; ")}` : "";
  const about = make("span", `${steps}${from}${it.note ? `; ${it.note}` : ""}${left} `, { class: "soft" });
  const drop = button("Delete", () => {
    if (confirm(`Delete the scenario ${it.name}? The older versions of the file have it still.`)) {
      act({ what: "scenario-delete", name: it.name }, `${it.name} is deleted`);
    }
  }, "plain small");
  drop.setAttribute("aria-label", `Delete ${it.name}`);
  return make("li", [go, make("div", isPresent || isFixed ? about : [about, drop])]);
}

/**
 * Makes a button act on the name that is typed.
 * @param {string} id
 * @param {(name: string) => object} content
 * @param {string} words what was done to it
 */
function naming(id, content, words) {
  onClick(id, async () => {
    const name = field("scenario-name").value.trim();
    if (await act(content(name), `${name} ${words}`)) field("scenario-name").value = "";
  });
}

export function beginScenarios() {
  naming("scenario-new", (name) => ({ what: "scenario-new", name, from: field("scenario-from").value }), "is begun");
  naming("scenario-copy", (name) => ({ what: "scenario-copy", name }), "is a copy");
  naming("scenario-rename", (name) => ({ what: "scenario-name", name }), "is the name now");
  at("scenario-acts").addEventListener("submit", (event) => {
    event.preventDefault();
    at("scenario-new").click();
  });
  at("scenario-noting").addEventListener("submit", (event) => {
    event.preventDefault();
    act({ what: "scenario-note", text: field("scenario-text").value }, "noted");
  });
}
