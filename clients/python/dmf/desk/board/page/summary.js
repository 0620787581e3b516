/**
 * The headline: what can be sent, what is short, the bottleneck, and what the last steps changed. It has at most three lines, or five if
 * it is narrow; names that have no room there are left out, but not for screen readers, and stand in the panel.
 * @typedef {import("./state.js").State} State
 */
import { pickPlace } from "./choice.js";
import { at, fill, make, numberCell, onClick, replaceAlike } from "./elements.js";
import { heedRoom, showFitting } from "./fitting.js";
import { act, caption, noun, present, units } from "./state.js";
import { fileName, grouped, listed, upper } from "./words.js";

/** The most names of places that are short in the headline. */
const MOST_SHORT = 3;

/** @param {State} state */
function showValue(state) {
  at("since").hidden = !state.at;
  const [by, rest] = state.by === "no change" ? ["as much", " as at the beginning"] : [state.by, " than at the beginning"];
  at("since").replaceChildren(by, make("span", rest, { class: "rest" }));
  at("since").dataset.by = state.by.split(" ").pop();
  const asked = state.asked && ` of ${state.asked}`;
  showFitting(at("value"), state.words.tasks.map((task) => `${asked}${units()} ${task}, and not more.`), state.value);
}

/** @param {State} state */
function showShort(state) {
  const names = state.short.slice(0, MOST_SHORT).map((it) => `${it.name} ${it.missing}`), count = state.short_count;
  const [place, , gets] = state.words.demand_titles, all = `${grouped(count)} ${place}${count === 1 ? "" : "s"}`;
  const texts = [...names.map((_, left) => listed(names.slice(0, names.length - left), count)), all];
  at("demands").hidden = !state.demands;
  showFitting(at("demands"), names.length ? texts.map((text) => `Short: ${text}`) : [state.words.met]);
  at("short").hidden = !names.length;
  at("short-head").textContent = state.words.short;
  fill("short-table", caption(), [upper(place), gets, "short"], state.short.map((it) => [
    pickPlace(it), numberCell(`${it.flow} of ${it.limit}`), numberCell(it.missing)]));
}

/** @param {State} state */
export function showSummary(state) {
  const named = state.scenario ? `, ${state.scenario}` : "";
  document.title = `${state.value} ${fileName(state.title)}${named}`;
  at("title").title = state.title;
  at("title").textContent = `${fileName(state.title)}${named}`;
  at("show-limit").hidden = !state.limit_count;
  // The bottleneck may also contain what a place gives, takes or lets through.
  const word = state.limit.some((arc) => arc.node) ? "part" : noun();
  at("show-limit").textContent = `Bottleneck: ${grouped(state.limit_count)} ${word}${state.limit_count === 1 ? "" : "s"}`;
  showValue(state);
  showShort(state);
  const words = new Map(Object.entries(state.words));
  for (const it of document.querySelectorAll("[data-word]")) it.textContent = String(words.get(it.getAttribute("data-word") ?? ""));
  at("picture").ariaLabel = `Picture of the ${state.words.whole}`;
  at("notes").hidden = !state.notes.length;
  at("notes").lastElementChild?.replaceChildren(...state.notes.map((note) => make("li", note)));
  replaceAlike(at("places"), state.names.map((name) => make("option", [], { value: name })));
  at("kept").textContent = state.why_not ? `Nothing is kept, since ${state.why_not}: what is done here changes nothing.` : state.kept_in
    ? `Each step is kept in ${state.kept_in}.` : "Nothing is saved of itself: the steps end with this page.";
  at("keep").hidden = !state.offer;
  at("keep").textContent = `Keep them, and go on another day: ${state.offer}`;
  at("take-pdf").hidden = !state.can_print;
  at("report-told").hidden = state.can_print;
  for (const [id, file] of [["take-csv", "plan.csv"], ["take-max", "problem.max"], ["take-report", "report.html"],
    ["take-pdf", "report.pdf"]]) {
    at(id).setAttribute("href", `${file}?turn=${state.turn}`);
  }
}

export function beginSummary() {
  heedRoom();
  onClick("keep", () => act({ what: "keep" }, `the steps are kept in ${present().offer}`));
}
