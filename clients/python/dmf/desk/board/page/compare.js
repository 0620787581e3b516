/**
 * The comparison of two scenarios: their values, their bottlenecks, and each arc that differs, in a table and in a picture.
 * @typedef {import("./state.js").State} State
 * @typedef {{ name: string, value: string, limit: string[], limit_count: number }} Standing
 * @typedef {{ arc: string, number: number, node: number, kind: string, first: string, second: string }} Row
 * @typedef {{ turn: number, first: Standing, second: Standing, moved: string, same_limit: boolean, total: number, rows: Row[] }} Comparison
 */
import { Requests } from "./asking.js";
import { choose, pick } from "./choice.js";
import { showDifference } from "./difference.js";
import { at, cell, field, fill, make, offer, onClick, replace, withArrows } from "./elements.js";
import { patiently } from "./messages.js";
import { lower } from "./panel.js";
import { ask, noun, units, wording } from "./state.js";
import { now, put, watch } from "./store.js";
import { grouped, listed, sentence, upper } from "./words.js";

const AT_ONCE = 300;
/** What the colours of the picture mean, as in its legend. */
const KINDS = new Map([["more", "more"], ["come", "only in the second"], ["less", "less"], ["gone", "not in the second"],
  ["else", "other capacity or bottleneck"]]);
const requests = new Requests();

/** The names of the two scenarios that are being compared, or null. */
export const theComparison = () => now.comparison && [now.comparison.first.name, now.comparison.second.name];

/**
 * Fills the two lists of scenarios. Until others are chosen, the network of the table is compared with the present scenario.
 * @param {string[]} names
 * @param {State} state
 */
export function offerScenarios(names, state) {
  const pairs = names.map((name) => [name, name]);
  offer("compare-one", pairs, names[0]);
  offer("compare-two", pairs, state.scenario);
  if (now.comparison && now.comparison.turn !== state.turn) outdated();
}

function outdated() {
  at("compare-old").hidden = false;
}

/**
 * Shows the comparison of two scenarios.
 * @param {string} one
 * @param {string} two
 */
export async function compare(one, two) {
  const isLatest = requests.begin();
  field("compare-one").value = one;
  field("compare-two").value = two;
  const words = `one=${encodeURIComponent(one)}&two=${encodeURIComponent(two)}`;
  /** @type {Comparison | null | undefined} */
  const told = await patiently(ask(`comparison?${words}&first=0&count=${AT_ONCE}`));
  if (!told || !isLatest()) return;
  put("comparison", told);
  put("differing", told.rows);
  const picture = await patiently(ask(`difference?${words}`));
  if (picture && isLatest()) draw(picture);
}

/** Closes the comparison. */
export function closeComparison() {
  requests.begin();
  at("compared-shown").hidden = true;
  put("comparison", null);
}

/** @param {Standing} it */
function limitOf(it) {
  return it.limit_count ? listed(it.limit, it.limit_count, "; ") : "nothing";
}

/**
 * Returns how many parts of the network differ; besides arcs, what a place gives, takes or lets through.
 * @param {number} count
 */
const counted = (count) => `${grouped(count)} ${now.differing.some((row) => row.node) ? "part" : noun()}${count === 1 ? "" : "s"}`;

/** @param {Row[]} rows */
function showTable(rows) {
  const told = /** @type {Comparison} */ (now.comparison), { first, second, total } = told;
  at("compared-shown").hidden = false;
  at("compare-old").hidden = true;
  const words = `one=${encodeURIComponent(first.name)}&two=${encodeURIComponent(second.name)}&turn=${told.turn}`;
  at("take-difference").setAttribute("href", `difference.svg?${words}`);
  at("compare-values").replaceChildren(`${first.name}: `, make("strong", first.value), `${units()}. ${second.name}: `,
    make("strong", second.value), `${units()}: ${told.moved}.`);
  const limits = told.same_limit ? [`The bottleneck is the same: ${limitOf(first)}.`]
    : [first, second].map((it) => `The bottleneck of ${it.name}: ${limitOf(it)}.`);
  replace(at("compare-limits"), limits.map((text) => make("p", withArrows(text))));
  const some = rows.length < total ? `, of which the first ${rows.length} are listed` : "";
  at("compare-count").textContent = total ? `${counted(total)} differ${total === 1 ? "s" : ""}${some}.` : `No ${noun()} differs.`;
  at("compare-more").hidden = rows.length >= total;
  at("compare-scroll").hidden = !total;
  const heads = [upper(noun()), first.name, second.name, "in the picture"];
  fill("compare-table", `${wording().compared}${units() && ","}${units()}`, heads, rows.map((row) => [
    row.number ? pick(row, row.arc) : cell(row.arc), cell(row.first), cell(row.second),
    make("td", KINDS.get(row.kind) ?? "", { class: row.kind })]), true);
}

/** Lists more arcs that differ. */
async function more() {
  const told = now.comparison, isLatest = requests.sinceNow();
  if (!told) return;
  const words = `one=${encodeURIComponent(told.first.name)}&two=${encodeURIComponent(told.second.name)}`;
  const next = await patiently(ask(`comparison?${words}&first=${now.differing.length}&count=${AT_ONCE}`));
  if (!next || !isLatest()) return;
  if (next.turn !== told.turn) {
    outdated();
    return;
  }
  put("differing", now.differing.concat(next.rows));
}

/** @param {{ svg: string, reason: string }} told */
function draw({ svg, reason }) {
  at("compare-reason").textContent = reason && sentence(reason);
  showDifference(svg, `${at("compare-values").textContent} ${at("compare-count").textContent} The table below has the same.`);
}

export function beginComparing() {
  watch("differing", showTable);
  at("comparing").addEventListener("submit", async (event) => {
    event.preventDefault();
    await compare(field("compare-one").value, field("compare-two").value);
    if (!now.comparison) return;
    lower();
    at("compared-head").focus();
  });
  onClick("compare-more", more);
  onClick("compare-again", () => {
    const two = theComparison();
    if (two) compare(two[0], two[1]);
  });
  onClick("compare-close", () => {
    closeComparison();
    at("compare-one").focus();
  });
  at("compare-picture").addEventListener("click", (event) => {
    const part = event.target instanceof Element && event.target.closest("g[data-arc]");
    if (part) choose({ arc: Number(part.getAttribute("data-arc")) });
  });
}
