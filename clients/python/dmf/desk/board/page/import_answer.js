/**
 * The headline: the answer, or the question that is open, or what cannot be read.
 * @typedef {import("./import_state.js").View} View
 * @typedef {import("./import_state.js").Question} Question
 */
import { at, button, form, make, onClick, replace } from "./elements.js";
import { placed, remedies } from "./import_faults.js";
import { change, now, open, present, readAgain } from "./import_state.js";
import { grouped, sentence } from "./words.js";

/** What is asked and offered now, as text. */
let asked = "";

/** @param {View} view */
export function showAnswer(view) {
  const { file, answer, question } = view;
  document.body.dataset.said = !file ? "nothing" : question ? "question" : answer ? "answer" : "faults";
  at("answer-row").hidden = !file;
  at("open").toggleAttribute("disabled", !answer);
  replace(at("said"), [make("p", headline(view), { id: "value" })]);
  showQuestion(view);
}

/**
 * Returns the headline, in which the number of the answer stands out.
 * @param {View} view
 * @returns {(string | Node)[]}
 */
function headline(view) {
  const { answer, question, faults } = view;
  if (question) return [sentence(question.text)];
  if (answer) {
    const [number] = /^[0-9][0-9.,\u202f\u00a0]*/.exec(answer.said) ?? [""];
    const rows = `, by ${grouped(answer.rows)} row${answer.rows === 1 ? "" : "s"}.`;
    return [...(number ? [make("strong", number)] : []), answer.said.slice(number.length), make("span", rows, { class: "soft" })];
  }
  const count = faults.length + view.more_faults;
  if (!count) return ["Nothing can be said yet."];
  return [count === 1 ? sentence(placed(faults[0], view)) : `${grouped(count)} things cannot be read.`];
}

/**
 * Shows the choices that answer the question, or the settings that settle what cannot be read.
 * @param {View} view
 */
function showQuestion(view) {
  const { question, settings, is_stopped: isStopped } = view, offered = question ? [] : remedies(view);
  const all = JSON.stringify([question, offered, isStopped]), again = isStopped ? [button("Read it again", readAgain, "plain choice")] : [];
  at("question").hidden = !question && !offered.length && !isStopped;
  if (all === asked) return;
  asked = all;
  const choices = (question?.choices ?? []).map(([word, what]) => choice(question?.option ?? "", word, what));
  at("choices").replaceChildren(...choices, ...again, ...offered.flatMap(remedy));
  const setting = settings.find((it) => it.option === question?.option);
  const isTyped = question && (!question.choices.length || setting && !setting.choices?.length);
  at("typed").replaceChildren(...(isTyped ? [typed(question, setting?.label ?? question.option)] : []));
}

/**
 * @param {string} option
 * @param {string} title
 * @param {string} what
 * @param {string} word the answer
 */
function choice(option, title, what, word = title) {
  const made = button("", () => settle(option, word), "plain choice");
  made.append(make("b", title), ...(what ? [` ${what}`] : []));
  return made;
}

/**
 * Returns a button for each choice of a setting but the usual one, or one that leads to its field.
 * @param {import("./import_state.js").Setting} setting
 */
function remedy({ option, label, choices }) {
  if (!choices?.length) return [button(label, () => at(`setting-${option}`).focus(), "plain choice")];
  return choices.filter(([word]) => word).map(([word, what]) => choice(option, label, what, word));
}

/**
 * @param {Question} question
 * @param {string} label
 */
function typed({ option, choices }, label) {
  const entry = make("input", [], { id: "typed-answer", autocomplete: "off" });
  const words = choices.length ? "Or another answer" : label;
  return form([make("label", [`${words} `, entry])], "Answer", () => entry.value.trim() && settle(option, entry.value.trim()));
}

/**
 * Answers the question. The focus goes to the headline, so that a second Enter does not answer the next one.
 * @param {string} option
 * @param {string} word
 */
function settle(option, word) {
  const before = now.options[option];
  at("said").focus();
  return change({ [option]: Array.isArray(before) ? [word] : typeof before === "boolean" ? word !== "" : word });
}

export function beginAnswer() {
  onClick("open", () => present().answer && open());
  addEventListener("pageshow", (event) => {
    // A page that the browser kept shows an import that may have ended.
    if (event.persisted) location.reload();
  });
}
