/** The controls of the page, which are disabled while the board cannot be reached. */

/** Disables all controls, and returns them. */
export function shutControls() {
  const shut = [...document.querySelectorAll("button:enabled, select:enabled, input:enabled")].map((it) => /** @type {HTMLElement} */ (it));
  for (const it of shut) put(it, true);
  return shut;
}

/** @param {HTMLElement[]} shut the controls that are enabled again */
export function openControls(shut) {
  for (const it of shut) put(it, false);
}

/**
 * Disables a control, or enables it. What was typed into it can still be read and copied.
 * @param {HTMLElement} it
 * @param {boolean} isOff
 */
function put(it, isOff) {
  if (it instanceof HTMLInputElement && it.type !== "file" && it.type !== "checkbox") it.readOnly = isOff;
  else it.toggleAttribute("disabled", isOff);
}
