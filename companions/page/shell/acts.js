/** Buttons that name what they send: `data-command` is a line of the server, `data-at` the game it is for,
 * `data-fill` a field and what is put into it. */

import { byId, onClickAt } from "./elements.js";

/** @param {string} words */
function fill(words) {
  const [id, ...values] = words.split(":");
  const field = /** @type {HTMLInputElement} */ (byId(id));
  field.value = values.join(":");
  field.dispatchEvent(new Event("change", { bubbles: true }));
  return field;
}

/** `atGame(number, line)` sends a line that is for a game; 0 is the one that is shown.
 * @param {Session} session @param {(number: number, line: string) => void} atGame */
export function listenForActs(session, atGame) {
  onClickAt(document, "[data-command], [data-fill]", (button) => {
    const { command = "", at, fill: filled } = button.dataset;
    if (filled) {
      filled.split(";").map(fill)[0].focus();
    } else if (at === undefined) {
      session.act(command);
    } else {
      atGame(at === "shown" ? 0 : Number(at), command);
    }
  });
}
