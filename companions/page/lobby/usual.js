/** The grid of usual terms: a click seeks a game with them, another one takes the seek back; the last cell leads to the
 * member's own terms. */

import { byId, element } from "../shell/elements.js";
import { Terms } from "../game/terms.js";
import { t } from "../shell/texts.js";

const USUAL = [[1, 0], [2, 1], [3, 2], [5, 0], [5, 3], [10, 0], [15, 10]]
  .map(([minutes, increment]) => new Terms(minutes, increment, "chess"));

/** @param {string} id @param {string} head @param {string} foot */
function cellOf(id, head, foot) {
  const cell = element("button", "cell");
  cell.id = id;
  cell.append(element("span", "time", head), element("span", "speed", foot));
  return cell;
}

/** Shows the grid, with the seeks that are the member's own.
 * @param {Happened<'sought'>[]} seeks */
export function showUsual(seeks) {
  const root = byId("usual");
  if (!root.children.length) {
    const own = cellOf("own-terms", "", "");
    own.dataset.challenge = "";
    root.append(...USUAL.map((it) => cellOf(`usual-${it.minutes}-${it.increment}`, it.shortTime(), "")), own);
  }
  const own = byId("own-terms");
  own.children[0].textContent = t("usual.own");
  own.children[1].textContent = t("usual.own-hint");
  for (const terms of USUAL) {
    const seek = seeks.find((it) => String(it.terms) === String(terms));
    const cell = byId(`usual-${terms.minutes}-${terms.increment}`);
    cell.dataset.command = seek ? `unseek ${seek.n}` : `seek ${terms}`;
    cell.setAttribute("aria-pressed", String(Boolean(seek)));
    cell.children[1].textContent = t(seek ? "usual.waits" : `speed.${terms.speed}`);
  }
}
