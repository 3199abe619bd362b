/** What a game's state is called. */

import { offerInWords } from "./offers.js";
import { hasText, t } from "../shell/texts.js";

const WHO = /^([A-Za-z]{3,17}) (checkmated|resigns|forfeits .*)$/;

/** Why a game ended, as the server says it.
 * @param {string} reason */
export function reasonInWords(reason) {
  const [, who, what] = WHO.exec(reason) ?? ["", "", reason];
  return hasText(`end.${what}`) ? t(`end.${what}`, { who }) : reason;
}

/** Words as a sentence begins.
 * @param {string} words */
export function capital(words) {
  return words.slice(0, 1).toUpperCase() + words.slice(1);
}

/** Who won and, where that is known, why, as "Ben resigns: White wins, 1-0".
 * @param {{ end: End | null }} game */
export function endInWords({ end }) {
  const { reason = "", result = "*" } = end ?? {};
  const words = t(`result.${result}`);
  return capital(reason ? t("game.ended", { reason: reasonInWords(reason), result: words }) : words);
}

/** @param {Game} game @param {string} me */
function turnInWords(game, me) {
  const name = game.nameOf(game.toMove);
  return name === me ? t("game.your-move") : t("game.to-move", { name });
}

/** Which game it is.
 * @param {Game} game */
export function headOf({ number, white, black, terms }) {
  return `${t("game.head", { number, white, black, terms: terms.inWords() })}.`;
}

/** How it stands.
 * @param {Game} game @param {string} me */
export function statusOf(game, me) {
  const state = game.isOver ? endInWords(game) : capital(turnInWords(game, me));
  const looking = game.looking === null ? "" : ` ${t("game.earlier")}`;
  return `${state}.${looking}`;
}

/** A game among several.
 * @param {Game} game @param {string} me */
export function choiceOf(game, me) {
  const players = game.role === "mine" ? game.otherThan(me) : `${game.white} – ${game.black}`;
  const offer = game.offers.firstFor(me);
  const state = game.isOver ? t("game.over") : game.place ? turnInWords(game, me) : "";
  const offered = game.role === "mine" && offer ? `, ${t("game.offers", { what: offerInWords(offer) })}` : "";
  return `${game.number} ${players}: ${state}${offered}`;
}
