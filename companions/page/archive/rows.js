/** The rows of the archive's lists. All that comes from the archive goes in as text, and never as HTML. */

import { element } from "../shell/elements.js";
import { Terms } from "../game/terms.js";
import { language, t } from "../shell/texts.js";
import { gameAddress, playerAddress, TOP } from "./addresses.js";
import { controlOf } from "./pgn_read.js";

/** @type {Record<string, string>} */
const RESULTS = { "1-0": "1–0", "0-1": "0–1", "1/2-1/2": "½–½", "*": "*" };

/** A day as people write it.
 * @param {string} day */
export function dayInWords(day) {
  const date = new Date(`${day}T00:00:00Z`);
  return Number.isNaN(date.getTime()) ? day
    : date.toLocaleDateString(language(), { dateStyle: "medium", timeZone: "UTC" });
}

/** A result as it is read.
 * @param {string} result */
export function resultOf(result) {
  return RESULTS[result] ?? result;
}

/** A time control of a tag, as 5+3.
 * @param {string | undefined} text */
export function controlInWords(text) {
  const control = controlOf(text);
  const minutes = control && control.start >= 60 ? Math.round(control.start / 6) / 10 : 0;
  return new Terms(minutes, control?.increment ?? 0, "chess").shortTime();
}

/** @param {string} variant */
export function variantInWords(variant) {
  return t(`variant.${variant}`);
}

/** @param {string} address @param {string} text */
export function link(address, text, className = "") {
  const made = element("a", className, text);
  made.href = address;
  return made;
}

/** A game: who played, how it ended, and below that what it was.
 * @param {ArchiveRow} game @param {boolean} hasDay */
export function gameRow(game, hasDay) {
  const row = element("li");
  const whole = link(gameAddress(game.link), "");
  const when = [hasDay ? dayInWords(game.link.split("/")[0]) : "", game.time].filter(Boolean).join(", ");
  const moves = Math.ceil(game.halfMoves / 2);
  const facts = [controlInWords(game.control), variantInWords(game.variant),
    t(moves === 1 ? "archive.move" : "archive.moves", { n: moves }), when];
  const who = element("span", "who");
  who.append(element("span", "white", game.white), " – ", element("span", "black", game.black));
  who.dataset.won = { "1-0": "white", "0-1": "black" }[game.result] ?? "";
  whole.append(who, " ", element("span", "result", resultOf(game.result)), " ",
    element("span", "facts", facts.filter(Boolean).join(" · ")));
  row.append(whole);
  return row;
}

/** A day or a player, with the number of its games.
 * @param {string} address @param {string} text @param {number} count */
export function tagRow(address, text, count) {
  const row = element("li");
  const whole = link(address, text);
  whole.append(" ", element("span", "count", String(count)));
  row.append(whole);
  return row;
}

/** @param {Counted} row */
export function dayRow([day, count]) {
  return tagRow(TOP + day, dayInWords(day), count);
}

/** @param {Counted} row */
export function playerRow([name, count]) {
  return tagRow(playerAddress(name), name, count);
}

/** What came of a player's games of a variant: all, won, lost, drawn, without a result.
 * @param {string} name @param {string} variant @param {number[]} tally */
export function tallyRow(name, variant, [won, lost, drawn, open]) {
  const row = element("tr");
  const head = element("th");
  head.scope = "row";
  head.append(variant ? link(playerAddress(name, variant), variantInWords(variant)) : t("archive.all"));
  row.append(head, ...[won + lost + drawn + open, won, lost, drawn, open].map((it) => element("td", "", String(it))));
  return row;
}

/** A player's name that leads to its games.
 * @param {string} name */
export function playerLink(name) {
  return link(playerAddress(name), name);
}
