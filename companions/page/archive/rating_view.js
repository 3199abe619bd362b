/** Ratings on the pages of the archive: of a player, as a ladder, and whether a game is rated. */

import { byId, element } from "../shell/elements.js";
import { t } from "../shell/texts.js";
import { ladderAddress } from "./addresses.js";
import { curveOf } from "./curve.js";
import { link, playerLink, tagRow } from "./rows.js";

/** A rating as it is written: with a question mark where it says little.
 * @param {RatingTold} it */
export function pointsOf({ points, isProvisional }) {
  return `${points}${isProvisional ? "?" : ""}`;
}

/** @param {Node | string} head @param {(string | number)[]} cells */
function tableRow(head, cells) {
  const row = element("tr");
  const first = element("th");
  first.scope = "row";
  first.append(head);
  row.append(first, ...cells.map((it) => element("td", "", String(it))));
  return row;
}

/** @param {RatingTold} it */
function figures(it) {
  return [pointsOf(it), `±${it.deviation}`, it.games];
}

/** Shows what a player is in each pool, and how that came.
 * @param {(RatingTold & { curve: CurvePoint[] })[]} ratings */
export function showRatings(ratings) {
  byId("ratings").hidden = !ratings.length;
  byId("ratings-rows").replaceChildren(...ratings.map((it) =>
    tableRow(link(ladderAddress(it.pool), t(`pool.${it.pool}`)), figures(it))));
  byId("curves").replaceChildren(...ratings.filter((it) => it.curve.length > 1).map((it) => {
    const part = element("figure");
    part.append(element("figcaption", "", t(`pool.${it.pool}`)), curveOf(it.pool, it.curve));
    return part;
  }));
}

/** Shows the ways to the ladders.
 * @param {Counted[]} pools */
export function showLadders(pools) {
  byId("ladders").hidden = !pools.length;
  byId("ladders-list").replaceChildren(...pools.map(([pool, count]) =>
    tagRow(ladderAddress(pool), t(`pool.${pool}`), count)));
}

/** Shows who is how strong in a pool. Who is provisional has no place.
 * @param {ArchivedList} told */
export function showLadder({ rows = [], pools = [] }) {
  showLadders(pools);
  byId("ladder").hidden = !rows.length;
  byId("ladder-rows").replaceChildren(...rows.map((it, n) => {
    const row = tableRow(playerLink(it.name), figures(it));
    row.prepend(element("td", "place", it.isProvisional ? "–" : String(n + 1)));
    return row;
  }));
}

/** Whether a game is rated, and why not, in words.
 * @param {VerdictTold | undefined} rated */
export function ratedInWords(rated) {
  return !rated ? "" : rated.why === "RATED" ? t("ratings.RATED", { pool: t(`pool.${rated.pool}`) })
    : t("ratings.not", { why: t(`ratings.${rated.why}`, { who: rated.who }) });
}
