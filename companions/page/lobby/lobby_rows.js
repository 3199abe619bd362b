/** The rows of the lobby's lists. */

import { withRating } from "../shell/ratings.js";
import { t } from "../shell/texts.js";

/** A name with its rating, in a pool or in that of most of its games.
 * @param {string} who @param {string} me */
function withName(who, me, pool = "") {
  const rated = withRating(who, pool);
  return who === me ? t("player.you", { who: rated }) : rated;
}

/** A player, and what it does; `hide` is the switch by which nothing that it says is shown.
 * @param {string} who @param {string} me @param {Happened<'game'>[]} games @param {Happened<'sought'>[]} seeks
 * @param {RowButton} hide */
export function playerRow(who, me, games, seeks, hide) {
  const game = games.find((it) => [it.white, it.black].includes(who));
  const seek = seeks.find((it) => it.who === who);
  const does = game ? t("player.plays", { who: game.white === who ? game.black : game.white })
    : seek ? t("player.seeks", { terms: seek.terms.shortTime() }) : "";
  const buttons = who === me ? [] : [
    ...game ? [{ drawing: "watch", label: t("player.watch"), name: t("player.watch-name", { who }),
      command: `observe ${who}` }] : [],
    { drawing: "challenge", label: t("player.play"), name: t("player.challenge", { who }), challenge: who },
    { drawing: "talk", label: t("player.tell"), name: t("player.tell-name", { who }), room: `person ${who}` },
    { ...hide, label: t("player.hide") },
  ];
  return { key: who, parts: { who: withName(who, me), does }, buttons,
    className: game ? "plays" : "" };
}

/** A seek, which is taken by a click anywhere on its row; one's own is taken back so.
 * @param {Happened<'sought'>} event @param {string} me */
export function seekRow({ n, who, terms, text }, me) {
  const isMine = who === me;
  const parts = { time: terms.shortTime(), who: withName(who, me, terms.pool),
    variant: terms.variantInWords(), colour: terms.colour ? t(`terms.asks-${terms.colour}`) : "",
    act: t(isMine ? "seek.take-back" : "seek.play") };
  const name = t(isMine ? "seek.take-back-name" : "seek.play-name", { n, who, terms: terms.inWords() });
  return { key: text, className: isMine ? "whole own" : "whole",
    buttons: [{ name, parts, command: isMine ? `unseek ${n}` : `play ${n}` }] };
}

/** A challenge that stands, to the member or by it.
 * @param {Happened<'pending-from' | 'pending-to'>} event */
export function challengeRow({ kind, who, terms, text }) {
  if (kind === "pending-to") {
    return { key: text, text: t("pending.to", { who, terms: terms.inWords() }), buttons: [
      { label: t("pending.withdraw"), name: t("pending.withdraw-name", { who }), command: `withdraw ${who}` },
    ] };
  }
  return { key: text, text: t("pending.from", { who, terms: terms.inWords() }), buttons: [
    { label: t("pending.accept"), name: t("pending.accept-name", { who }), command: `accept ${who}`,
      className: "strong" },
    { label: t("pending.decline"), name: t("pending.decline-name", { who }), command: `decline ${who}` },
  ] };
}

/** An adjourned game.
 * @param {Happened<'stored' | 'stored-pair'>} event @param {string} me */
export function storedRow(event, me) {
  const names = [event.white, event.black, event.third, event.fourth].filter(Boolean);
  const other = names.find((it) => it !== me);
  const buttons = [
    { label: t("stored.resume"), name: t("stored.resume-name", { who: other }), command: `resume ${other}` },
  ];
  return { key: event.text, text: t("stored.row", { names: names.join(" – "), terms: event.terms.inWords() }),
    buttons };
}
