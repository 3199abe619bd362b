/** A move that is put before it is its player's turn. A game has one at most; it is played with the board on which it
 * is allowed, and else dropped. */

import { dropTargets, positionOf, strides, targets } from "./legal.js";
import { wordOf } from "./moves.js";

/** The squares to which a member's man or man in hand, { square } or { drop }, may go: at once, or before its turn
 * those that it might reach then.
 * @param {Game} game @param {Colour} colour @param {Spot | { square?: string, drop?: string }} from */
export function squaresFor(game, colour, from) {
  const { place } = game;
  const { drop, square = "" } = from;
  if (!place) {
    return [];
  }
  const position = positionOf(place, game.terms.variant);
  if (place.board.side === colour) {
    return drop ? dropTargets(position, drop) : targets(position, square);
  }
  return drop ? squaresOfDrops(drop) : strides(position, square);
}

/** The squares on which a man of that kind may be put before its turn, whatever stands there now.
 * @param {string} kind */
function squaresOfDrops(kind) {
  const ranks = kind === "P" ? "234567" : "12345678";
  return Array.from(ranks, (rank) => Array.from("abcdefgh", (file) => file + rank)).flat();
}

/** The word of a game's premove where it is allowed now, or nothing. A man that was captured meanwhile isn't there, and
 * another one on its square isn't meant.
 * @param {Game} game @param {Colour} colour */
export function premoveWord(game, colour) {
  const { premove, place } = game;
  if (!premove || place?.board.side !== colour || (premove.from && place.men[premove.from] !== premove.man)) {
    return "";
  }
  const squares = squaresFor(game, colour, premove.drop ? { drop: premove.drop } : { square: premove.from });
  return squares.includes(premove.to) ? wordOf(place.men, premove) : "";
}
