/** A board as a FEN, the common text for positions. */

import { homesOf } from "./fischer.js";

/** @type {Wing[]} */
const WINGS = ["short", "long"];
const USUAL = { short: "K", long: "Q" };

/** @param {string} rank */
function row(rank) {
  return rank.replace(/-+/g, (empty) => String(empty.length));
}

/** The rights to castle: `KQkq`, or in Fischer random the files of the rooks.
 * @param {Standing} board @param {string} variant */
function castling({ rights }, variant) {
  const homes = homesOf(variant);
  /** @param {Wing} wing */
  const letter = (wing) => (variant.startsWith("fischer") ? homes[wing].toUpperCase() : USUAL[wing]);
  /** @param {Colour} colour */
  const of = (colour) => WINGS.filter((wing) => rights[colour][wing]).map(letter).join("");
  return of("w") + of("b").toLowerCase() || "-";
}

/** @param {Standing} board */
function passed({ doubled, side }) {
  return doubled < 0 ? "-" : "abcdefgh"[doubled] + (side === "w" ? "6" : "3");
}

/** The FEN of a board line; `hands` are its men in hand, or null where the variant has none or they aren't known.
 * @param {Standing} board @param {string} [variant] @param {Hands | null} [hands] */
export function fenOf(board, variant = "chess", hands = null) {
  const held = hands ? `[${hands.w}${hands.b.toLowerCase()}]` : "";
  return [board.ranks.map(row).join("/") + held, board.side, castling(board, variant), passed(board), board.quiet,
    board.move].join(" ");
}
