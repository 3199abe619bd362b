/** A position from a FEN, as `fics_scribe` writes it: with hands in brackets, `~` behind men that came by promotion,
 * and the files of rooks for the rights to castle where king and rooks don't begin as in chess. */

import { arrayOf, ARRAYS, USUAL } from "../game/fischer.js";

const FILES = "abcdefgh";
const USUAL_HOMES = { king: "e", short: "h", long: "a" };

/** The men of a FEN's first field by their squares, and the squares of those that came by promotion.
 * @param {string} placement */
function menOf(placement) {
  /** @type {Men} */
  const men = {};
  const promoted = new Set();
  placement.split("/").forEach((row, n) => {
    let file = 0;
    for (const letter of row) {
      if (letter === "~") {
        promoted.add(FILES[file - 1] + (8 - n));
      } else if (/\d/.test(letter)) {
        file += Number(letter);
      } else {
        const kind = letter.toUpperCase();
        men[FILES[file] + (8 - n)] = (letter === kind ? "w" : "b") + kind;
        file += 1;
      }
    }
  });
  return { men, promoted };
}

/** The rights to castle, and the files from which king and rooks do so.
 * @param {Men} men @param {string} letters */
function castlingOf(men, letters) {
  const homes = { ...USUAL_HOMES };
  const rights = { w: { short: false, long: false }, b: { short: false, long: false } };
  const isUsual = /^(?:-|[KQkq]+)$/.test(letters);
  if (!isUsual) {
    const [colour, rank] = /[A-H]/.test(letters) ? ["w", "1"] : ["b", "8"];
    homes.king = Array.from(FILES).find((file) => men[file + rank] === `${colour}K`) ?? "e";
  }
  for (const letter of letters === "-" ? "" : letters) {
    const low = letter.toLowerCase();
    const file = !isUsual ? low : low === "k" ? "h" : "a";
    const wing = file > homes.king ? "short" : "long";
    homes[wing] = file;
    rights[letter === low ? "b" : "w"][wing] = true;
  }
  return { homes, rights };
}

/** The men in hand between the brackets, or null where there are none and so nothing is known of them.
 * @param {string | undefined} held */
function handsOf(held) {
  return held === undefined ? null
    : { w: held.replace(/[^A-Z]/g, ""), b: held.replace(/[^a-z]/g, "").toUpperCase() };
}

/** A position: what `legal.js` asks for, and the squares of `promoted` men and the number of half-moves before it.
 * @param {string} fen
 * @returns {ArchivedPosition} */
export function positionOfFen(fen) {
  const [placement, side, castling = "-", passed = "-", , move = "1"] = fen.split(" ");
  const [rows, held] = placement.split("[");
  const { men, promoted } = menOf(rows);
  return {
    men, promoted, side: side === "b" ? "b" : "w", passed: passed === "-" ? "" : passed,
    hands: handsOf(held?.slice(0, -1)),
    ...castlingOf(men, castling), ply: 2 * (Number(move) - 1) + (side === "b" ? 1 : 0),
  };
}

/** The number of the array of Fischer random from which a position begins, or nothing where it is none.
 * @param {{ men: Men, ply: number }} position */
export function arrayOfPosition({ men, ply }) {
  const kinds = Array.from(FILES, (file) => men[`${file}1`]?.[1] ?? "").join("");
  const number = Array.from({ length: ARRAYS }, (_, n) => n).find((n) => arrayOf(n) === kinds);
  return ply === 0 && number !== undefined ? number : "";
}

/** The FEN of the array with which chess, crazyhouse and bughouse begin; in the latter two nobody has men in hand.
 * @param {boolean} hasHands */
export function usualPosition(hasHands) {
  const row = arrayOf(USUAL);
  const held = hasHands ? "[]" : "";
  return positionOfFen(`${row.toLowerCase()}/pppppppp/8/8/8/8/PPPPPPPP/${row}${held} w KQkq - 0 1`);
}
