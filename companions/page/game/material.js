/** What was captured, read off the men that stand on a board. */

/** @type {Record<string, number>} */
const SET = { P: 8, N: 2, B: 2, R: 2, Q: 1 };
/** @type {Record<string, number>} */
const WORTH = { P: 1, N: 3, B: 3, R: 5, Q: 9 };

/** @param {Men} men @param {Colour} colour */
function counts(men, colour) {
  /** @type {Record<string, number>} */
  const count = { P: 0, N: 0, B: 0, R: 0, Q: 0 };
  for (const man of Object.values(men)) {
    if (man[0] === colour && man[1] !== "K") {
      count[man[1]] += 1;
    }
  }
  return count;
}

/** The men of a colour that are gone, as letters in the order P N B R Q. Men above the set were pawns, so that many of
 * the missing pawns weren't captured.
 * @param {Men} men @param {Colour} colour */
export function missing(men, colour) {
  const standing = counts(men, colour);
  const beyond = ["N", "B", "R", "Q"].reduce((sum, kind) => sum + Math.max(0, standing[kind] - SET[kind]), 0);
  return Object.keys(SET).map((kind) => {
    const gone = SET[kind] - standing[kind] - (kind === "P" ? beyond : 0);
    return kind.repeat(Math.max(0, gone));
  }).join("");
}

/** By how much the men of a colour on the board are worth more than the others: pawn 1, knight and bishop 3, rook 5,
 * queen 9.
 * @param {Men} men @param {Colour} colour */
export function lead(men, colour) {
  return Object.values(men).filter((man) => man[1] !== "K")
    .reduce((sum, man) => sum + (man[0] === colour ? 1 : -1) * WORTH[man[1]], 0);
}
