/** What a member does with the men, to the words of moves. Whether a move is allowed the server says. */

const SQUARE = "[a-h][1-8]";
const BECOMES = "(?:=?[QRBNqrbn])?";
const MARK = "[+#]?";
const SPELLINGS = [
  `${SQUARE}-?${SQUARE}${BECOMES}`, `[PNBRQK]?[a-h]?[1-8]?x?${SQUARE}${BECOMES}${MARK}`,
  `(?:O-O|o-o|0-0|O-O-O|o-o-o|0-0-0)${MARK}`, `[PNBRQpnbrq]@${SQUARE}${MARK}`,
];
const WORD = new RegExp(`^(?:${SPELLINGS.join("|")})$`);

/** Whether a word is spelled as the server reads moves, as docs/CLIENTS.md has it.
 * @param {string} word */
export function isMoveWord(word) {
  return WORD.test(word);
}

/** Whether a man may be lifted by this colour.
 * @param {string | undefined} man @param {string} colour */
export function isOwn(man, colour) {
  return man !== undefined && man[0] === colour;
}

/** The king on an own rook castles; the side is that on which the rook stands.
 * @param {Men} men @param {string} from @param {string} to */
function castling(men, from, to) {
  const king = men[from];
  if (king?.[1] !== "K" || men[to] !== `${king[0]}R`) {
    return "";
  }
  return to[0] > from[0] ? "O-O" : "O-O-O";
}

/** Whether a move has to say what the pawn becomes.
 * @param {Men} men @param {string} from @param {string} to */
export function isPromotion(men, from, to) {
  return men[from]?.[1] === "P" && (to[1] === "8" || to[1] === "1");
}

/** The word of a move, { from, to, promotion }, or of a drop, { drop, to }.
 * @param {Men} men @param {Move} move */
export function wordOf(men, { from = "", drop, to = "", promotion = "" }) {
  if (drop) {
    return `${drop}@${to}`;
  }
  return castling(men, from, to) || from + to + (promotion && `=${promotion}`);
}
