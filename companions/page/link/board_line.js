/** A board line: 31 fields with one blank between two of them. docs/CLIENTS.md says what each is. */

const HANDLE = /^[A-Za-z]{3,17}$/;
const NUMBER = /^(?:0|[1-9]\d*)$/;
const WHOLE = /^(?:0|-?[1-9]\d*)$/;
const BIT = /^[01]$/;
const SQUARE = "[a-h][1-8]";
const LONG = new RegExp(`^(?:none|o-o|o-o-o|[PNBRQ]/@@-${SQUARE}|[PNBRQK]/${SQUARE}-${SQUARE}(?:=[QRBN])?)$`);
const SHORT = new RegExp(`^(?:none|(?:O-O|O-O-O|[PNBRQ]@${SQUARE}|[NBRQK][a-h]?[1-8]?x?${SQUARE}`
  + `|(?:[a-h]x)?${SQUARE}(?:=[QRBN])?)[+#]?)$`);
const FORMS = [
  /^<12>$/, ...Array(8).fill(/^[pnbrqkPNBRQK-]{8}$/), /^[WB]$/, /^(?:-1|[0-7])$/, BIT, BIT, BIT, BIT, NUMBER, NUMBER,
  HANDLE, HANDLE, /^(?:-1|0|1)$/, NUMBER, NUMBER, NUMBER, NUMBER, WHOLE, WHOLE, /^[1-9]\d*$/, LONG,
  /^\(\d+:[0-5]\d\)$/, SHORT, BIT,
];
/** @type {Record<string, string>} */
const CASTLED = { "o-o": "gf", "o-o-o": "cd" }; // the files of the king and the rook behind it

/** The rights to castle of a colour, as { short, long }.
 * @param {string[]} bits */
function rightsOf([short, long]) {
  return { short: short === "1", long: long === "1" };
}

/** The board that a line shows, or null where it is no board line.
 * @param {string} line
 * @returns {BoardLine | null} */
export function boardOf(line) {
  const fields = line.split(" ");
  if (fields.length !== FORMS.length || !FORMS.every((form, n) => form.test(fields[n]))) {
    return null;
  }
  const side = fields[9] === "W" ? "w" : "b";
  const move = Number(fields[26]);
  return {
    line, ranks: fields.slice(1, 9), side, doubled: Number(fields[10]), quiet: Number(fields[15]),
    rights: { w: rightsOf(fields.slice(11, 13)), b: rightsOf(fields.slice(13, 15)) },
    game: Number(fields[16]), white: fields[17], black: fields[18],
    relation: Number(fields[19]), minutes: Number(fields[20]), increment: Number(fields[21]),
    clocks: { w: Number(fields[24]), b: Number(fields[25]) }, move, ply: 2 * (move - 1) + (side === "b" ? 1 : 0),
    long: fields[27], took: fields[28], short: fields[29], blackBelow: fields[30] === "1",
    position: [...fields.slice(1, 16), ...fields.slice(26, 28)].join(" "),
  };
}

/** The men of a board by their squares, as { e1: "wK" }.
 * @param {BoardLine} board */
export function menOf(board) {
  /** @type {Men} */
  const men = {};
  board.ranks.forEach((row, n) => Array.from(row).forEach((letter, file) => {
    if (letter !== "-") {
      const kind = letter.toUpperCase();
      men["abcdefgh"[file] + (8 - n)] = (letter === kind ? "w" : "b") + kind;
    }
  }));
  return men;
}

/** The squares of the half-move that led to a board, for showing it. Of castling they are those from which and to which
 * the king went, where the men before it are known; of the line alone, where king and rook stand now.
 * @param {BoardLine} board @param {Men} [before] */
export function lastSquares(board, before) {
  const plain = /([a-h][1-8])-([a-h][1-8])/.exec(board.long);
  const drop = /@@-([a-h][1-8])/.exec(board.long);
  const castled = Array.from(CASTLED[board.long] ?? "", (file) => file + (board.side === "b" ? "1" : "8"));
  const king = board.side === "b" ? "wK" : "bK";
  const from = castled.length && before ? Object.keys(before).find((it) => before[it] === king) : undefined;
  return plain ? [plain[1], plain[2]] : drop ? [drop[1]] : from ? [from, castled[0]] : castled;
}
