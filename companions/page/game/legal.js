/** The rules of movement, so that the page can show where a man may go. The server stays the judge of every move.
 *
 * A position is { men, side, rights, passed, hands, homes }: men by their squares as { e1: "wK" }, the colour to move,
 * of each colour the rights to castle as { short, long }, the square that a pawn has just passed over or nothing, the
 * letters in hand of each colour or null where the variant has none, and the files of king and rooks in the array. */

import { homesOf } from "./fischer.js";

const FILES = "abcdefgh";
/** @type {Wing[]} */
const WINGS = ["short", "long"];
const STRAIGHT = [[1, 0], [-1, 0], [0, 1], [0, -1]];
const DIAGONAL = [[1, 1], [1, -1], [-1, 1], [-1, -1]];
const JUMPS = [[1, 2], [2, 1], [2, -1], [1, -2], [-1, -2], [-2, -1], [-2, 1], [-1, 2]];
/** @type {Record<string, number[][]>} */
const WAYS = { N: JUMPS, B: DIAGONAL, R: STRAIGHT, Q: [...STRAIGHT, ...DIAGONAL], K: [...STRAIGHT, ...DIAGONAL] };
/** @type {Record<string, number>} */
const FARTHEST = { N: 1, K: 1, B: 7, R: 7, Q: 7 };
const ENDS = { short: { king: "g", rook: "f" }, long: { king: "c", rook: "d" } };

/** The square so many files and ranks away, or nothing where the board ends.
 * @param {string} square @param {number} files @param {number} ranks */
function step(square, files, ranks) {
  const file = FILES[FILES.indexOf(square[0]) + files];
  const rank = Number(square[1]) + ranks;
  return file && rank >= 1 && rank <= 8 ? file + rank : "";
}

/** @param {Colour} colour @returns {Colour} */
export function otherThan(colour) {
  return colour === "w" ? "b" : "w";
}

/** @param {string} man */
function colourOf(man) {
  return man[0] === "w" ? "w" : "b";
}

/** @param {Colour} colour */
function forward(colour) {
  return colour === "w" ? 1 : -1;
}

/** @param {Colour} colour */
function backRank(colour) {
  return colour === "w" ? "1" : "8";
}

/** The squares that a man goes to along its ways; each way ends at the first man, that one among them.
 * @param {Men} men @param {string} square @param {string} kind */
function along(men, square, kind) {
  return WAYS[kind].flatMap(([files, ranks]) => {
    const reached = [];
    let at = square;
    for (let n = 0; n < FARTHEST[kind] && (n === 0 || !men[at]); n += 1) {
      at = step(at, files, ranks);
      if (!at) {
        break;
      }
      reached.push(at);
    }
    return reached;
  });
}

/** The squares that a pawn strikes.
 * @param {string} square @param {Colour} colour */
function struck(square, colour) {
  return [-1, 1].map((files) => step(square, files, forward(colour))).filter(Boolean);
}

/** The squares before a pawn to which it may go where they are empty.
 * @param {string} square @param {Colour} colour */
function pushes(square, colour) {
  const one = step(square, 0, forward(colour));
  const isHome = square[1] === (colour === "w" ? "2" : "7");
  return [one, isHome ? step(one, 0, forward(colour)) : ""].filter(Boolean);
}

/** The squares that the man on a square reaches, whether its king is safe then or not; castling aside.
 * @param {Position} position @param {string} square */
function reached({ men, passed }, square) {
  const colour = colourOf(men[square]);
  const kind = men[square][1];
  if (kind !== "P") {
    return along(men, square, kind).filter((to) => men[to]?.[0] !== colour);
  }
  const steps = pushes(square, colour);
  const blocked = steps.findIndex((to) => men[to]);
  const enemy = otherThan(colour);
  return [...(blocked < 0 ? steps : steps.slice(0, blocked)),
    ...struck(square, colour).filter((to) => men[to]?.[0] === enemy || to === passed)];
}

/** Whether a colour attacks a square.
 * @param {Men} men @param {string} square @param {Colour} by */
export function isAttacked(men, square, by) {
  if (struck(square, otherThan(by)).some((from) => men[from] === `${by}P`)) {
    return true;
  }
  return Object.keys(WAYS).some((kind) => along(men, square, kind).some((from) => men[from] === by + kind));
}

/** The square of a colour's king, or nothing where it has none.
 * @param {Men} men @param {Colour} colour */
export function kingOf(men, colour) {
  return Object.keys(men).find((it) => men[it] === `${colour}K`) ?? "";
}

/** The square of the king that is in check, or nothing.
 * @param {Position} position */
export function checkedKing({ men, side }) {
  const king = kingOf(men, side);
  return king && isAttacked(men, king, otherThan(side)) ? king : "";
}

/** The squares from one file to another one of a rank, both among them.
 * @param {string} one @param {string} other @param {string} rank */
function between(one, other, rank) {
  const [low, high] = [FILES.indexOf(one), FILES.indexOf(other)].sort((x, y) => x - y);
  return Array.from(FILES.slice(low, high + 1), (file) => file + rank);
}

/** Whether a colour may castle to that side.
 * @param {Position} position @param {Wing} wing */
function mayCastle({ men, side, rights, homes }, wing) {
  const rank = backRank(side);
  const king = homes.king + rank;
  const rook = homes[wing] + rank;
  const way = between(homes.king, ENDS[wing].king, rank);
  return rights[side][wing] && men[king] === `${side}K` && men[rook] === `${side}R`
    && [...way, ...between(homes[wing], ENDS[wing].rook, rank)].every((it) => !men[it] || it === king || it === rook)
    && way.every((it) => !isAttacked(men, it, otherThan(side)));
}

/** The men behind a move, { from, to }, { castle } or { drop, to }; what a pawn becomes shields as a pawn does.
 * @param {Position} position @param {Move} move */
export function menAfter({ men, side, passed, homes }, { from = "", to = "", drop, castle }) {
  const after = { ...men };
  if (castle) {
    const rank = backRank(side);
    delete after[homes.king + rank];
    delete after[homes[castle] + rank];
    after[ENDS[castle].king + rank] = `${side}K`;
    after[ENDS[castle].rook + rank] = `${side}R`;
  } else if (drop) {
    after[to] = side + drop;
  } else {
    if (men[from][1] === "P" && to === passed) {
      delete after[step(passed, 0, -forward(side))];
    }
    after[to] = men[from];
    delete after[from];
  }
  return after;
}

/** Whether the own king is safe behind a move.
 * @param {Position} position @param {Move} move */
function isSafe(position, move) {
  const men = menAfter(position, move);
  const king = kingOf(men, position.side);
  return !king || !isAttacked(men, king, otherThan(position.side));
}

/** The wings to which the side to move may castle.
 * @param {Position} position */
function castlings(position) {
  return WINGS.filter((wing) => mayCastle(position, wing) && isSafe(position, { castle: wing }));
}

/** The squares on which a castling is put: that of the rook, and where the king's home is on file e, its end.
 * @param {Position} position */
function castlingTargets(position) {
  const rank = backRank(position.side);
  return castlings(position).flatMap((wing) => [position.homes[wing] + rank,
    ...(position.homes.king === "e" ? [ENDS[wing].king + rank] : [])]);
}

/** The squares to which the man on a square may go, castling among them.
 * @param {Position} position @param {string} from */
export function targets(position, from) {
  const { men, side } = position;
  if (men[from]?.[0] !== side) {
    return [];
  }
  const isAtHome = men[from][1] === "K" && from === position.homes.king + backRank(side);
  const plain = reached(position, from).filter((to) => isSafe(position, { from, to }));
  return [...new Set([...plain, ...(isAtHome ? castlingTargets(position) : [])])];
}

/** The squares on which a man of the hand may be put.
 * @param {Position} position @param {string} kind */
export function dropTargets(position, kind) {
  const { men, side, hands } = position;
  if (!hands?.[side].includes(kind)) {
    return [];
  }
  const ranks = kind === "P" ? [2, 3, 4, 5, 6, 7] : [1, 2, 3, 4, 5, 6, 7, 8];
  return ranks.flatMap((rank) => Array.from(FILES, (file) => file + rank))
    .filter((to) => !men[to] && isSafe(position, { drop: kind, to }));
}

/** The squares to which a man might go from its square whatever stands elsewhere: those of a move that is put before
 * it is its colour's turn.
 * @param {Position} position @param {string} from */
export function strides({ men, homes }, from) {
  const colour = colourOf(men[from]);
  const kind = men[from][1];
  if (kind === "P") {
    return [...pushes(from, colour), ...struck(from, colour)];
  }
  const rank = backRank(colour);
  const castling = kind === "K" && from === homes.king + rank
    ? [homes.short + rank, homes.long + rank, ...(homes.king === "e" ? [`g${rank}`, `c${rank}`] : [])] : [];
  return [...new Set([...along({}, from, kind), ...castling])].filter((it) => it !== from);
}

/** The position that a place of a game shows, { board, men, hands }, in a variant as `fischer 518`.
 * @param {Place} place */
export function positionOf({ board, men, hands }, variant = "chess") {
  const rank = board.side === "w" ? "6" : "3";
  return {
    men, side: board.side, rights: board.rights, hands, homes: homesOf(variant),
    passed: board.doubled < 0 ? "" : FILES[board.doubled] + rank,
  };
}
