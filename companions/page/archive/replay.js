/** Half-moves by their short form, played on a position. What a captured man becomes in a hand is told apart, since in
 * bughouse that hand is at the other board. */

import { dropTargets, menAfter, otherThan, targets } from "../game/legal.js";

const CASTLING = /^(?:O-O(-O)?)[+#]?$/;
const DROP = /^([PNBRQ])?@([a-h][1-8])[+#]?$/;
const PLAIN = /^([KQRBN])?([a-h])?([1-8])?x?([a-h][1-8])(?:=?([QRBN]))?[+#]?$/;
/** @type {Colour[]} */
const COLOURS = ["w", "b"];
/** @type {Wing[]} */
const WINGS = ["short", "long"];
const ENDS = { short: "gf", long: "cd" }; // the files on which king and rook stand behind castling

/** The squares from which such a half-move may be made.
 * @param {ArchivedPosition} position @param {string[]} form */
function startsOf(position, [short, kind = "P", named = "", rank = "", to]) {
  const own = position.side + kind;
  const file = kind === "P" && !short.includes("x") ? to[0] : named;
  return Object.keys(position.men).filter((from) => position.men[from] === own
    && (!file || from[0] === file) && (!rank || from[1] === rank) && targets(position, from).includes(to));
}

/** The castling of a wing, or null where king and rook don't stand for it.
 * @param {ArchivedPosition} position @param {Wing} wing */
function castlingOf({ men, side, homes }, wing) {
  const rank = side === "w" ? "1" : "8";
  return men[homes.king + rank] === `${side}K` && men[homes[wing] + rank] === `${side}R` ? { castle: wing } : null;
}

/** The move that a short form names, { from, to, promotion }, { castle } or { drop, to }, or null where none is it.
 * @param {ArchivedPosition} position @param {string} short
 * @returns {Move | null} */
export function moveOf(position, short) {
  const castling = CASTLING.exec(short);
  if (castling) {
    return castlingOf(position, castling[1] ? "long" : "short");
  }
  const drop = DROP.exec(short);
  if (drop) {
    const [, kind = "P", to] = drop;
    const isThere = position.hands ? dropTargets(position, kind).includes(to) : !position.men[to];
    return isThere ? { drop: kind, to } : null;
  }
  const plain = PLAIN.exec(short);
  const starts = plain ? startsOf(position, plain) : [];
  return plain && starts.length === 1 ? { from: starts[0], to: plain[4], promotion: plain[5] ?? "" } : null;
}

/** The square of the man that a move captures, or nothing.
 * @param {ArchivedPosition} position @param {Move} move */
function capturedOn({ men, passed }, { from, to = "" }) {
  if (!from) {
    return "";
  }
  return men[to] ? to : men[from][1] === "P" && to === passed ? to[0] + from[1] : "";
}

/** The rights that are left: those of a king or rook that moved, or of a rook that was captured, are gone.
 * @param {ArchivedPosition} position @param {Move} move */
function rightsAfter({ rights, homes, side }, move) {
  const left = { w: { ...rights.w }, b: { ...rights.b } };
  if (move.castle) {
    left[side] = { short: false, long: false };
  }
  for (const colour of COLOURS) {
    const rank = colour === "w" ? "1" : "8";
    for (const wing of WINGS) {
      if ([homes.king + rank, homes[wing] + rank].some((it) => it === move.from || (move.from && it === move.to))) {
        left[colour][wing] = false;
      }
    }
  }
  return left;
}

/** @param {ArchivedPosition} position @param {Move} move @param {string} captured */
function promotedAfter({ promoted }, { from = "", to = "", promotion }, captured) {
  const after = new Set(promoted);
  const comesAlong = after.delete(from);
  [captured, to].forEach((it) => after.delete(it));
  if (promotion || comesAlong) {
    after.add(to);
  }
  return after;
}

/** The square that a pawn has passed over by a double push, or nothing.
 * @param {ArchivedPosition} position @param {Move} move */
function passedBy({ men }, { from = "", to = "" }) {
  const isDouble = from !== "" && men[from][1] === "P" && Math.abs(Number(to[1]) - Number(from[1])) === 2;
  return isDouble ? from[0] + (from[1] === "2" ? "3" : "6") : "";
}

/** The squares to mark.
 * @param {ArchivedPosition} position @param {Move} move */
function squaresOf({ side }, move) {
  const rank = side === "w" ? "1" : "8";
  return move.castle ? Array.from(ENDS[move.castle], (file) => file + rank)
    : [move.from ?? "", move.to ?? ""].filter(Boolean);
}

/** What stands behind a move: the position, with the hands as before but for a drop, the squares to mark, and the man
 * that was captured, { colour, kind } with a promoted one as a pawn, or null.
 * @param {ArchivedPosition} position @param {Move} move */
export function behind(position, move) {
  const { side, promoted } = position;
  const square = capturedOn(position, move);
  const captured = square
    ? { colour: otherThan(side), kind: promoted.has(square) ? "P" : position.men[square][1] } : null;
  const men = menAfter(position, move);
  if (move.promotion && move.to) {
    men[move.to] = side + move.promotion;
  }
  const hands = position.hands && { ...position.hands };
  if (hands && move.drop) {
    hands[side] = hands[side].replace(move.drop, "");
  }
  return {
    captured, squares: squaresOf(position, move),
    position: {
      ...position, men, hands, side: otherThan(side), rights: rightsAfter(position, move),
      promoted: promotedAfter(position, move, square), passed: passedBy(position, move), ply: position.ply + 1,
    },
  };
}

/** What stands behind a half-move of that short form, or null where it is none there.
 * @param {ArchivedPosition} position @param {string} short */
export function played(position, short) {
  const move = moveOf(position, short);
  return move && behind(position, move);
}

/** Hands with a man more.
 * @param {Hands | null} hands @param {Colour} colour @param {string} kind */
export function handsWith(hands, colour, kind) {
  return hands && { ...hands, [colour]: hands[colour] + kind };
}
