/** Positions of FEN, and what stands behind a move, told apart from the page's modules: the count of all lines of play
 * of a depth, whose moves are those that `legal.js` shows. */

import { arrayFiles } from "./fen.mjs";

const ENDS = { short: { king: "g", rook: "f" }, long: { king: "c", rook: "d" } };

/** The moves that the page shows, each once: { from, to, promotion }, { castle } or { drop, to }. */
export function shownMoves(legal, position) {
  const { men, side, homes, hands } = position;
  const rank = side === "w" ? "1" : "8";
  const home = homes.king + rank;
  const moves = [];
  for (const from of Object.keys(men).filter((it) => men[it][0] === side)) {
    const shown = legal.targets(position, from);
    for (const to of shown) {
      const isOwn = men[to]?.[0] === side;
      const isDouble = men[from][1] === "K" && from === home && Math.abs(to.charCodeAt(0) - from.charCodeAt(0)) === 2;
      if (isOwn) {
        moves.push({ castle: to[0] === homes.short ? "short" : "long" });
      } else if (!isDouble) {
        const isPromotion = men[from][1] === "P" && "18".includes(to[1]);
        moves.push(...(isPromotion ? ["Q", "R", "B", "N"].map((kind) => ({ from, to, promotion: kind }))
          : [{ from, to }]));
      }
    }
  }
  for (const drop of new Set(hands?.[side] ?? "")) {
    moves.push(...legal.dropTargets(position, drop).map((to) => ({ drop, to })));
  }
  return moves;
}

function without(letters, kind) {
  return letters.replace(kind, "");
}

/** The position behind a move. Crazyhouse has no promoted men in what is tried. */
function behind(position, move) {
  const { side, homes, passed } = position;
  const other = side === "w" ? "b" : "w";
  const rank = side === "w" ? "1" : "8";
  const men = { ...position.men };
  const rights = { w: { ...position.rights.w }, b: { ...position.rights.b } };
  const hands = position.hands && { ...position.hands };
  let next = "";
  if (move.castle) {
    delete men[homes.king + rank];
    delete men[homes[move.castle] + rank];
    men[ENDS[move.castle].king + rank] = `${side}K`;
    men[ENDS[move.castle].rook + rank] = `${side}R`;
    rights[side] = { short: false, long: false };
  } else if (move.drop) {
    men[move.to] = side + move.drop;
    hands[side] = without(hands[side], move.drop);
  } else {
    const { from, to, promotion } = move;
    let captured = men[to];
    if (men[from][1] === "P" && to === passed) {
      captured = men[to[0] + from[1]];
      delete men[to[0] + from[1]];
    }
    if (hands && captured) {
      hands[side] += captured[1];
    }
    if (men[from][1] === "P" && Math.abs(Number(to[1]) - Number(from[1])) === 2) {
      next = from[0] + (side === "w" ? "3" : "6");
    }
    men[to] = promotion ? side + promotion : men[from];
    delete men[from];
    for (const [colour, back] of [["w", "1"], ["b", "8"]]) {
      for (const wing of ["short", "long"]) {
        if ([from, to].includes(homes.king + back) || [from, to].includes(homes[wing] + back)) {
          rights[colour][wing] = false;
        }
      }
    }
  }
  return { men, side: other, rights, passed: next, hands, homes };
}

/** How many lines of play of that depth there are. */
export function linesOfPlay(legal, position, depth) {
  const moves = shownMoves(legal, position);
  return depth === 1 ? moves.length
    : moves.reduce((sum, move) => sum + linesOfPlay(legal, behind(position, move), depth - 1), 0);
}

/** The position of a FEN: of chess, of Fischer random with the files of rooks as rights, of crazyhouse with hands in
 * brackets. */
export function positionOfFen(fen) {
  const [placement, side, castling, passed] = fen.split(" ");
  const [rows, held] = placement.split("[");
  const men = {};
  rows.split("/").forEach((row, n) => {
    let file = 0;
    for (const letter of row) {
      if (/\d/.test(letter)) {
        file += Number(letter);
      } else {
        const colour = letter === letter.toUpperCase() ? "w" : "b";
        men["abcdefgh"[file] + (8 - n)] = colour + letter.toUpperCase();
        file += 1;
      }
    }
  });
  const { homes, rights } = arrayFiles(men, castling);
  const letters = held?.slice(0, -1) ?? null;
  const hands = letters === null ? null : {
    w: letters.replace(/[a-z]/g, ""), b: letters.replace(/[A-Z]/g, "").toUpperCase(),
  };
  return { men, side, rights, passed: passed === "-" ? "" : passed, hands, homes };
}
