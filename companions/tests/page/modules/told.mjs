/** Games as the server tells them: board lines as it writes them, written down by hand. */

const HEAD = "<12>";

/** The board line behind a half-move; each field that isn't named is the usual one. */
export function line({ ranks, side, doubled = -1, rights = "1 1 1 1", quiet = 0, game = 1, white = "Ann", black = "Ben",
  relation = 1, minutes = 5, increment = 0, material = "39 39", clocks = [300, 300], move, long = "none",
  took = "(0:00)", short = "none", flip = 0 }) {
  return [HEAD, ...ranks.split("/"), side, doubled, rights, quiet, game, white, black, relation, minutes, increment,
    material, ...clocks, move, long, took, short, flip].join(" ");
}

const R8 = "rnbqkbnr/pppppppp/--------/--------";

/** An array, and the boards behind 1. e4 d5 2. exd5 of a game with clocks. */
export const OPENING = [
  line({ ranks: `${R8}/--------/--------/PPPPPPPP/RNBQKBNR`, side: "W", move: 1 }),
  line({ ranks: `${R8}/----P---/--------/PPPP-PPP/RNBQKBNR`, side: "B", doubled: 4, move: 1, long: "P/e2-e4",
    short: "e4" }),
  line({ ranks: "rnbqkbnr/ppp-pppp/--------/---p----/----P---/--------/PPPP-PPP/RNBQKBNR", side: "W", doubled: 3,
    move: 2, long: "P/d7-d5", short: "d5" }),
  line({ ranks: "rnbqkbnr/ppp-pppp/--------/---P----/--------/--------/PPPP-PPP/RNBQKBNR", side: "B", move: 2,
    material: "39 38", clocks: [297, 300], long: "P/e4-d5", took: "(0:03)", short: "exd5" }),
];
