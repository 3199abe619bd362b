/** The squares that the page shows lead to as many lines of play as published tables have: those of the Chess
 * Programming Wiki's pages on perft and on perft of Chess960, and for crazyhouse those that Fairy-Stockfish counts. */

import assert from "node:assert/strict";
import test from "node:test";

import { page } from "./page.mjs";
import { linesOfPlay, positionOfFen } from "./played_on.mjs";

const legal = await page("game/legal.js");
const { arrayOf, homesOf } = await page("game/fischer.js");
const { boardOf, menOf } = await page("link/board_line.js");

const CHESS = [
  ["rnbqkbnr/pppppppp/8/8/8/8/PPPPPPPP/RNBQKBNR w KQkq - 0 1", [20, 400, 8902]],
  ["r3k2r/p1ppqpb1/bn2pnp1/3PN3/1p2P3/2N2Q1p/PPPBBPPP/R3K2R w KQkq - 0 1", [48, 2039]],
  ["8/2p5/3p4/KP5r/1R3p1k/8/4P1P1/8 w - - 0 1", [14, 191, 2812]],
  ["r3k2r/Pppp1ppp/1b3nbN/nP6/BBP1P3/q4N2/Pp1P2PP/R2Q1RK1 w kq - 0 1", [6, 264, 9467]],
  ["rnbq1k1r/pp1Pbppp/2p5/8/2B5/8/PPP1NnPP/RNBQK2R w KQ - 1 8", [44, 1486]],
  ["r4rk1/1pp1qppp/p1np1n2/2b1p1B1/2B1P1b1/P1NP1N2/1PP1QPPP/R4RK1 w - - 0 10", [46, 2079]],
];
const FISCHER = [
  ["bqnb1rkr/pp3ppp/3ppn2/2p5/5P2/P2P4/NPP1P1PP/BQ1BNRKR w HFhf - 2 9", [21, 528, 12189]],
  ["2nnrbkr/p1qppppp/8/1ppb4/6PP/3PP3/PPP2P2/BQNNRBKR w HEhe - 1 9", [21, 807]],
  ["b1q1rrkb/pppppppp/3nn3/8/P7/1PPP4/4PPPP/BQNNRKRB w GE - 1 9", [20, 479, 10471]],
  ["qbbnnrkr/2pp2pp/p7/1p2pp2/8/P3PP2/1PPP1KPP/QBBNNR1R w hf - 0 9", [22, 593]],
  ["1nbbnrkr/p1p1ppp1/3p4/1p3P1p/3Pq2P/8/PPP1P1P1/QNBBNRKR w HFhf - 0 9", [28, 1120]],
];
const CRAZYHOUSE = [
  ["rnbqkbnr/pppppppp/8/8/8/8/PPPPPPPP/RNBQKBNR[] w KQkq - 0 1", [20, 400]],
  ["2k5/8/8/8/8/8/8/4K3[QRBNPqrbnp] w - - 0 1", [301]],
  ["r1bqk2r/pppp1ppp/2n1p3/4P3/1b1Pn3/2NB1N2/PPP2PPP/R1BQK2R[] b KQkq - 0 1", [42, 1347]],
];

for (const [name, rows] of Object.entries({ CHESS, FISCHER, CRAZYHOUSE })) {
  for (const [fen, counts] of rows) {
    test(`${name.toLowerCase()}: ${fen}`, () => {
      const position = positionOfFen(fen);
      counts.forEach((count, n) => assert.equal(linesOfPlay(legal, position, n + 1), count, `at depth ${n + 1}`));
    });
  }
}

test("the king in check, and nothing where there is none", () => {
  const mated = positionOfFen("rnb1kbnr/pppp1ppp/8/4p3/6Pq/5P2/PPPPP2P/RNBQKBNR w KQkq - 1 3");
  assert.equal(legal.checkedKing(mated), "e1");
  assert.equal(legal.checkedKing({ ...mated, side: "b" }), "");
});

test("castling is shown on the rook, and in the usual array on the king's end too", () => {
  const position = positionOfFen("r3k2r/8/8/8/8/8/8/R3K2R w KQkq - 0 1");
  assert.deepEqual(legal.targets(position, "e1").filter((it) => "achg".includes(it[0])).sort(),
    ["a1", "c1", "g1", "h1"]);
  const fischer = positionOfFen("r3kr2/5p2/8/8/8/8/8/R3KR2 w FAfa - 0 1");
  assert.equal(legal.targets(fischer, "e1").includes("f1"), true);
});

test("a man of the other colour goes nowhere", () => {
  assert.deepEqual(legal.targets(positionOfFen(CHESS[0][0]), "e7"), []);
});

test("before its turn a man may be meant to go wherever it could go at all", () => {
  const position = positionOfFen("rnbqkbnr/pppppppp/8/8/8/8/PPPPPPPP/RNBQKBNR b KQkq - 0 1");
  assert.deepEqual(legal.strides(position, "e2").sort(), ["d3", "e3", "e4", "f3"]);
  assert.deepEqual(legal.strides(position, "g1").sort(), ["e2", "f3", "h3"]);
  assert.deepEqual(legal.strides(position, "e1").sort(), ["a1", "c1", "d1", "d2", "e2", "f1", "f2", "g1", "h1"].sort());
  assert.equal(legal.strides(position, "c1").includes("h6"), true);
});

test("a board line is a position: rights, the pawn that was passed, hands", () => {
  const board = boardOf("<12> rnbqkbnr ppp-p-pp -------- ---pPp-- -------- -------- PPPP-PPP RNBQKBNR W "
    + "5 1 1 0 1 0 7 Ann Ben 1 5 0 39 39 290 280 3 P/f7-f5 (0:02) f5 0");
  const position = legal.positionOf({ board, men: menOf(board), hands: null });
  assert.equal(position.passed, "f6");
  assert.deepEqual(position.rights, { w: { short: true, long: true }, b: { short: false, long: true } });
  assert.deepEqual(legal.targets(position, "e5").sort(), ["e6", "f6"]);
});

test("the arrays of Fischer random by their numbers", () => {
  assert.equal(arrayOf(518), "RNBQKBNR");
  assert.equal(arrayOf(468), "RBBNNKRQ");
  assert.equal(arrayOf(84), "NBBNRKRQ");
  assert.equal(new Set(Array.from({ length: 960 }, (_, n) => arrayOf(n))).size, 960);
  assert.deepEqual(homesOf("fischer 84"), { king: "f", short: "g", long: "e" });
  assert.deepEqual(homesOf("chess"), { king: "e", short: "h", long: "a" });
});
