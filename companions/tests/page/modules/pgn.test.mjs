/** Games as PGN: the texts were written down by hand, by the PGN standard. */

import assert from "node:assert/strict";
import test from "node:test";

import { page } from "./page.mjs";
import { line, OPENING } from "./told.mjs";

const { boardOf } = await page("link/board_line.js");
const { Game } = await page("game/game.js");
const { Terms } = await page("game/terms.js");
const { fenOf } = await page("game/fen.js");
const { fileName, pgnOf } = await page("game/pgn.js");

function gameOf(lines, terms, end = null) {
  const game = new Game(1, "Ann", "Ben", terms);
  lines.forEach((it) => game.add(boardOf(it), false));
  game.end = end;
  return game;
}

test("a game with clocks, from its beginning to its end", () => {
  const game = gameOf(OPENING, new Terms(5, 0, "chess"), { reason: "Ben resigns", result: "1-0" });
  game.began = new Date(2026, 10, 30, 14, 0);
  assert.equal(pgnOf(game, "chess.example.org"), `[Event "Casual game"]
[Site "chess.example.org"]
[Date "2026.11.30"]
[Round "-"]
[White "Ann"]
[Black "Ben"]
[Result "1-0"]
[TimeControl "300+0"]
[Termination "normal"]

1. e4 {[%clk 0:05:00] [%emt 0:00:00]} 1... d5 {[%clk 0:05:00] [%emt 0:00:00]}
2. exd5 {[%clk 0:04:57] [%emt 0:00:03]} {Ben resigns} 1-0
`);
  assert.equal(fileName(game), "Ann-Ben-2026-11-30.pgn");
});

test("a game that was looked at late begins where it was", () => {
  const game = gameOf(OPENING.slice(2), new Terms(0, 0, "chess"));
  assert.equal(game.knownFrom, 2);
  const text = pgnOf(game, "here");
  assert.match(text, /^\[Date "\?\?\?\?\.\?\?\.\?\?"\]$/m);
  assert.match(text, /^\[SetUp "1"\]$/m);
  assert.match(text, /^\[FEN "rnbqkbnr\/ppp1pppp\/8\/3p4\/4P3\/8\/PPPP1PPP\/RNBQKBNR w KQkq d6 0 2"\]$/m);
  assert.match(text, /^\[TimeControl "-"\]$/m);
  assert.match(text, /^\[Termination "unterminated"\]$/m);
  assert.match(text, /\n\n2\. exd5 \*\n$/);
  assert.equal(fileName(game), "Ann-Ben.pgn");
});

test("what isn't known in between is left out with all before it", () => {
  const game = gameOf([OPENING[0], OPENING[2], OPENING[3]], new Terms(5, 0, "chess"));
  assert.equal(game.knownFrom, 2);
  assert.match(pgnOf(game, "here"), /\n\n2\. exd5 \{/);
});

test("how games end", () => {
  const rows = [["Ben forfeits on time", "1-0", "time forfeit"], ["drawn by time", "1/2-1/2", "time forfeit"],
    ["Ben forfeits by disconnection", "1-0", "abandoned"], ["drawn by agreement", "1/2-1/2", "normal"],
    ["Ben checkmated", "1-0", "normal"], ["adjourned", "*", "unterminated"], ["aborted", "*", "unterminated"]];
  for (const [reason, result, termination] of rows) {
    const text = pgnOf(gameOf(OPENING, new Terms(5, 0, "chess"), { reason, result }), "here");
    assert.match(text, new RegExp(`^\\[Termination "${termination}"\\]$`, "m"), reason);
    assert.equal(text.trimEnd().endsWith(`{${reason}} ${result}`.split(" ").at(-1)), true, reason);
    assert.match(text, new RegExp(`^\\[Result "${result.replaceAll("*", "\\*")}"\\]$`, "m"), reason);
  }
});

test("variants are named, and Fischer random has its array", () => {
  const crazyhouse = pgnOf(gameOf(OPENING, new Terms(0, 3, "crazyhouse")), "here");
  assert.match(crazyhouse, /^\[Variant "Crazyhouse"\]$/m);
  assert.match(crazyhouse, /^\[TimeControl "10\+3"\]$/m);
  assert.doesNotMatch(crazyhouse, /FEN/);
  const array = line({ ranks: "nbbnrkrq/pppppppp/--------/--------/--------/--------/PPPPPPPP/NBBNRKRQ", side: "W",
    move: 1 });
  const fischer = pgnOf(gameOf([array], new Terms(3, 2, "fischer 84")), "here");
  assert.match(fischer, /^\[Variant "Chess960"\]$/m);
  assert.match(fischer, /^\[FEN "nbbnrkrq\/pppppppp\/8\/8\/8\/8\/PPPPPPPP\/NBBNRKRQ w GEge - 0 1"\]$/m);
});

test("no line is longer than 80 characters", () => {
  const lines = [OPENING[0]];
  for (let ply = 1; ply <= 80; ply += 1) {
    const home = ply % 4 === 0 || ply % 4 === 3;
    lines.push(line({
      ranks: "rnbqkbnr/pppppppp/--------/--------/--------/--------/PPPPPPPP/RNBQKBNR", side: ply % 2 ? "B" : "W",
      quiet: ply, move: Math.floor(ply / 2) + 1, long: "N/g1-f3", short: home ? "Ng1" : "Nf3",
    }));
  }
  const text = pgnOf(gameOf(lines, new Terms(5, 0, "chess")), "here");
  assert.equal(text.split("\n").every((it) => it.length <= 80), true);
  assert.equal(text.match(/%clk/g).length, 80);
});

test("hands stand in a FEN", () => {
  assert.equal(fenOf(boardOf(OPENING[3]), "crazyhouse", { w: "P", b: "NQ" }),
    "rnbqkbnr/ppp1pppp/8/3P4/8/8/PPPP1PPP/RNBQKBNR[Pnq] b KQkq - 0 2");
});
