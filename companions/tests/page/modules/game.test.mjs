/** A game as it is told: its half-moves, looking back, takebacks, the clocks. */

import assert from "node:assert/strict";
import test from "node:test";

import { page } from "./page.mjs";
import { line, OPENING } from "./told.mjs";

const { boardOf, lastSquares } = await page("link/board_line.js");
const { Game } = await page("game/game.js");
const { Terms } = await page("game/terms.js");
const { clockText } = await page("board/clock.js");
const { lead, missing } = await page("game/material.js");
const { rematchLine } = await page("game/rematch.js");

function gameOf(lines, role = "mine") {
  const game = new Game(1, "Ann", "Ben", new Terms(5, 0, "chess"));
  game.role = role;
  lines.forEach((it) => game.add(boardOf(it), false));
  return game;
}

test("half-moves are in their order", () => {
  assert.deepEqual(gameOf(OPENING).halfMoves.map((it) => it.short), ["e4", "d5", "exd5"]);
});

test("castling marks the squares on which king and rook stand now, and any other move those from and to", () => {
  const marked = (side, long, short) => lastSquares(boardOf(line({
    ranks: `${"--------/".repeat(7)}--------`, side, move: 9, long, short })));
  assert.deepEqual(marked("B", "o-o", "O-O"), ["g1", "f1"]);
  assert.deepEqual(marked("W", "o-o", "O-O+"), ["g8", "f8"]);
  assert.deepEqual(marked("B", "o-o-o", "O-O-O"), ["c1", "d1"]);
  assert.deepEqual(marked("W", "o-o-o", "O-O-O#"), ["c8", "d8"]);
  assert.deepEqual(marked("B", "N/@@-e5", "N@e5"), ["e5"]);
  assert.deepEqual(OPENING.map((it) => lastSquares(boardOf(it))), [[], ["e2", "e4"], ["d7", "d5"], ["e4", "d5"]]);
});

test("a board that is shown again is nothing new", () => {
  const game = gameOf(OPENING);
  assert.equal(game.add(boardOf(OPENING[3]), false), false);
  assert.equal(game.last, 3);
});

test("going back and on ends at the ends", () => {
  const game = gameOf(OPENING);
  game.step(1);
  assert.equal(game.looking, null);
  game.step(-1);
  assert.equal(game.looking, 2);
  game.look(0);
  game.step(-1);
  assert.equal(game.shown.men.e2, "wP");
  game.look(game.last);
  assert.equal(game.looking, null);
});

test("a takeback leaves what stands before it", () => {
  const game = gameOf(OPENING);
  assert.equal(game.add(boardOf(OPENING[1]), true), true);
  assert.deepEqual(game.halfMoves.map((it) => it.short), ["e4"]);
  assert.equal(game.toMove, "b");
});

test("a player is led to the opponent's half-move, and who looks on isn't", () => {
  for (const [role, looking] of [["mine", null], ["watched", 0]]) {
    const game = gameOf(OPENING.slice(0, 3), role);
    game.look(0);
    game.add(boardOf(OPENING[3]), false);
    assert.equal(game.looking, looking, role);
  }
});

test("the clock of who is to move runs from the third half-move on", () => {
  const game = gameOf(OPENING.slice(0, 2));
  assert.equal(game.isTicking, false);
  game.add(boardOf(OPENING[2]), false);
  assert.equal(game.isTicking, true);
  game.since = performance.now() - 4000;
  assert.ok(Math.abs(game.left("w") - 296) < 0.5);
  assert.equal(game.left("b"), 300);
});

test("clocks have tenths below ten seconds, and none below nothing", () => {
  const rows = [[300, "5:00"], [59.2, "1:00"], [10, "0:10"], [9.98, "0:10.0"], [9.94, "0:10.0"], [9.9, "0:09.9"],
    [0.31, "0:00.4"], [0.3, "0:00.3"], [0, "0:00"], [-0.5, "0:00"], [-3, "−0:03"], [600, "10:00"]];
  rows.forEach(([seconds, text]) => assert.equal(clockText(seconds), text, String(seconds)));
});

test("what was captured, and who is ahead", () => {
  const { men } = gameOf(OPENING).place;
  assert.equal(missing(men, "b"), "P");
  assert.equal(missing(men, "w"), "");
  assert.equal(lead(men, "w"), 1);
  assert.equal(lead(men, "b"), -1);
  // two queens for White: one of its pawns became one, and none was captured
  const promoted = { a1: "wK", a2: "wQ", a3: "wQ", h8: "bK", ...Object.fromEntries("bcdefgh".split("")
    .map((file) => [`${file}2`, "wP"])) };
  assert.equal(missing(promoted, "w"), "NNBBRR");
  assert.equal(lead(promoted, "w"), 25);
});

test("another game has the same terms and the other colours", () => {
  const game = gameOf(OPENING);
  assert.equal(rematchLine(game, "Ann", []), "match Ben 5 0 chess black");
  assert.equal(rematchLine(game, "Ben", []), "match Ann 5 0 chess white");
  assert.equal(rematchLine(game, "Ann", [{ who: "Ben", terms: new Terms(5, 0, "chess", "white") }]), "accept Ben");
  assert.equal(rematchLine(game, "Ann", [{ who: "Ben", terms: new Terms(1, 0, "chess") },
    { who: "Ben", terms: new Terms(5, 0, "crazyhouse") },
    { who: "Cat", terms: new Terms(5, 0, "chess") }]), "match Ben 5 0 chess black");
});
