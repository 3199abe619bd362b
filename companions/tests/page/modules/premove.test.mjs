/** A premove is played with the board on which it is allowed, and else dropped. */

import assert from "node:assert/strict";
import test from "node:test";

import { page } from "./page.mjs";
import { line, OPENING } from "./told.mjs";

const { boardOf } = await page("link/board_line.js");
const { Game } = await page("game/game.js");
const { Terms } = await page("game/terms.js");
const { premoveWord, squaresFor } = await page("game/premove.js");

/** A game that stands as its last board line says. */
function gameAt(lines, variant = "chess", hands = null) {
  const game = new Game(1, "Ann", "Ben", new Terms(5, 0, variant));
  game.role = "mine";
  lines.forEach((it) => game.add(boardOf(it), false));
  if (hands) {
    game.hold(hands.w, hands.b);
  }
  return game;
}

test("it is played where it is allowed", () => {
  const game = gameAt(OPENING.slice(0, 2)); // Ann waits for Ben
  game.premove = { from: "e4", to: "d5", man: "wP", promotion: "" };
  assert.equal(premoveWord(game, "w"), "");
  game.add(boardOf(OPENING[2]), false);
  assert.equal(premoveWord(game, "w"), "e4d5");
});

test("it is dropped where it isn't", () => {
  const game = gameAt(OPENING.slice(0, 3));
  game.premove = { from: "e4", to: "f5", man: "wP", promotion: "" };
  assert.equal(premoveWord(game, "w"), "");
});

test("the king must be safe behind it", () => {
  const pinned = line({ ranks: "----k---/--------/--------/--------/----r---/--------/----N---/----K---", side: "W",
    rights: "0 0 0 0", move: 30, long: "R/a4-e4", short: "Re4" });
  const game = gameAt([pinned]);
  game.premove = { from: "e2", to: "c3", man: "wN", promotion: "" };
  assert.equal(premoveWord(game, "w"), "");
});

test("a man that was captured doesn't go, nor another one in its place", () => {
  const game = gameAt(OPENING);
  game.premove = { from: "d5", to: "d4", man: "bP", promotion: "" };
  assert.equal(premoveWord(game, "b"), "");
  const other = gameAt(OPENING.slice(0, 3));
  other.premove = { from: "e4", to: "e5", man: "wN", promotion: "" };
  assert.equal(premoveWord(other, "w"), "");
});

test("it castles by the king on its rook", () => {
  const ready = line({ ranks: "rnbqk--r/ppppbppp/-----n--/----p---/--B-P---/-----N--/PPPP-PPP/RNBQK--R", side: "W",
    move: 4, long: "B/f8-e7", short: "Be7" });
  const game = gameAt([ready]);
  game.premove = { from: "e1", to: "h1", man: "wK", promotion: "" };
  assert.equal(premoveWord(game, "w"), "O-O");
  game.premove = { from: "e1", to: "g1", man: "wK", promotion: "" };
  assert.equal(premoveWord(game, "w"), "e1g1");
});

test("a pawn becomes what was chosen", () => {
  const near = line({ ranks: "--k-----/P-------/--------/--------/--------/--------/--------/----K---", side: "W",
    rights: "0 0 0 0", move: 40, long: "K/d8-c8", short: "Kc8" });
  const game = gameAt([near]);
  game.premove = { from: "a7", to: "a8", man: "wP", promotion: "n" };
  assert.equal(premoveWord(game, "w"), "a7a8=n");
});

test("a man is dropped where it is in hand and the square is empty", () => {
  const game = gameAt(OPENING.slice(0, 3), "crazyhouse", { w: "N", b: "" });
  game.premove = { drop: "N", to: "f6", promotion: "" };
  assert.equal(premoveWord(game, "w"), "N@f6");
  game.premove = { drop: "N", to: "e7", promotion: "" };
  assert.equal(premoveWord(game, "w"), "");
  game.premove = { drop: "P", to: "e5", promotion: "" };
  assert.equal(premoveWord(game, "w"), "");
});

test("a takeback and the game's end take it away", () => {
  const game = gameAt(OPENING.slice(0, 2));
  game.premove = { from: "e4", to: "d5", man: "wP", promotion: "" };
  game.add(boardOf(OPENING[0]), true);
  assert.equal(game.premove, null);
});

test("the squares that are shown are those of the turn, and before it all that may come", () => {
  const game = gameAt(OPENING.slice(0, 3));
  assert.deepEqual(squaresFor(game, "w", { square: "e4" }).sort(), ["d5", "e5"]);
  assert.deepEqual(squaresFor(game, "b", { square: "d5" }).sort(), ["c4", "d4", "e4"]);
  assert.equal(squaresFor(game, "b", { drop: "P" }).length, 48);
});
