/** What a page keeps for the one that begins anew: its games, and what was set in the session. */

import assert from "node:assert/strict";
import test from "node:test";

import { page } from "./page.mjs";
import { OPENING } from "./told.mjs";

const { boardOf } = await page("link/board_line.js");
const { Game, gameOf } = await page("game/game.js");
const { Terms } = await page("game/terms.js");
const { Remembered } = await page("link/remembered.js");

/** A line that was typed, and what came of it. */
function answer(line, told = ["Ok."]) {
  const command = line.split(" ")[0];
  const all = (kind) => (kind === "ok" && told[0] === "Ok." ? told : []);
  return { line, command, all };
}

function lines(remembered) {
  return remembered.rows.map((it) => it.line ?? it.told[0]);
}

test("a game goes through a text and back", () => {
  const game = new Game(3, "Ann", "Ben", new Terms(5, 0, "crazyhouse"));
  game.role = "mine";
  game.began = new Date(2026, 10, 30);
  OPENING.forEach((it) => game.add(boardOf(it), false));
  game.hold("P", "");
  game.offers.add("Ben", "draw");
  const again = gameOf(JSON.parse(JSON.stringify(game.keep)));
  assert.deepEqual(again.halfMoves, game.halfMoves);
  assert.deepEqual(again.place, game.place);
  assert.equal(String(again.terms), "5 0 crazyhouse");
  assert.equal(again.offers.firstFor("Ann").kind, "draw");
  assert.equal(again.began.getTime(), game.began.getTime());
  assert.ok(Math.abs(again.left("b") - game.left("b")) < 0.5);
});

test("a game that is over stays so", () => {
  const game = new Game(3, "Ann", "Ben", new Terms(5, 0, "chess"));
  OPENING.forEach((it) => game.add(boardOf(it), false));
  game.end = { reason: "Ben resigns", result: "1-0" };
  assert.deepEqual(gameOf(JSON.parse(JSON.stringify(game.keep))).end, game.end);
});

test("what was set is remembered, and what was taken back isn't", () => {
  const remembered = new Remembered();
  ["+channel 5", "+channel 7", "-channel 5", "+censor Cat", "+noplay Dan", "-noplay dan", "set open 0", "set open 1",
    "simopen", "tell Ben hello"].forEach((it) => remembered.take(answer(it)));
  assert.deepEqual(lines(remembered), ["+channel 7", "+censor Cat", "set open 1", "simopen"]);
  remembered.take(answer("simopen"));
  assert.deepEqual(lines(remembered), ["+channel 7", "+censor Cat", "set open 1"]);
});

test("what was refused isn't remembered", () => {
  const remembered = new Remembered();
  remembered.take(answer("+channel 300", ["refused 41 BadChannel"]));
  remembered.take({ line: null, command: "", all: () => ["Ok."] });
  assert.deepEqual(lines(remembered), []);
});

test("a partner is told again as news", () => {
  const remembered = new Remembered();
  remembered.partner("Cat");
  assert.deepEqual(remembered.rows, [{ key: "partner", line: null, told: ["You are now the partner of Cat."] }]);
  const again = new Remembered(JSON.parse(JSON.stringify(remembered.rows)));
  again.take(answer("partner"));
  assert.deepEqual(lines(again), []);
});
