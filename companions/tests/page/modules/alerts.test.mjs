/** What is heard of an event, low time, what is drawn on the board, and what the browser keeps. */

import assert from "node:assert/strict";
import test from "node:test";

import { page } from "./page.mjs";

const { LowTime, soundOf } = await page("member/heard.js");
const { arrowCorners, colourBy, Drawn } = await page("board/drawn.js");
const { Preferences } = await page("member/preferences.js");

function halfMove(short, isHalfMove = true) {
  return { kind: "board", isHalfMove, board: { short } };
}

test("check is heard before a capture, and a capture before a move", () => {
  const rows = [["e4", "move"], ["exd5", "capture"], ["Qxf7+", "check"], ["Qh5+", "check"], ["Qxf7#", "check"],
    ["P@e4", "move"]];
  rows.forEach(([short, sound]) => assert.equal(soundOf(halfMove(short)), sound, short));
});

test("a board that is only shown is silent, and a call is heard", () => {
  assert.equal(soundOf(halfMove("e4", false)), "");
  assert.equal(soundOf({ kind: "challenge" }), "call");
  assert.equal(soundOf({ kind: "tell" }), "");
});

test("low time is told once, and again where there was more meanwhile", () => {
  const low = new LowTime();
  assert.deepEqual([25, 19.5, 18, 21, 19, -1].map((left) => low.falls(1, left, 20)),
    [false, true, false, false, true, false]);
  assert.equal(low.falls(2, 10, 20), true);
});

test("what is drawn again is gone, and in another colour it changes", () => {
  const drawn = new Drawn();
  drawn.toggle("e2", "e4", "green");
  drawn.toggle("d5", "d5", "red");
  drawn.toggle("e2", "e4", "blue");
  assert.deepEqual(drawn.shapes, [{ from: "d5", to: "d5", colour: "red" }, { from: "e2", to: "e4", colour: "blue" }]);
  drawn.toggle("d5", "d5", "red");
  drawn.toggle("e2", "e4", "blue");
  assert.deepEqual(drawn.shapes, []);
});

test("colours by keys, and an arrow that points to its end", () => {
  for (const [shiftKey, ctrlKey, altKey, colour] of [[false, false, false, "green"], [true, false, false, "red"],
    [false, true, false, "red"], [false, false, true, "blue"], [true, false, true, "yellow"],
    [false, true, true, "yellow"]]) {
    assert.equal(colourBy({ shiftKey, ctrlKey, altKey }), colour);
  }
  const corners = arrowCorners({ x: 4, y: 6 }, { x: 4, y: 4 }).split(" ");
  assert.equal(corners[3], "4.5,4.5");
  assert.equal(corners.length, 7);
});

test("what is preferred is kept, and nonsense isn't taken", () => {
  const kept = new Map([["preferences", '{"sounds": false, "queen": "yes", "other": 1}']]);
  const store = { getItem: (key) => kept.get(key) ?? null, setItem: (key, value) => kept.set(key, value) };
  const preferences = new Preferences(store);
  assert.equal(preferences.get("sounds"), false);
  assert.equal(preferences.get("queen"), false);
  preferences.set("queen", true);
  assert.equal(new Preferences(store).get("queen"), true);
  assert.equal(new Preferences(null).get("sounds"), true);
});

test("a store that fails keeps nothing, and nothing breaks", () => {
  const broken = { getItem: () => { throw new Error("off"); }, setItem: () => { throw new Error("off"); } };
  const preferences = new Preferences(broken);
  preferences.set("sounds", false);
  assert.equal(preferences.get("sounds"), false);
});
