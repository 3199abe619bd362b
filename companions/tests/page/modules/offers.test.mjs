/** The offers at a desk: who can answer what, and what takes them away. */

import assert from "node:assert/strict";
import test from "node:test";

import { page } from "./page.mjs";

const { acceptance, Offers } = await page("game/offers.js");

function standing(offers) {
  return offers.standing.map(({ who, kind, n }) => `${who} ${kind} ${n}`);
}

test("an offer is open to others, and to who has made the same no more", () => {
  const offers = new Offers();
  offers.add("Ben", "draw");
  assert.deepEqual(offers.openTo("Ben"), []);
  assert.equal(offers.firstFor("Ann").kind, "draw");
  offers.add("Ann", "draw");
  assert.equal(offers.firstFor("Ann"), undefined);
});

test("a takeback of another number takes the place of the one before", () => {
  const offers = new Offers();
  offers.add("Ben", "takeback", 1);
  offers.add("Ben", "takeback", 2);
  assert.deepEqual(standing(offers), ["Ben takeback 2"]);
});

test("what is declined is the earliest that one could accept", () => {
  const offers = new Offers();
  offers.add("Ben", "takeback", 1);
  offers.add("Ben", "draw");
  offers.declined("Ann");
  assert.deepEqual(standing(offers), ["Ben draw 0"]);
});

test("a half-move takes takebacks and the opponent's offers away", () => {
  const offers = new Offers();
  offers.add("Ben", "draw");
  offers.add("Ann", "abort");
  offers.add("Ann", "takeback", 1);
  offers.moved("Ben"); // Ann has moved
  assert.deepEqual(standing(offers), ["Ann abort 0"]);
});

test("the line that accepts offers the same", () => {
  assert.equal(acceptance({ kind: "takeback", n: 3 }), "takeback 3");
  assert.equal(acceptance({ kind: "draw", n: 0 }), "draw");
});
