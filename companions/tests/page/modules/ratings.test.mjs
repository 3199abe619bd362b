/** Ratings beside names, pools of terms, and where the points of a curve stand. */

import assert from "node:assert/strict";
import { test } from "node:test";

import { page } from "./page.mjs";

const { spotsOf } = await page("archive/curve.js");
const { Terms } = await page("game/terms.js");

test("the pool of terms is that of the archive's games", () => {
  const pools = { "2 1 chess": "bullet", "1 3 chess": "blitz", "3 0 chess": "blitz", "5 4 chess": "blitz",
    "8 0 chess": "rapid", "15 14 chess": "rapid", "15 15 chess": "classical", "0 0 chess": "classical",
    "3 0 crazyhouse": "crazyhouse", "0 0 fischer 17": "fischer", "3 0 bughouse": "bughouse" };
  for (const [terms, pool] of Object.entries(pools)) {
    assert.equal(Terms.parsed(terms)?.pool, pool, terms);
  }
});

test("a curve goes by days from the left to the right, and by ratings from below to above", () => {
  const days = [["2026-11-01", 1500, 300], ["2026-11-02", 1600, 100], ["2026-11-11", 1550, 90]];
  const { spots, high, low } = spotsOf(days);
  assert.deepEqual([high, low], [1600, 1500]);
  assert.ok(spots[0].x < spots[1].x && (spots[2].x - spots[1].x) / (spots[1].x - spots[0].x) - 9 < 0.001);
  assert.ok(spots[1].y < spots[2].y && spots[2].y < spots[0].y);
  for (const it of spots) {
    assert.ok(it.above >= 0 && it.above <= it.y && it.y <= it.below && it.below <= 160);
  }
});

test("a curve that stays where it is lies in the middle", () => {
  const { spots, high, low } = spotsOf([["2026-11-01", 1500, 20], ["2026-11-01", 1500, 20]]);
  assert.deepEqual([high, low], [1525, 1475]);
  assert.ok(spots.every((it) => it.y === 80));
});

/** The module with a go-between that tells what `ratings` has, or answers with another status: what was asked, and a
 * promise of the next time that it shows anew. */
async function shown(ratings, status = 200) {
  const { listenForRatings, withRating } = await page(`shell/ratings.js?${shown.count = (shown.count ?? 0) + 1}`);
  const asked = [];
  let told = () => undefined;
  let next = () => undefined;
  globalThis.fetch = (address) => {
    const names = decodeURIComponent(address).split("=")[1].split(",");
    asked.push(names);
    const found = Object.fromEntries(names.filter((it) => it in ratings).map((it) => [it, ratings[it]]));
    setImmediate(() => status === 200 || next());
    return Promise.resolve({ ok: status === 200, json: () => Promise.resolve(found) });
  };
  listenForRatings({ on: (_kind, hear) => { told = hear; } }, () => next());
  const anew = () => new Promise((resolve) => { next = resolve; });
  return { withRating, asked, anew, isTold: (it) => told({ it }) };
}

const ANN = [
  { pool: "blitz", points: 1612, isProvisional: false },
  { pool: "bullet", points: 1500, isProvisional: true },
];

test("where the go-between says nothing of ratings nobody asks for them", async () => {
  const { withRating, asked, isTold } = await shown({ Ann: ANN });
  assert.equal(withRating("Ann"), "Ann");
  isTold({ ratings: false });
  assert.equal(withRating("Ann"), "Ann");
  await new Promise((resolve) => { setTimeout(resolve, 500); }); // longer than it waits for more names
  assert.deepEqual(asked, []);
});

test("names are asked for together and once, and shown by pool", async () => {
  const { withRating, asked, anew, isTold } = await shown({ Ann: ANN });
  isTold({ ratings: true });
  const later = anew();
  assert.deepEqual(["Ann", "Ben", "Ann"].map((it) => withRating(it)), ["Ann", "Ben", "Ann"]);
  await later;
  assert.deepEqual(asked, [["Ann", "Ben"]]);
  assert.equal(withRating("Ann"), "Ann 1612");
  assert.equal(withRating("Ann", "bullet"), "Ann 1500?");
  assert.equal(withRating("Ann", "bughouse"), "Ann");
  assert.equal(withRating("Ben"), "Ben");
  assert.equal(asked.length, 1);
});

test("more names than one question has are asked for one after another", async () => {
  const { withRating, asked, anew, isTold } = await shown({});
  isTold({ ratings: true });
  const first = anew();
  Array.from({ length: 250 }, (_, n) => withRating(`Name${n}`));
  await first;
  await anew();
  assert.deepEqual(asked.map((it) => it.length), [200, 50]);
});

test("a question that fails isn't asked again at once", async () => {
  const { withRating, asked, anew, isTold } = await shown({ Ann: ANN }, 429);
  isTold({ ratings: true });
  const later = anew();
  withRating("Ann");
  await later;
  await new Promise((resolve) => { setImmediate(resolve); });
  assert.equal(withRating("Ann"), "Ann");
  assert.deepEqual(asked, [["Ann"]]);
});
