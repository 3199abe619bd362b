/** Which lines that are told become buttons. */

import assert from "node:assert/strict";
import test from "node:test";

import { page } from "./page.mjs";

const { lineToldIn } = await page("talk/told_line.js");

function told(said, kind = "tell") {
  return lineToldIn({ kind, said });
}

test("a director's lines", () => {
  for (const line of ["match ben 5 0 white", "match ben 3 2 crazyhouse black", "match ben 10 0 fischer 518 white",
    "accept ann", "resume ben"]) {
    assert.equal(told(`Round 1: you have White against Ben. Type: ${line}`), line);
    assert.equal(told(`Then type: ${line}`), line);
  }
  assert.equal(told("Or challenge by: match ann 5 0 black"), "match ann 5 0 black");
});

test("other lines stay text", () => {
  for (const said of ["match ben 5 0 white", "Type: resign", "Type: tell zoe hello", "Type: quit", "Type: abort",
    "Type: match ben 5 0 white; resign", "Type: match <b>ben</b> 5 0 white", "Type: accept", "retype: accept ann"]) {
    assert.equal(told(said), null, said);
  }
});

test("nothing but a tell has a button", () => {
  for (const kind of ["shout", "channel-tell", "kibitz", "own", "happened", "partner-tell"]) {
    assert.equal(told("Type: accept ann", kind), null);
  }
});
