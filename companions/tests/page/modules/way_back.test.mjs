/** A game that was adjourned goes on by one question, whoever of the two asks first. */

import assert from "node:assert/strict";
import { test as tested } from "node:test";

import { page } from "./page.mjs";

const element = () => ({ dataset: {}, append() {}, addEventListener() {} });
const elements = new Map();
const byId = (id) => elements.get(id) ?? elements.set(id, element()).get(id);
globalThis.document = { getElementById: byId, querySelector: () => null, addEventListener() {}, documentElement: {},
  body: element(), hidden: false };
globalThis.window = { addEventListener() {} };
const { setTimeout: after } = globalThis;
globalThis.setTimeout = (...words) => after(...words).unref(); // a notice that stays for seconds keeps no test waiting

const test = (name, act) => tested(name, { timeout: 20_000 }, act); // what is never asked is never answered

const { WayBack } = await page("link/way_back.js");

/** Ben, who comes in again with games against these on the shelf: what is asked, and what the page is told. */
function cameBack(...others) {
  const stored = others.map((white) => ({ kind: "stored", white, black: "Ben" }));
  const hearers = new Map();
  const asked = [];
  const ask = (line) => new Promise((keep) => {
    const answers = (refusal = 0, isDone = true) => keep({
      refusal, isDone, all: (kind) => stored.filter((it) => it.kind === kind),
    });
    asked.push({ line, answers });
  });
  const session = { me: "Ben", on: (kinds, hear) => [kinds].flat().forEach((it) => hearers.set(it, hear)),
    onAnswer() {}, ask, act: ask };
  Object.assign(byId("notice"), { textContent: "", className: "", hidden: true });
  const wayBack = new WayBack(session, {}, null, null);
  const resumed = wayBack.resume(others);
  const isAsked = async (line, ...answer) => {
    while (asked.at(-1)?.line !== line) {
      await new Promise(setImmediate);
    }
    asked.at(-1).answers(...answer);
  };
  const hears = (kind, event = {}) => hearers.get(kind)({ kind, ...event });
  const goesOn = (white) => {
    stored.splice(stored.findIndex((it) => it.white === white), 1);
    hears("continuing", { white, black: "Ben" });
  };
  return { asked, resumed, isAsked, hears, goesOn };
}

/** What the member reads. */
const told = () => (byId("notice").hidden ? "" : byId("notice").textContent);

test("a question that is on its way answers that of the other one", async () => {
  const { asked, resumed, isAsked, hears } = cameBack("Ann");
  await isAsked("stored");
  while (asked.length < 2) {
    await new Promise(setImmediate);
  }
  hears("resume-asked", { who: "Ann" });
  asked[1].answers();
  await resumed;
  assert.deepEqual(asked.map((it) => it.line), ["stored", "resume Ann"]);
});

test("who asks later is answered, once", async () => {
  const { asked, resumed, isAsked, hears } = cameBack("Ann");
  await isAsked("stored");
  await isAsked("resume Ann");
  await resumed;
  hears("resume-asked", { who: "Ann" });
  hears("resume-asked", { who: "Ann" });
  assert.deepEqual(asked.map((it) => it.line), ["stored", "resume Ann", "resume Ann"]);
});

test("nobody else is answered, and nobody once a game goes on", async () => {
  const { asked, resumed, isAsked, hears } = cameBack("Ann");
  await isAsked("stored");
  await isAsked("resume Ann");
  await resumed;
  hears("resume-asked", { who: "Cat" });
  hears("continuing");
  hears("resume-asked", { who: "Ann" });
  assert.deepEqual(asked.map((it) => it.line), ["stored", "resume Ann"]);
});

test("of several the one who has asked meanwhile isn't asked once more", async () => {
  const { asked, resumed, isAsked, hears } = cameBack("Ann", "Cat", "Dan");
  await isAsked("stored");
  while (asked.length < 2) {
    await new Promise(setImmediate);
  }
  hears("resume-asked", { who: "Cat" });
  asked[1].answers();
  asked[2].answers();
  await isAsked("resume Dan");
  await resumed;
  assert.deepEqual(asked.map((it) => it.line), ["stored", "resume Ann", "resume Cat", "resume Dan"]);
});

test("of several none is asked once a game goes on", async () => {
  const { asked, resumed, isAsked, hears } = cameBack("Ann", "Cat");
  await isAsked("stored");
  while (asked.length < 2) {
    await new Promise(setImmediate);
  }
  hears("continuing");
  asked[1].answers();
  await resumed;
  assert.deepEqual(asked.map((it) => it.line), ["stored", "resume Ann"]);
});

test("a refusal is told, but of who isn't here yet", async () => {
  const { resumed, isAsked } = cameBack("Ann", "Cat");
  await isAsked("stored");
  await isAsked("resume Ann", 32);
  await isAsked("resume Cat", 35);
  await resumed;
  assert.match(told(), /against Ann is adjourned, and goes on once Ann is here/);
  assert.match(told(), /against Cat is adjourned, and can't go on now\. All boards are in use/);
});

test("of a game that goes on by the answer nothing is said", async () => {
  const { asked, resumed, isAsked, goesOn } = cameBack("Ann");
  await isAsked("stored");
  while (asked.length < 2) {
    await new Promise(setImmediate);
  }
  goesOn("Ann");
  asked[1].answers();
  await resumed;
  assert.equal(told(), "");
});

test("nor of one that the member has let go on before it was found", async () => {
  const { asked, resumed, isAsked, goesOn } = cameBack("Ann");
  goesOn("Ann");
  for (let looks = 0; looks < 3; looks += 1) {
    while (asked.length <= looks) {
      await new Promise(setImmediate);
    }
    await isAsked("stored");
  }
  await resumed;
  assert.equal(told(), "");
});

test("nor before who has asked is answered", async () => {
  const { asked, resumed, isAsked, hears, goesOn } = cameBack("Ann", "Cat");
  await isAsked("stored");
  await isAsked("resume Ann", 32);
  while (asked.length < 3) {
    await new Promise(setImmediate);
  }
  hears("resume-asked", { who: "Ann" });
  asked[2].answers(32);
  await new Promise(setImmediate);
  assert.equal(told(), "");
  goesOn("Ann");
  asked[3].answers();
  await resumed;
  assert.equal(told(), "The game against Cat is adjourned. Resume in the lobby asks to go on.");
});

test("what was said of a game is taken back as it goes on", async () => {
  const { resumed, isAsked, goesOn } = cameBack("Ann");
  await isAsked("stored");
  await isAsked("resume Ann", 32);
  await resumed;
  assert.match(told(), /against Ann is adjourned/);
  goesOn("Ann");
  assert.equal(told(), "");
});

test("nothing is said of games where the link ends before they are found", async () => {
  const { resumed, isAsked } = cameBack("Ann");
  await isAsked("stored", 0, false);
  await resumed;
  assert.equal(told(), "");
});
