/** Games at which the lobby looks on for its small boards, and those that the member plays. */

import assert from "node:assert/strict";
import test from "node:test";

import { page } from "./page.mjs";
import { line, OPENING } from "./told.mjs";

const { Games } = await page("game/games.js");
const { eventOf } = await page("link/lines.js");
const { SmallGames } = await page("lobby/small_games.js");

/** A member's session, of which a test says what the server tells and what it answers. */
class Told {
  constructor(me) {
    this.me = me;
    this.listeners = [];
    this.asked = []; // { line, keep }
  }

  on(kinds, listener) {
    this.listeners.push([[kinds].flat(), listener]);
  }

  onAnswer() {}

  onAskedBack() {}

  ask(asked) {
    return new Promise((keep) => { this.asked.push({ line: asked, keep }); });
  }

  tell(...lines) {
    for (const event of lines.map((it) => eventOf(it, ""))) {
      this.listeners.filter(([kinds]) => kinds.includes(event.kind)).forEach(([, listener]) => listener(event));
    }
  }

  /** The answer to the oldest line that isn't answered. */
  async answer(isDone, ...lines) {
    const { keep } = this.asked.shift();
    this.tell(...lines);
    keep({ isDone, all: () => [] });
    await Promise.resolve();
  }
}

/** The page's games and small boards, wired as the page wires them: the lobby wants these games. */
function lobbyOf(me, numbers) {
  const session = new Told(me);
  const games = new Games(session, {
    changed: () => smallGames.want(numbers), passes: (number) => smallGames.has(number),
  });
  const smallGames = new SmallGames(session, null, { isBusy: () => games.isAtOne, changed: () => {} });
  smallGames.want(numbers);
  return { session, games, smallGames };
}

const CREATING = "{Game 1 (Ann vs. Ben) Creating 5 0 chess match.}";

test("a game of others is for its small board", async () => {
  const { session, games, smallGames } = lobbyOf("Cat", [1]);
  await session.answer(true, OPENING[0]);
  assert.equal(games.shown, null);
  assert.equal(smallGames.boardOf({ game: 1, white: "Ann", black: "Ben" }).board.game, 1);
});

test("one's own game is on the board, though the list of games was told before the game was", async () => {
  const { session, games, smallGames } = lobbyOf("Ann", [1]);
  assert.equal(session.asked[0].line, "observe 1");
  await session.answer(false, "refused 55 AlreadyWatching", CREATING, OPENING[0]);
  assert.equal(games.shown?.places.size, 1);
  await session.answer(false, "refused 18 NotWatching");
  session.tell(OPENING[1]);
  assert.equal(games.shown?.places.size, 2);
  assert.equal(smallGames.isOn, false);
});

test("both boards of a pair are one's own", async () => {
  const { session, games } = lobbyOf("Dan", [1, 2]);
  const other = { ranks: OPENING[0].split(" ").slice(1, 9).join("/"), side: "W", move: 1 };
  await session.answer(false, "refused 55 AlreadyWatching", "{Game 1 (Ann vs. Ben) Creating 5 0 bughouse match.}",
    "{Game 2 (Dan vs. Cat) Creating 5 0 bughouse match.}", line({ ...other, relation: 0 }),
    line({ ...other, game: 2, white: "Dan", black: "Cat" }));
  assert.equal(games.shown?.number, 2);
  assert.deepEqual([1, 2].map((it) => games.byNumber.get(it)?.places.size), [1, 1]);
});
