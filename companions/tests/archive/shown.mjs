/** What the page shows of games of the archive: for each row of JSON that it reads, { link, pgn, pair }, it prints one
 * with the places of the game, and of a pair with what stands at the other board. */

import { createInterface } from "node:readline";

import { page } from "../page/modules/page.mjs";

const { archivedGame, archivedPair } = await page("archive/game.js");

function boardOf({ men, hands, board }) {
  const letters = Array.from("87654321", (rank) => Array.from("abcdefgh", (file) => {
    const man = men[file + rank];
    return man ? (man[0] === "w" ? man[1] : man[1].toLowerCase()) : "-";
  }).join(""));
  const sorted = (held) => [...held].sort().join("");
  return { ranks: letters.join(" "), side: board.side, clocks: board.clocks,
    hands: hands && [sorted(hands.w), sorted(hands.b)] };
}

for await (const line of createInterface({ input: process.stdin })) {
  const { link, pgn, pair } = JSON.parse(line);
  const game = pair ? archivedPair({ link, pgn }, pair, pair.bpgn)[0] : archivedGame(link, pgn);
  const places = [...game.places].map(([ply, it]) => ({
    ply, ...boardOf(it), beside: it.beside && boardOf(it.beside),
  }));
  console.log(JSON.stringify({ places, isCutOff: game.isCutOff, variant: game.terms.variant, end: game.end }));
}
