/** Makes games of random moves, each as a script for `ficsd replay`: `random_games.mjs SEED COUNT` prints a row of
 * JSON for each, { variant, script }. The moves are those that the page shows as allowed; what is none the server refuses. */

import { page } from "../page/modules/page.mjs";
import { shownMoves } from "../page/modules/played_on.mjs";

const legal = await page("game/legal.js");
const { positionOfFen, usualPosition } = await page("archive/fen_read.js");
const { behind, handsWith } = await page("archive/replay.js");
const { arrayOf } = await page("game/fischer.js");

const VARIANTS = ["chess", "crazyhouse", "fischer", "bughouse"];
const MOST = 120; // half-moves of a board
const FEW = 4;
const [seed, count] = process.argv.slice(2).map(Number);

/** Numbers from 0 to 1 that a seed makes (mulberry32). */
function numbers(state) {
  return () => {
    state = (state + 0x6d2b79f5) | 0;
    let n = Math.imul(state ^ (state >>> 15), 1 | state);
    n = (n + Math.imul(n ^ (n >>> 7), 61 | n)) ^ n;
    return ((n ^ (n >>> 14)) >>> 0) / 4294967296;
  };
}

const random = numbers(seed);

function one(list) {
  return list[Math.floor(random() * list.length)];
}

/** The moves of a few men, drawn by lot, or where they have none all moves; those of all men take long to find. */
function someMoves(position) {
  const own = Object.keys(position.men).filter((it) => position.men[it][0] === position.side);
  const drawn = new Set(Array.from({ length: FEW }, () => one(own)));
  const drops = random() < 0.3;
  const moves = shownMoves({
    targets: (it, from) => (drawn.has(from) ? legal.targets(it, from) : []),
    dropTargets: (it, kind) => (drops ? legal.dropTargets(it, kind) : []),
  }, position);
  return moves.length ? moves : shownMoves(legal, position);
}

/** A move, rather one that captures, drops, castles or promotes than another one. */
function chosen(position) {
  const moves = someMoves(position);
  const rare = moves.filter((it) => it.castle || it.drop || it.promotion || position.men[it.to]);
  return rare.length && random() < 0.4 ? one(rare) : one(moves);
}

function wordOf({ from, to, promotion, drop, castle }) {
  return castle ? (castle === "short" ? "O-O" : "O-O-O") : drop ? `${drop}@${to}`
    : from + to + (promotion ? `=${promotion}` : "");
}

function first(variant, number) {
  const row = arrayOf(number);
  const files = ["lastIndexOf", "indexOf"].map((it) => "abcdefgh"[row[it]("R")]).join("");
  return variant !== "fischer" ? usualPosition(variant !== "chess")
    : positionOfFen(`${row.toLowerCase()}/pppppppp/8/8/8/8/PPPPPPPP/${row} w ${files.toUpperCase()}${files} - 0 1`);
}

/** Where a captured man goes. */
function take(boards, at, variant, captured) {
  const goes = variant === "bughouse" ? boards[1 - at] : boards[at];
  const colour = variant === "bughouse" ? captured.colour : captured.colour === "w" ? "b" : "w";
  if (variant === "bughouse" || variant === "crazyhouse") {
    goes.position = { ...goes.position, hands: handsWith(goes.position.hands, colour, captured.kind) };
  }
}

function script(variant) {
  const number = Math.floor(random() * 960);
  const isPair = variant === "bughouse";
  const names = isPair ? "Ann Ben Cat Dan" : "Ann Ben";
  const lines = [`seat ${names} 5 2 ${variant}${variant === "fischer" ? ` ${number}` : ""}`];
  const boards = Array.from({ length: isPair ? 2 : 1 }, () => ({ position: first(variant, number) }));
  let now = 0;
  for (let n = 0; n < MOST * boards.length; n += 1) {
    const at = Math.floor(random() * boards.length);
    const { position } = boards[at];
    const move = chosen(position);
    if (!move) {
      break;
    }
    now += Math.floor(random() * 3000);
    lines.push(`${now} ${2 * at + (position.side === "w" ? 1 : 2)} > ${wordOf(move)}`);
    const step = behind(position, move);
    boards[at].position = step.position;
    if (step.captured) {
      take(boards, at, variant, step.captured);
    }
  }
  lines.push(`${now + 1} 2 > resign`);
  return `${lines.join("\n")}\n`;
}

for (let n = 0; n < count; n += 1) {
  const variant = VARIANTS[n % VARIANTS.length];
  console.log(JSON.stringify({ variant, script: script(variant) }));
}
