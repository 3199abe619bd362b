/** A game as PGN, the common text for games: who played, how it ended, and each half-move with the clock behind it and
 * the time that it took. */

import { fenOf } from "./fen.js";

const WIDEST = 80;
const LEAST_CLOCK = 10; // seconds that a clock without minutes begins with
/** @type {Record<string, string>} */
const VARIANTS = { crazyhouse: "Crazyhouse", bughouse: "Bughouse", fischer: "Chess960" };
const NO_DATE = "????.??.??";

/** @param {number} number */
function two(number) {
  return String(number).padStart(2, "0");
}

/** Seconds as h:mm:ss; below 0 the time was over.
 * @param {number} seconds */
function timeOf(seconds) {
  const whole = Math.max(0, seconds);
  return `${Math.floor(whole / 3600)}:${two(Math.floor(whole / 60) % 60)}:${two(whole % 60)}`;
}

/** The seconds of `(m:ss)`.
 * @param {string} took */
function secondsOf(took) {
  const [minutes, seconds] = took.slice(1, -1).split(":").map(Number);
  return 60 * minutes + seconds;
}

/** @param {Date | null} date */
function dateOf(date) {
  return date ? `${date.getFullYear()}.${two(date.getMonth() + 1)}.${two(date.getDate())}` : NO_DATE;
}

/** @param {Terms} terms */
function timeControl(terms) {
  return terms.isTimed ? `${60 * terms.minutes || LEAST_CLOCK}+${terms.increment}` : "-";
}

/** @param {End | null} end */
function termination(end) {
  if (!end || end.result === "*") {
    return "unterminated";
  }
  return end.reason.includes("on time") || end.reason === "drawn by time" ? "time forfeit"
    : end.reason.includes("disconnection") ? "abandoned" : "normal";
}

/** The tags of a game whose first known place is given.
 * @param {Game} game @param {Place} first @param {string} site */
function tagsOf(game, first, site) {
  const [variant] = game.terms.variant.split(" ");
  const isUsual = first.board.ply === 0 && variant !== "fischer";
  return [
    ["Event", "Casual game"], ["Site", site], ["Date", dateOf(first.board.ply === 0 ? game.began : null)],
    ["Round", "-"], ["White", game.white], ["Black", game.black], ["Result", game.end?.result ?? "*"],
    ["TimeControl", timeControl(game.terms)], ["Termination", termination(game.end)],
    ...(variant in VARIANTS ? [["Variant", VARIANTS[variant]]] : []),
    ...(isUsual ? [] : [["SetUp", "1"], ["FEN", fenOf(first.board, game.terms.variant, first.hands)]]),
  ];
}

/** A half-move's words: its number, its form, and what the clock says.
 * @param {Place} place @param {boolean} isTimed */
function wordsOf({ board }, isTimed) {
  const number = Math.ceil(board.ply / 2);
  const words = [board.ply % 2 ? `${number}.` : `${number}...`, board.short];
  if (isTimed) {
    const colour = board.side === "w" ? "b" : "w";
    words.push(`{[%clk ${timeOf(board.clocks[colour] ?? 0)}]`, `[%emt ${timeOf(secondsOf(board.took))}]}`);
  }
  return words;
}

/** @param {string[]} words */
function wrapped(words) {
  const lines = [""];
  for (const word of words) {
    const line = lines.at(-1);
    if (line && line.length + 1 + word.length >= WIDEST) {
      lines.push(word);
    } else {
      lines[lines.length - 1] = line ? `${line} ${word}` : word;
    }
  }
  return lines.join("\n");
}

/** The PGN of a game, from the first half-move on that is known with all behind it. `site` says where it was played.
 * @param {Game} game @param {string} site */
export function pgnOf(game, site) {
  const places = game.known;
  const tags = tagsOf(game, places[0], site).map(([name, value]) => `[${name} "${value}"]`);
  const words = places.slice(1).flatMap((it) => wordsOf(it, game.terms.isTimed));
  if (game.end) {
    words.push(...`{${game.end.reason}}`.split(" "));
  }
  words.push(game.end?.result ?? "*");
  return `${tags.join("\n")}\n\n${wrapped(words)}\n`;
}

/** The name of a game's file.
 * @param {Game} game */
export function fileName(game) {
  const date = dateOf(game.began).replaceAll(".", "-").replaceAll("?", "");
  return [game.white, game.black, ...(game.began ? [date] : [])].join("-") + ".pgn";
}
