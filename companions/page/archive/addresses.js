/** The addresses below `/games/`, which others can be sent: what each is of, and those of what is shown. */

export const TOP = "/games/";
const LINK = /^(\d{4}-\d\d-\d\d)\/([1-9]\d*)$/;
const DAY = /^\d{4}-\d\d-\d\d$/;
const PLAYER = /^player\/([^/]+)$/;
const LADDER = /^ladder\/([a-z]+)$/;

/** @param {string} text */
function decoded(text) {
  try {
    return decodeURIComponent(text);
  } catch {
    return text;
  }
}

/** What a path is of, { kind, link, day or name }, where kind is games, day, player, ladder, game, or nothing.
 * @param {string} path
 * @returns {Address} */
export function placeOf(path) {
  const rest = path.startsWith(TOP) ? path.slice(TOP.length) : "?";
  const player = PLAYER.exec(rest);
  const ladder = LADDER.exec(rest);
  return rest === "" ? { kind: "games" } : DAY.test(rest) ? { kind: "day", day: rest }
    : LINK.test(rest) ? { kind: "game", link: rest }
      : player ? { kind: "player", name: decoded(player[1]) }
        : ladder ? { kind: "ladder", name: ladder[1] } : { kind: "" };
}

/** Where what a page shows is asked for.
 * @param {string} path @param {string} search */
export function dataOf(path, search) {
  return `${path === TOP ? `${TOP}found` : path}.json${search}`;
}

/** @param {string} link */
export function gameAddress(link) {
  return TOP + link;
}

/** @param {string} link */
export function pgnAddress(link) {
  return `${TOP}${link}.pgn`;
}

/** @param {string} name */
export function playerAddress(name, variant = "") {
  return `${TOP}player/${encodeURIComponent(name)}${variant && `?variant=${encodeURIComponent(variant)}`}`;
}

/** @param {string} pool */
export function ladderAddress(pool) {
  return `${TOP}ladder/${pool}`;
}

/** The same page with the games before one.
 * @param {string} path @param {string} search @param {string} link */
export function olderAddress(path, search, link) {
  const asked = new URLSearchParams(search);
  asked.set("before", link);
  return `${path}?${asked}`;
}

/** Where the game is that two have just ended.
 * @param {Game} game */
export function lastAddress(game) {
  const { white, black, last, end } = game;
  return `${TOP}last?${new URLSearchParams({ white, black, result: end?.result ?? "", "half-moves": String(last) })}`;
}
