/** Games as PGN and pairs as BPGN, as `fics_scribe` writes them: read, and nothing of the rules. */

const TAG = /^\[(\w+) "((?:[^"\\]|\\.)*)"\]$/gm;
const WORD = /\{([^}]*)\}|(\d+)(\.+)|(\S+)/g;
const TIME = /^(\d+):([0-5]\d):([0-5]\d)$/;
const RESULTS = ["1-0", "0-1", "1/2-1/2", "*"];
const OF_PAIR = /\{[^}]*\}|\b\d+([ABab])\.\s+(\S+?)(?=[\s{])/g;

/** The tags by their names.
 * @param {string} text */
export function tagsOf(text) {
  return Object.fromEntries([...text.matchAll(TAG)].map(([, name, value]) => [name, value.replace(/\\(.)/g, "$1")]));
}

/** The seconds of `h:mm:ss`, or null.
 * @param {string | undefined} text */
function secondsOf(text) {
  const [, hours, minutes, seconds] = TIME.exec(text ?? "") ?? [];
  return hours === undefined ? null : 3600 * Number(hours) + 60 * Number(minutes) + Number(seconds);
}

/** @param {string} comment @param {string} name */
function commandOf(comment, name) {
  return secondsOf(new RegExp(`\\[%${name} ([^\\]]*)\\]`).exec(comment)?.[1]);
}

/** A game: its tags, its half-moves as { short, took, left } with seconds or null, the words with which it ended, and
 * its result.
 * @param {string} text */
export function gameOf(text) {
  const tags = tagsOf(text);
  /** @type {ReadHalfMove[]} */
  const halfMoves = [];
  let reason = "";
  for (const [, comment, , dots, word] of text.slice(text.indexOf("\n\n")).matchAll(WORD)) {
    const last = halfMoves.at(-1);
    if (comment === undefined && !dots && !RESULTS.includes(word)) {
      halfMoves.push({ short: word, took: null, left: null });
    } else if (comment?.includes("[%") && last) {
      last.took = commandOf(comment, "emt");
      last.left = commandOf(comment, "clk");
    } else if (comment !== undefined) {
      reason = comment;
    }
  }
  return { tags, halfMoves, reason, result: RESULTS.includes(tags.Result) ? tags.Result : "*" };
}

/** The clock's start and what a half-move adds, in seconds, of the tag TimeControl; null without clocks. */
export function controlOf(text = "-") {
  const [, start, increment = "0"] = /^(\d+)(?:\+(\d+))?$/.exec(text) ?? [];
  return start === undefined ? null : { start: Number(start), increment: Number(increment) };
}

/** The half-moves of a pair in their order: of each its board, A or B, and its form.
 * @param {string} bpgn */
export function orderOf(bpgn) {
  const movetext = bpgn.slice(bpgn.indexOf("\n\n"));
  return [...movetext.matchAll(OF_PAIR)].filter(([, board]) => board)
    .map(([, board, short]) => ({ board: board.toUpperCase(), short }));
}
