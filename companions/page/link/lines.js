/** The server's texts to events, by the tables of docs/CLIENTS.md. Each row knows a text by its whole form; what
 * fits no row is `unknown`. An event has its `kind`, the line's `text`, and the fields that the row names. */

import { boardOf } from "./board_line.js";
import { REFUSALS } from "./refusals.js";
import { TERMS, Terms } from "../game/terms.js";

export const PROMPTS = ["login: ", "password: ", "fics% "];

const HANDLE = "[A-Za-z]{3,17}";
const NUMBER = "(?:0|[1-9]\\d*)";
const VARIANT = "(?:chess|crazyhouse|bughouse|fischer \\d+)";
const PLAIN_TERMS = `(?<terms>${NUMBER} ${NUMBER} ${VARIANT})`;
const WHO = `(?<who>${HANDLE})`;
const N = `(?<n>${NUMBER})`;
const OFFERED = `(?<terms>${TERMS})`;
const SAID = "(?<said>.+)";
const PLAYERS = `(?<white>${HANDLE}) (?<black>${HANDLE})`;
const GAME = `\\{Game (?<game>${NUMBER}) \\((?<white>${HANDLE}) vs\\. (?<black>${HANDLE})\\)`;
const DRAWN = "drawn by (?:stalemate|agreement|the 50 move rule|repetition|time)";
const LOST = `(?<loser>${HANDLE}) (?:checkmated|resigns|forfeits on time|forfeits by disconnection)`;

/** What a command prints of its own. */
const REPLIES = [
  ["refused", `refused ${N} (?<name>\\w+)`],
  ["ok", "Ok\\."],
  ["asked", "Asked\\."],
  ["heard", `\\(told ${N}\\)`],
  ["seek-made", `Your seek is ${N}\\.`],
  ["entered", `Entered as ${WHO}\\.`],
  ["opening", "Free Internet Chess Server profile"],
];

/** What the commands print that ask for a list: its lines mean nothing without the command. */
const LISTS = {
  who: [["player", WHO]],
  inchannel: [["empty", "none"], ["player", WHO]],
  sought: [["empty", "none"], ["sought", `${N} ${WHO} ${OFFERED}`]],
  games: [["empty", "none"], ["game", `(?<game>${NUMBER}) ${PLAYERS} ${PLAIN_TERMS}`]],
  pending: [["empty", "none"], ["pending-from", `from ${WHO} ${OFFERED}`], ["pending-to", `to ${WHO} ${OFFERED}`]],
  stored: [["empty", "none"], ["stored", `${N} ${PLAYERS} ${PLAIN_TERMS}`],
    ["stored-pair", `${N} ${PLAYERS} (?<third>${HANDLE}) (?<fourth>${HANDLE}) ${PLAIN_TERMS}`]],
};

const NEWS = [
  ["challenge", `Challenge: ${WHO} ${OFFERED}`],
  ["challenge-declined", `${WHO} declines your challenge\\.`],
  ["seeking", `${WHO} seeking ${OFFERED} \\("play ${N}" to respond\\)`],
  ["resume-asked", `${WHO} asks to resume\\.`],
  ["creating", `${GAME} Creating ${PLAIN_TERMS} match\\.\\}`],
  ["continuing", `${GAME} Continuing ${PLAIN_TERMS} match\\.\\}`],
  ["board", "<12> .+"],
  ["hands", `<b1> game (?<game>${NUMBER}) white \\[(?<whiteHand>P*N*B*R*Q*)\\] black \\[(?<blackHand>P*N*B*R*Q*)\\]`
    + "(?: <- (?<came>[PNBRQ]))?"],
  ["text-turn", `(?<side>[WB]) to move, game (?<game>${NUMBER}), `
    + "White (?<whiteLeft>-?\\d+), Black (?<blackLeft>-?\\d+), last (?<last>\\S+)"],
  ["offer-draw", `${WHO} offers a draw\\.`],
  ["offer-abort", `${WHO} offers to abort\\.`],
  ["offer-adjourn", `${WHO} offers to adjourn\\.`],
  ["offer-takeback", `${WHO} offers to take back ${N}\\.`],
  ["declines", `${WHO} declines\\.`],
  ["taken-back", `${N} taken back\\.`],
  ["lost", `${GAME} (?<reason>${LOST})\\} (?<result>1-0|0-1)`],
  ["drawn", `${GAME} (?<reason>${DRAWN})\\} (?<result>1/2-1/2)`],
  ["stopped", `${GAME} (?<reason>aborted|adjourned)\\} (?<result>\\*)`],
  ["pair-ended", `${GAME} (?<reason>partner's game ended)\\} (?<result>1-0|0-1|1/2-1/2|\\*)`],
  ["kibitz", `${WHO} kibitzes: ${SAID}`],
  ["tell", `${WHO} tells you: ${SAID}`],
  ["channel-tell", `${WHO}\\(${N}\\): ${SAID}`],
  ["shout", `${WHO} shouts: ${SAID}`],
  ["partner-tell", `${WHO} \\(your partner\\) tells you: ${SAID}`],
  ["partner-asked", `${WHO} offers to be your partner\\.`],
  ["partners", `You are now the partner of ${WHO}\\.`],
  ["parted", `${WHO} is no longer your partner\\.`],
  ["goodbye", "Goodbye\\."],
];

/** What the go-between says itself, in place of an answer or of what it has left out. */
const GO_BETWEENS = [
  ["hushed", `Not said, since that is more than others can read: another line in ${N} seconds\\.`],
  ["left-out", `\\(${N} lines? of talk left out\\)`],
];

const RANKS = [["text-rank", "(?<rank>[pnbrqkPNBRQK-]{8})"]];
const NUMERIC = new Set(["n", "game", "whiteLeft", "blackLeft"]);

/** @param {string[][]} rows
 * @returns {[LineKind, RegExp][]} */
function compiled(rows) {
  return rows.map(([kind, form]) => [/** @type {LineKind} */ (kind), new RegExp(`^${form}$`)]);
}

const GENERAL = compiled([...REPLIES, ...NEWS, ...GO_BETWEENS]);
const BY_COMMAND = Object.fromEntries(Object.entries(LISTS).map(([name, rows]) => [name, compiled(rows)]));
const REST = compiled(RANKS);

/** What holds besides the form: a refusal's name is that of its number, terms are within their bounds, a board line
 * has its fields, and who loses plays. */
/** @type {Record<string, (event: any) => boolean>} the event has the fields of its row */
const HOLDS = {
  refused: (event) => REFUSALS.get(event.n)?.name === event.name,
  board: (event) => event.board !== null,
  lost: (event) => (event.loser === event.white ? "0-1" : event.loser === event.black ? "1-0" : "") === event.result,
};

/** @param {LineKind} kind @param {RegExpExecArray} match @param {string} text
 * @returns {LineEvent | null} */
function read(kind, match, text) {
  /** @type {any} its fields are those that the row names */
  const event = { kind, text };
  for (const [name, value] of Object.entries(match.groups ?? {})) {
    event[name] = value !== undefined && NUMERIC.has(name) ? Number(value) : value;
  }
  if (event.terms) {
    event.terms = Terms.parsed(event.terms);
  }
  if (kind === "board") {
    event.board = boardOf(text);
  }
  const holds = event.terms !== null && (HOLDS[kind]?.(event) ?? true);
  return holds ? event : null;
}

/** @param {[LineKind, RegExp][]} rows @param {string} text */
function firstOf(rows, text) {
  for (const [kind, form] of rows) {
    const match = form.exec(text);
    const event = match && read(kind, match, text);
    if (event) {
      return event;
    }
  }
  return null;
}

/** The event of a line, which may stand in the answer to that command.
 * @param {string} text
 * @returns {LineEvent} */
export function eventOf(text, command = "") {
  return firstOf(GENERAL, text) ?? firstOf(BY_COMMAND[command] ?? [], text) ?? firstOf(REST, text)
    ?? { kind: "unknown", text };
}
