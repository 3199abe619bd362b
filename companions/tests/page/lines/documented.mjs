/** The texts that the server has, read from docs/CLIENTS.md: the table of lines, that of refusals and that of ends. */

import { readFileSync } from "node:fs";

const HANDLE = "[A-Za-z]{3,17}";
const NUMBER = "(?:0|[1-9]\\d*)";
const VARIANT = "(?:chess|crazyhouse|bughouse|fischer \\d{1,3})";
const PLACES = {
  H: HANDLE, W: HANDLE, B: HANDLE, C: HANDLE, D: HANDLE, G: NUMBER, N: NUMBER, M: NUMBER, I: NUMBER, VARIANT,
  TERMS: `${NUMBER} ${NUMBER} ${VARIANT}(?: (?:white|black))?`, TEXT: ".+",
};
const WORDS_OF_PLACES = new RegExp(`\\b(${Object.keys(PLACES).join("|")})\\b`, "g");
const HANDS = "[PNBRQ]*";

/** Refusals that no script can bring, and why. */
export const BEYOND_SCRIPTS = new Map([
  ["refused 13 NothingToClaim", "no command is answered so"],
  ["refused 16 NoSuchOffer", "no command is answered so"],
  ["refused 25 HallFull", "256 people, and a script has 64"],
  ["refused 45 ShelfFull", "10,000 games: a script of a minute; tests/ficslink has them from a store"],
  ["refused 47 AccountsFull", "4,096 accounts, and a script has 64 people"],
  ["refused 54 NotIn", "no session that isn't in makes such an act"],
  ["refused 56 BadByte", "a script has no such bytes"],
]);

/** A kind of text: where it stands in the docs, the form of its lines, and the commands that alone print it. */
class Form {
  constructor(unit, text, pattern, commands = []) {
    this.unit = unit; // the text of the table of lines; several forms may be one unit
    this.text = text;
    this.pattern = new RegExp(`^${pattern}$`);
    this.commands = commands;
    this.hasText = text.includes("TEXT");
    this.isSeen = false;
  }
}

function escaped(text) {
  return text.replace(/[\\^$.*+?()[\]{}|]/g, "\\$&");
}

function patternOf(text) {
  return escaped(text).replace(WORDS_OF_PLACES, (word) => `(${PLACES[word]})`);
}

/** What stands between backquotes. */
function quoted(cell) {
  return [...cell.matchAll(/`([^`]+)`/g)].map((it) => it[1]);
}

/** The rows of the first table behind a heading, as cells. */
function tableBehind(page, heading) {
  const lines = page.slice(page.indexOf(`\n${heading}\n`) + 1).split("\n").slice(1);
  const begin = lines.findIndex((it) => it.startsWith("|"));
  const length = lines.slice(begin).findIndex((it) => !it.startsWith("|"));
  return lines.slice(begin + 2, begin + length).map((it) => it.split("|").slice(1, -1).map((cell) => cell.trim()));
}

function refusals(page, unit) {
  return tableBehind(page, "## Refusals").map(([number, name]) => {
    const text = `refused ${number} ${name}`;
    return new Form(unit, text, escaped(text));
  });
}

/** Of each reason the results that it may have; the partner's game ends as the other one. */
function ends(page, unit) {
  return tableBehind(page, "### The ends of games").flatMap(([reasons, results]) => quoted(reasons).map((reason) => {
    const result = quoted(results).map(escaped).join("|") || "1-0|0-1|1/2-1/2|\\*";
    const text = unit.replace("REASON", reason).replace(" RESULT", "");
    return new Form(unit, text, `${patternOf(text)} (?:${result})`);
  }));
}

function boards(page, unit) {
  const count = Number(/style 12 line: (\d+) fields/.exec(page)[1]);
  return [new Form(unit, unit, `<12>(?: \\S+){${count - 1}}`)];
}

function hands(page, unit) {
  const pattern = patternOf(unit).replaceAll("\\.\\.", HANDS);
  return [new Form(unit, unit, pattern), new Form(unit, `${unit} <- X`, `${pattern} <- [PNBRQ]`)];
}

const OF_SEVERAL = { "refused N Name": refusals, "<12> ...": boards, "<b1> game G white [..] black [..]": hands,
  "{Game G (W vs. B) REASON} RESULT": ends };

/** What is printed as the answer to some commands only says so: of `who` and `inchannel`. */
function commandsOf(says) {
  const [, list] = /^of ((?:`\w+`(?: and )?)+)/.exec(says) ?? [];
  return list ? quoted(list) : [];
}

/** All forms that the page tells. */
export function documentedForms(path) {
  const page = readFileSync(path, "utf8");
  const forms = tableBehind(page, "## The lines that a client parses").flatMap(([texts, says]) =>
    quoted(texts).flatMap((unit) => OF_SEVERAL[unit]?.(page, unit)
      ?? [new Form(unit, unit, patternOf(unit), commandsOf(says))]));
  const [, opening] = /The server opens with `([^`]+)`/.exec(page);
  const [, turn] = /eight ranks, and `([^`]+)`, with S/.exec(page);
  return [
    ...forms, new Form(opening, opening, escaped(opening)),
    new Form(turn, turn, turn.replace(/^S/, "[WB]").replace(" G,", ` (${NUMBER}),`).replace("W,", "(-?\\d+),")
      .replace("B,", "(-?\\d+),").replace(/P$/, "(\\S+)")),
    new Form("the eight ranks", "the eight ranks", "([pnbrqkPNBRQK-]{8})"),
  ];
}
