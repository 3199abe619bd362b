/** What is spelled as a move, what costs a game, what is a password. The tables of spellings are
 * those of the server's own tests, `test_word/src/spellings.rt`. */

import assert from "node:assert/strict";
import test from "node:test";

import { page } from "./page.mjs";

const { isMoveWord } = await page("game/moves.js");
const { isPassword, passwordOf } = await page("member/passwords.js");
const { dialogFor } = await page("game/costly.js");
const { isOfBoard } = await page("shell/complaints.js");

const MOVES = ["e2e4", "e2-e4", "a1h8", "e7e8q", "e7e8=Q", "e7-e8N", "b7-a8=b", "e8b1", "e4", "Pe4", "exd5", "ed5+",
  "bxc3", "Bxc3", "Nbd2", "R1a3", "Qh4xe1#", "Kg1", "e2e4+", "e2xe4", "e8=Q", "e8b", "dxe8r#", "O-O", "o-o+", "0-0#",
  "O-O-O", "o-o-o", "0-0-0+", "P@e4", "n@f7#", "b@a1", "q@h8+"];
const OTHERS = ["", "e", "4", "e9", "i4", "e2e4 ", " e2e4", "E2E4", "e2--e4", "e2 e4", "e7e8k", "e7e8p", "e7e8==q",
  "e7-e8=", "e4++", "e4=", "xe", "nf3", "nf3+", "kxe4", "O-0", "o-O", "O-O-", "O-O-O-O", "OO", "O-O++", "K@e4", "k@e4",
  "P@", "P@e9", "P@e4=Q", "resign", "q", "quit", "d", "draw", "a", "abort"];

test("moves are moves", () => MOVES.forEach((it) => assert.equal(isMoveWord(it), true, it)));
test("nothing else is", () => OTHERS.forEach((it) => assert.equal(isMoveWord(it), false, it)));

test("a password has no blanks at its ends, and keeps those within", () => {
  [["secret", true], ["my  secret", true], [" secret", false], ["secret ", false], [" ", false], ["", false]]
    .forEach(([text, isOne]) => assert.equal(isPassword(text), isOne, `"${text}"`));
  [["register my  secret ", "my  secret "], ["register  x", " x"], [" reg x", "x"], ["register", ""]]
    .forEach(([line, password]) => assert.equal(passwordOf(line), password, line));
});

test("what costs a game is asked about, while one is played", () => {
  [["q", "leave-ask"], ["quit", "leave-ask"], ["QUIT", "leave-ask"], ["resign", "resign-ask"], ["resume Ben", ""],
    ["draw", ""], ["e4", ""], ["re", ""]]
    .forEach(([line, dialog]) => assert.equal(dialogFor(line, true), dialog, line));
  assert.equal(dialogFor("quit", false), "");
});

test("refusals of the board go with the next one", () => {
  [[11, true], [9, true], [17, true], [20, false], [32, false], [24, false]]
    .forEach(([number, isOne]) => assert.equal(isOfBoard(number), isOne, String(number)));
});
