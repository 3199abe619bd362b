/** Which lines a page may write down for the one that begins anew: those in which nobody can have typed a password. A
 * line that is no move and no command may be one that was typed at the wrong place, or stand for `register`. */

import { commandOf } from "./commands.js";

const SQUARE = "[a-h][1-8]";
const MOVE = new RegExp(`^(?:${SQUARE}-?${SQUARE}(?:=[qrbn])?|[PNBRQ]@${SQUARE}|[Oo]-[Oo](?:-[Oo])?`
  + `|(?:[NBRQK][a-h]?[1-8]?x?|[a-h]x)?${SQUARE}(?:=[QRBN])?[+#]?)$`);
const SECRET = "register";

/** @param {string} line */
export function mayBeKept(line) {
  const command = commandOf(line);
  return line.trim() === "" || MOVE.test(line.trim()) || command !== "" && command !== SECRET;
}
