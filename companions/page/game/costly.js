/** Lines that end the member's game, or the whole evening: they are asked about first, wherever they are typed. */

import { commandOf } from "../link/commands.js";
import { ask } from "../shell/elements.js";

/** @type {Record<string, DialogId>} */
const ASKS = { quit: "leave-ask", resign: "resign-ask" };

/** The dialog that asks about a line, or nothing where it may be sent at once.
 * @param {string} line @param {boolean} isPlaying */
export function dialogFor(line, isPlaying) {
  return isPlaying ? ASKS[commandOf(line)] ?? "" : "";
}

/** Calls `send` at once, or where the line costs a game once the member has said so again.
 * @param {string} line @param {boolean} isPlaying @param {() => void} send */
export function askingFirst(line, isPlaying, send) {
  const dialog = dialogFor(line, isPlaying);
  if (dialog) {
    ask(dialog, send);
  } else {
    send();
  }
}
