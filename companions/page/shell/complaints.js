/** Refusals in words, each until it no longer holds: those of a move or an act at the board until another board is
 * there, and all of them until the member has done something. */

import { forgetNotice, tellMember } from "./elements.js";
import { inWords } from "../link/refusals.js";
import { t } from "./texts.js";

const REFUSAL = "refusal";
const LAST_OF_BOARD = 17; // the numbers up to it are those of boards

/** Whether a refusal of that number is one of the position that stood.
 * @param {number} number */
export function isOfBoard(number) {
  return number <= LAST_OF_BOARD;
}

/** @param {Session} session */
export function listenForRefusals(session) {
  let shown = 0;
  session.on("complaint", ({ n }) => {
    shown = n;
    tellMember(inWords(n), REFUSAL);
  });
  session.on("hushed", ({ n }) => tellMember(t("talk.hushed", { n }), REFUSAL));
  session.on("settled", () => forgetNotice(REFUSAL));
  session.on(["board", "lost", "drawn", "stopped", "pair-ended"], () => {
    if (isOfBoard(shown)) {
      forgetNotice(REFUSAL);
    }
  });
}
