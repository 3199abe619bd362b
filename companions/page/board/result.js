/** How the game on the board ended, upon the board, until it is clicked or one looks back. */

import { element } from "../shell/elements.js";
import { capital, reasonInWords } from "../game/state_words.js";

/** @type {Record<string, string>} */
const SCORES = { "1-0": "1 – 0", "0-1": "0 – 1", "1/2-1/2": "½ – ½" };

export class Result {
  /** @param {Board} board */
  constructor(board) {
    /** @type {End | null} */
    this.end = null; // that is told, or was clicked away
    this.score = element("b");
    this.reason = element("span");
    this.root = element("div", "result");
    this.root.hidden = true;
    this.root.setAttribute("aria-hidden", "true"); // it is spoken, and stands beside the board
    this.root.append(this.score, this.reason);
    this.root.addEventListener("click", () => { this.root.hidden = true; });
    board.lay(this.root);
  }

  /** @param {Game} game */
  show(game) {
    const { end, looking } = game;
    if (!end || looking !== null) {
      this.root.hidden = true;
      this.end = end && this.end;
    } else if (end !== this.end) {
      this.end = end;
      this.score.textContent = SCORES[end.result] ?? "";
      this.reason.textContent = capital(reasonInWords(end.reason));
      this.root.hidden = false;
    }
  }
}
