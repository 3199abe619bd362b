/** The half-moves that were made before the member came to a game, or before an adjourned one went on: the archive has
 * them, where a scribe keeps the club's games. */

import { eventOf } from "../link/lines.js";

export class Earlier {
  /** `isThere()` says whether there is an archive; `learnt(game)` is called where a game has more half-moves then.
   * @param {() => boolean} isThere @param {(game: Game) => void} learnt */
  constructor(isThere, learnt) {
    this.isThere = isThere;
    this.learnt = learnt;
    /** @type {WeakSet<Game>} */
    this.asked = new WeakSet();
  }

  /** A game was told of.
   * @param {Game | null} game */
  async told(game) {
    if (game?.place && game.knownFrom > 0 && this.isThere() && !this.asked.has(game)) {
      this.asked.add(game);
      const lines = await this.linesOf(game);
      if (lines.length) {
        game.learnEarlier(lines.map((it) => eventOf(it)));
        this.learnt(game);
      }
    }
  }

  /** @param {Game} game
   * @returns {Promise<string[]>} */
  async linesOf({ number, white, black }) {
    try {
      const answer = await fetch(`/games/now/${number}/${white}/${black}.json`);
      return answer.ok ? await answer.json() : [];
    } catch {
      return []; // one looks on from where one came
    }
  }
}
