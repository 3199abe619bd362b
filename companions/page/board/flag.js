/** The opponent's flag: where the member has it so it is called as soon as the time is over, and else its button says
 * so. The server knows better when that is, since it charges no time of the network. */

import { byId } from "../shell/elements.js";

const EVERY = 250; // milliseconds
const RESTS = 1500; // between two calls, where the server counts some time as left

export class Flag {
  /** @param {Games} games @param {Play} play @param {Preferences} preferences */
  constructor(games, play, preferences) {
    this.games = games;
    this.play = play;
    this.preferences = preferences;
    this.calledAt = -RESTS;
    setInterval(() => this.look(), EVERY);
  }

  look() {
    const { shown } = this.games;
    byId("flag").classList.toggle("strong", Boolean(shown && this.hasFallen(shown)));
    const fallen = this.games.running.find((it) => this.hasFallen(it));
    if (fallen && this.preferences.get("flag") && performance.now() - this.calledAt > RESTS) {
      this.calledAt = performance.now();
      this.play.callFlag(fallen);
    }
  }

  /** @param {Game} game */
  hasFallen(game) {
    const opponent = game.role === "mine" && !game.isOver && game.colourOf(game.otherThan(this.play.me));
    const isThinking = opponent && game.place && game.isTicking && game.toMove === opponent;
    return Boolean(isThinking && (game.left(opponent) ?? 1) <= 0);
  }
}
