/** What is left to do with a game: another one with the same opponent, and its PGN. */

import { byId, onClick } from "../shell/elements.js";
import { listenForPgn } from "./pgn_view.js";
import { rematchLine } from "../game/rematch.js";
import { t } from "../shell/texts.js";

export class AfterGame {
  /** @param {Session} session @param {Games} games */
  constructor(session, games) {
    this.session = session;
    this.games = games;
    /** @type {{ who: string, terms: Terms }[]} */
    this.challenges = []; // to the member: { who, terms }
    session.on("challenge", (event) => {
      this.challenges.push(event);
      this.show(games.shown);
    });
    session.onAnswer((answer) => this.take(answer));
    onClick("rematch", () => games.shown && session.act(this.line(games.shown)));
    listenForPgn(games);
  }

  /** @param {Answer} answer */
  take(answer) {
    if (answer.command === "pending" && answer.isDone) {
      this.challenges = answer.all("pending-from");
      this.show(this.games.shown);
    }
  }

  /** @param {Game} game */
  line(game) {
    return rematchLine(game, this.session.me, this.challenges);
  }

  /** @param {Game | null} game */
  show(game) {
    const isOver = game?.role === "mine" && game.isOver;
    byId("rematch").hidden = !isOver;
    if (game && isOver) {
      byId("rematch").textContent = t(this.line(game).startsWith("accept") ? "act.rematch-accept" : "act.rematch");
    }
  }
}
