/** Simuls: who gives one has several games, and what is sent is for the present one of them. The page goes to the game
 * that is meant before it sends anything for it, and behind each move shows the game to which the server went on. */

import { byId, onClick } from "../shell/elements.js";
import { onLanguage, t } from "../shell/texts.js";

export class Simul {
  /** @param {Session} session @param {Games} games */
  constructor(session, games) {
    this.session = session;
    this.games = games;
    this.isGiven = false;
    session.onAnswer((answer) => this.note(answer));
    onClick("simnext", () => this.go("simnext"));
    onClick("simprev", () => this.go("simprev"));
    onLanguage(() => this.show());
  }

  get isOn() {
    return this.isGiven && this.games.running.length > 1;
  }

  /** @param {Answer} answer */
  note(answer) {
    if (answer.command === "simopen" && answer.all("ok").length) {
      this.isGiven = !this.isGiven;
      this.show();
    }
  }

  forget() {
    this.isGiven = false;
    this.show();
  }

  show() {
    byId("simul-state").textContent = t(this.isGiven ? "simul.given" : "simul.none");
    byId("simopen").textContent = t(this.isGiven ? "simul.end" : "simul.give");
    byId("simprev").hidden = !this.isGiven;
    byId("simnext").hidden = !this.isGiven;
  }

  /** Makes a game the present one. Whether a line for it can be sent.
   * @param {Game} game */
  async reach(game) {
    if (!this.isOn || game.role !== "mine") {
      return true;
    }
    const answer = await this.session.act(`goboard ${game.otherThan(this.session.me)}`);
    return answer.isDone && !game.isOver;
  }

  /** @param {string} line */
  async go(line) {
    const answer = await this.session.act(line);
    if (answer.isDone) {
      await this.showPresent();
    }
  }

  /** Shows the game that is the present one now. */
  async showPresent() {
    const answer = await this.session.ask("refresh");
    const [board] = answer.all("board");
    if (board) {
      this.games.choose(board.board.game);
    }
  }
}
