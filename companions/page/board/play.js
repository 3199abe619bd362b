/** What a member does at a board, as lines: moves, drops, promotions, premoves, and acts. */

import { commandOf } from "../link/commands.js";
import { askingFirst, dialogFor } from "../game/costly.js";
import { isMoveWord, isPromotion, wordOf } from "../game/moves.js";
import { ask, byId, onClick, onSubmit, tellMember } from "../shell/elements.js";
import { premoveWord, squaresFor } from "../game/premove.js";
import { t } from "../shell/texts.js";

export class Play {
  /** `premoved` is called with a game whose premove is another one.
   * @param {Session} session @param {Games} games @param {Simul} simul @param {Preferences} preferences
   * @param {(game: Game) => void} premoved */
  constructor(session, games, simul, preferences, premoved) {
    this.session = session;
    this.games = games;
    this.simul = simul;
    this.preferences = preferences;
    this.premoved = premoved;
    onClick("resign", () => games.shown && this.askToResign(games.shown));
    onSubmit("move-form", () => this.type());
  }

  /** The member's name. */
  get me() {
    return this.session.me;
  }

  /** @param {Game} game */
  isTurn(game) {
    return game.nameOf(game.toMove) === this.session.me;
  }

  /** A move of the mouse or the keyboard at the board, from a place with a `square` or the kind to `drop`.
   * `becomes(colour, square)` asks what a pawn becomes there.
   * @param {Game} game @param {Spot} from @param {Spot} to @param {Becomes} becomes */
  move(game, from, to, becomes) {
    const men = game.place?.men ?? {};
    const [start = "", end = ""] = [from.square, to.square];
    const move = { from: from.square, drop: from.drop, to: end, man: men[start], promotion: "" };
    const colour = game.colourOf(this.session.me);
    if (!colour || from.drop || !isPromotion(men, start, end) || this.preferences.get("queen")
      || !squaresFor(game, colour, from).includes(end)) {
      this.put(game, move);
    } else {
      becomes(colour, end).then((kind) => kind && this.put(game, { ...move, promotion: kind }));
    }
  }

  /** Plays a move, or where it isn't the member's turn keeps it for then.
   * @param {Game} game @param {Premove} move */
  put(game, move) {
    if (this.isTurn(game) || game.isOver || !this.preferences.get("premoves")) {
      this.act(game, wordOf(game.place?.men ?? {}, move));
    } else {
      game.wait(move);
      this.premoved(game);
    }
  }

  /** Takes back what waits for the member's turn.
   * @param {Game} game */
  withdraw(game) {
    game.wait(null);
    this.premoved(game);
  }

  /** A board was told: what waits for it is played where it is allowed now, and else dropped.
   * @param {Game | null} game @param {Happened} event */
  told(game, event) {
    if (event.kind !== "board" || !event.isNew || !game?.premove) {
      return;
    }
    if (this.isTurn(game)) {
      const colour = game.colourOf(this.session.me);
      const word = event.isHalfMove && colour ? premoveWord(game, colour) : "";
      game.wait(null);
      if (word) {
        this.act(game, word);
      }
    }
  }

  /** A game is given up once the member has said so again.
   * @param {Game} game */
  askToResign(game) {
    ask("resign-ask", () => this.act(game, "resign"));
  }

  /** Calls the flag of the opponent, and says nothing where there is some time left. In a simul that is done for the
   * board that is shown alone: the member is about to move at another one.
   * @param {Game} game */
  async callFlag(game) {
    if (!this.simul.isOn || (game === this.games.shown && await this.simul.reach(game))) {
      await this.session.ask("flag");
    }
  }

  /** The field for moves sends moves alone; what would end the game is asked about. */
  type() {
    const field = byId("move");
    const word = field.value.trim();
    const game = this.games.shown;
    if (!word || !game) {
      return;
    }
    if (isMoveWord(word)) {
      field.value = "";
      this.act(game, word);
    } else if (dialogFor(word, true)) {
      field.value = "";
      askingFirst(word, true, () => this.act(game, commandOf(word)));
    } else {
      tellMember(t("move.none", { word }), "refusal");
    }
  }

  /** Sends a line for a game, and gives the answer, or null where it wasn't sent. In a simul a move that is made leads
   * on to the next board.
   * @param {Game | null | undefined} game @param {string} line */
  async act(game, line) {
    const isSimul = this.simul.isOn;
    if (!game || !await this.simul.reach(game)) {
      return null;
    }
    const answer = await this.session.act(line);
    if (answer.isDone && !commandOf(line) && isSimul) {
      await this.simul.showPresent();
    }
    return answer;
  }
}
