/** The part of the page with the boards: which games are shown, and what of them. */

import { AfterGame } from "./after_game.js";
import { Away } from "./away.js";
import { Flag } from "./flag.js";
import { Keys } from "./keys.js";
import { MovesList } from "./moves_list.js";
import { showOffers } from "./offers_view.js";
import { byId, element, onClick, onClickAt } from "../shell/elements.js";
import { otherThan } from "../game/legal.js";
import { wordOf } from "../game/moves.js";
import { Table } from "./table.js";
import { t } from "../shell/texts.js";
import { choiceOf, endInWords, headOf, statusOf } from "../game/state_words.js";

const PLAYER_ACTS = /** @type {const} */ (["draw", "takeback", "abort", "adjourn", "flag", "resign", "move",
  "move-send"]);

export class BoardView {
  /** @param {Session} session @param {Games} games @param {Play} play */
  constructor(session, games, play) {
    this.session = session;
    this.games = games;
    /** @type {Game | null} */
    this.begun = null; // the game whose first board is awaited
    this.main = new Table(byId("main-table"), "main", play);
    this.partner = new Table(byId("partner-table"), "partner");
    this.moves = new MovesList(games, () => this.show());
    this.keys = new Keys((step) => this.isInSight && this.moves.step(step));
    this.afterGame = new AfterGame(session, games);
    onClick("turn", () => {
      this.main.turn();
      this.show();
    });
    onClick("close-game", () => this.close());
    byId("takeback-n").addEventListener("input", () => {
      byId("takeback").dataset.command = `takeback ${byId("takeback-n").value || 1}`;
    });
    this.flag = new Flag(games, play, play.preferences);
    this.away = new Away(session, games);
    onClickAt(byId("choices"), "[data-game]", (button) => games.choose(Number(button.dataset.game)));
  }

  /** A game was told of: what changed is shown and, where it is a half-move at the board that is shown, spoken.
   * @param {Game | null} game @param {Happened} event */
  changed(game, event) {
    const isFirst = byId("board").hidden || game === this.begun;
    if (event.kind === "creating" || event.kind === "continuing") {
      this.begun = game;
    }
    if (game && game === this.games.shown) {
      this.speak(game, event);
    }
    this.show();
    if (event.kind === "board" && isFirst && game === this.games.shown) {
      this.begun = null;
      this.appear();
    }
  }

  /** A premove waits now, or none any more: it is shown and spoken.
   * @param {Game} game */
  waits(game) {
    const { premove, place } = game;
    byId("spoken").textContent = premove && place ? t("premove.waits", { move: wordOf(place.men, premove) })
      : t("premove.gone");
    this.show();
  }

  get isInSight() {
    const { top, bottom } = this.main.board.root.getBoundingClientRect();
    return !byId("board").hidden && bottom > 0 && top < window.innerHeight;
  }

  /** A game begins: it comes into sight, and the keyboard to its board unless something is being typed. */
  appear() {
    byId("board").scrollIntoView({ block: "start" });
    if (!document.activeElement?.matches("input, select")) {
      this.main.board.focus();
    }
  }

  /** The last half-move is spoken, and behind it the end of the game.
   * @param {Game} game @param {Happened} event */
  speak(game, event) {
    const { place } = game;
    const isEnd = "result" in event;
    if (place && (isEnd || (event.kind === "board" && event.isHalfMove))) {
      const move = game.last > 0 ? `${game.nameOf(otherThan(place.board.side))}: ${place.board.short}` : "";
      byId("spoken").textContent = isEnd ? `${move}. ${endInWords(game)}` : move;
    }
  }

  show() {
    const game = this.games.shown;
    byId("board").hidden = !game?.place;
    this.afterGame.show(game);
    if (!game?.place) {
      return;
    }
    this.main.show(game);
    const pair = this.games.pairOf(game);
    byId("partner-table").hidden = !pair?.place;
    document.body.toggleAttribute("data-pair", Boolean(pair?.place));
    byId("partner-talk").hidden = pair?.role !== "partner's";
    if (pair?.place) {
      this.partner.show(pair, !this.main.blackBelow);
    }
    byId("status-game").textContent = headOf(game);
    byId("status-now").textContent = statusOf(game, this.session.me);
    byId("status").classList.toggle("over", game.isOver);
    this.moves.show(game);
    this.away.show();
    showOffers(byId("offers"), game, this.session.me);
    this.showActs(game, pair);
    this.showChoices(game, pair);
  }

  /** Names all that is shown anew, in another language. */
  rename() {
    [this.main, this.partner].forEach((it) => it.rename());
    this.moves.rename();
    this.show();
  }

  /** @param {Game} game @param {Game | null} pair */
  showActs(game, pair) {
    const isOpen = game.role === "mine" && !game.isOver;
    for (const id of PLAYER_ACTS) {
      byId(id).disabled = !isOpen;
      byId(id).hidden = !isOpen;
    }
    byId("move-form").hidden = !isOpen;
    byId("takeback-line").hidden = !isOpen || game.terms.isBughouse; // which has no takeback
    byId("flag").disabled ||= !game.terms.isTimed;
    byId("close-game").hidden = game.role === "mine" && !game.isOver;
    byId("close-game").textContent = t(
      game.role === "watched" && !game.isOver ? "act.look-no-longer" : "close");
  }

  /** A button for each game that is seen besides the one that is shown; the boards of a pair are seen together.
   * @param {Game} game @param {Game | null} pair */
  showChoices(game, pair) {
    const others = [...this.games.byNumber.values()].filter((it) => it.place);
    byId("choices").hidden = others.length <= (pair ? 2 : 1);
    const buttons = /** @type {HTMLElement[]} */ ([...byId("choices").children]);
    if (buttons.map((it) => it.dataset.game).join() !== others.map((it) => it.number).join()) {
      byId("choices").replaceChildren(...others.map((it) => this.choiceButton(it)));
    }
    others.forEach((it, n) => {
      const button = byId("choices").children[n];
      button.textContent = choiceOf(it, this.session.me);
      button.setAttribute("aria-pressed", String(it === game));
    });
  }

  /** @param {Game} game */
  choiceButton(game) {
    const button = element("button");
    button.dataset.game = String(game.number);
    return button;
  }

  close() {
    const game = this.games.shown;
    if (!game) {
      return;
    }
    if (game.role === "watched" && !game.isOver) {
      this.session.act(`unobserve ${game.number}`);
      return;
    }
    const pair = this.games.pairOf(game);
    this.games.remove(game);
    if (pair) {
      this.games.remove(pair);
    }
  }
}
