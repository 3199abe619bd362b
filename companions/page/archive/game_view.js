/** A game of the archive at the page's own board: back and forth in it, its PGN, and what stands beside it. */

import { Keys } from "../board/keys.js";
import { MovesList } from "../board/moves_list.js";
import { byId, onClick } from "../shell/elements.js";
import { copyPgn } from "../board/pgn_view.js";
import { Table } from "../board/table.js";
import { onLanguage, t } from "../shell/texts.js";
import { endInWords } from "../game/state_words.js";
import { gameAddress, pgnAddress, TOP } from "./addresses.js";
import { archivedGame, archivedPair } from "./game.js";
import { ratedInWords } from "./rating_view.js";
import { dayInWords, playerLink, resultOf } from "./rows.js";
import { listenForSwipes } from "./swipe.js";

/** The half-move that the address names behind its #, or nothing. */
function plyOfAddress() {
  const [, ply] = /^#(\d{1,4})$/.exec(location.hash) ?? [];
  return ply === undefined ? null : Number(ply);
}

/** @param {"pair" | "earlier" | "later"} id @param {string | null} address */
function setLink(id, address) {
  byId(id).hidden = !address;
  byId(id).href = address || TOP;
}

export class GameView {
  /** @param {string} link @param {ArchivedText} told */
  constructor(link, told) {
    this.link = link;
    this.told = told;
    const [game, beside] = this.read();
    this.game = game;
    this.beside = beside;
    byId("game-view").hidden = false;
    document.body.dataset.shown = "game";
    this.main = new Table(byId("main-table"), "main");
    this.partner = new Table(byId("partner-table"), "partner");
    byId("partner-table").hidden = !this.beside;
    this.moves = new MovesList({ shown: this.game }, () => this.went());
    new Keys((step) => this.moves.step(step));
    ["main-table", "partner-table"].forEach((it) => listenForSwipes(byId(it), (step) => this.moves.step(step)));
    onClick("turn", () => {
      this.main.turn();
      this.show();
    });
    onClick("pgn-copy", () => copyPgn(told.pgn));
    this.lookAtAddress();
    window.addEventListener("hashchange", () => {
      this.lookAtAddress();
      this.show();
    });
    onLanguage(() => this.rename());
    this.rename();
  }

  /** The game, and of a pair the other one too.
   * @returns {[ArchivedGame, ArchivedGame | null]} */
  read() {
    const { pgn, pair } = this.told;
    return pair?.bpgn ? archivedPair({ link: this.link, pgn }, pair, pair.bpgn) : [archivedGame(this.link, pgn), null];
  }

  lookAtAddress() {
    const ply = plyOfAddress();
    if (ply !== null) {
      this.game.look(ply);
    }
  }

  /** Another place was chosen: it is shown and spoken, and the address leads to it. */
  went() {
    const { game } = this;
    const { ply, short } = game.shown.board;
    history.replaceState(null, "", `${location.pathname}${location.search}#${ply}`);
    byId("spoken").textContent = short === "none" ? t("moves.first")
      : t("moves.one", { move: Math.ceil(ply / 2), colour: t(ply % 2 ? "white" : "black"), short });
    this.show();
  }

  show() {
    const { game, beside } = this;
    this.main.show(game);
    if (beside) {
      beside.showAt(game.shown.beside ?? null);
      this.partner.show(beside, !this.main.blackBelow);
    }
    byId("hands-unknown").hidden = !game.terms.hasHands || game.shown.hands !== null;
    this.moves.show(game);
  }

  /** Names all that is shown, in the language that is spoken. */
  rename() {
    const { game, told, link } = this;
    const names = `${game.white} – ${game.black}`;
    const [day] = link.split("/");
    [this.main, this.partner].forEach((it) => it.rename());
    this.moves.rename();
    document.title = `${names}, ${dayInWords(day)}`;
    byId("game-title").textContent = `${names}, ${resultOf(game.end.result)}`;
    byId("who").replaceChildren(playerLink(game.white), " – ", playerLink(game.black));
    byId("facts").textContent = [game.terms.inWords(), dayInWords(day), game.tags.Time?.slice(0, 5)]
      .filter(Boolean).join(", ");
    byId("status").textContent = endInWords(game);
    byId("rated").textContent = ratedInWords(told.rated);
    byId("rated").hidden = !told.rated;
    byId("cut-off").hidden = !game.isCutOff;
    byId("pgn-save").href = pgnAddress(link);
    byId("of-day").href = TOP + day;
    byId("of-day").textContent = t("archive.of-day", { day: dayInWords(day) });
    setLink("pair", told.pair && gameAddress(told.pair.link));
    setLink("earlier", told.earlier && gameAddress(told.earlier));
    setLink("later", told.later && gameAddress(told.later));
    this.show();
  }
}
