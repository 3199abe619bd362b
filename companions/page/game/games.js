/** All games that the page is told of: one's own, the partner's, and those at which one looks on. */

import { boardOf } from "../link/board_line.js";
import { Game, gameOf } from "./game.js";

/** @type {Record<OfferEvent, OfferKind>} */
const OFFERS = {
  "offer-draw": "draw", "offer-abort": "abort", "offer-adjourn": "adjourn", "offer-takeback": "takeback",
};

export class Games {
  /** `changed` is called with a game that was told of, and with the event; `passes(number)` says whether the boards of
   * that number are for the lobby's small boards alone.
   * @param {Session} session @param {GamesListeners} listeners */
  constructor(session, { changed, passes }) {
    this.session = session;
    this.changed = changed;
    this.passes = passes;
    /** @type {Map<number, Game>} */
    this.byNumber = new Map();
    /** @type {Map<number, Happened<'game'>>} */
    this.listed = new Map(); // the server's last list of games
    this.shownNumber = 0;
    this.isTakenBack = false; // the next board is the one behind a takeback
    session.on(["creating", "continuing"], (event) => this.begin(event));
    session.on("game", (event) => this.list(event));
    session.on("board", (event) => this.show(event));
    session.on("hands", (event) => this.hold(event));
    session.on("taken-back", () => { this.isTakenBack = true; });
    session.on(["lost", "drawn", "stopped", "pair-ended"], (event) => this.finish(event));
    session.on(/** @type {OfferEvent[]} */ (Object.keys(OFFERS)), (event) => this.offer(event));
    session.on("declines", (event) => this.decline(event));
    session.onAnswer((answer) => this.take(answer));
    session.onAskedBack((line) => this.begins(line));
  }

  /** The game on the large board. */
  get shown() {
    return this.byNumber.get(this.shownNumber) ?? null;
  }

  get own() {
    return [...this.byNumber.values()].filter((it) => it.role === "mine");
  }

  /** Whether the member has a game that goes on, or looks on at one. */
  get isAtOne() {
    return [...this.byNumber.values()].some((it) => !it.isOver);
  }

  get running() {
    return this.own.filter((it) => !it.isOver);
  }

  /** The other game of a pair.
   * @param {Game} game */
  pairOf(game) {
    const other = this.byNumber.get(game.number % 2 ? game.number + 1 : game.number - 1);
    return game.terms.isBughouse && other?.terms.isBughouse ? other : null;
  }

  /** @param {Game} game
   * @returns {Role} */
  roleOf(game) {
    if (game.colourOf(this.session.me)) {
      return "mine";
    }
    return this.pairOf(game)?.role === "mine" ? "partner's" : "watched";
  }

  /** @param {Game} game */
  put(game) {
    this.byNumber.set(game.number, game);
    game.play(this.roleOf(game));
    const pair = this.pairOf(game);
    if (pair) {
      game.share(pair);
      pair.play(this.roleOf(pair));
    }
    return game;
  }

  /** @param {Happened<'creating' | 'continuing'>} event */
  begin(event) {
    for (const [number, game] of this.byNumber) {
      if (game.isOver && game.role !== "watched") {
        this.byNumber.delete(number);
      }
    }
    const began = event.kind === "creating" ? new Date() : null;
    const game = this.put(new Game(event.game, event.white, event.black, event.terms, began));
    if (game.role === "mine" && (this.running.length < 2 || this.shown?.role !== "mine")) {
      this.shownNumber = game.number;
    }
    this.changed(game, event);
  }

  /** A row of the server's list tells the variant of a game that is looked at.
   * @param {Happened<'game'>} event */
  list(event) {
    const game = this.byNumber.get(event.game);
    if (game && !game.hasTerms && game.white === event.white && game.black === event.black) {
      game.learn(event.terms);
      this.put(game);
      this.changed(game, event);
    }
  }

  /** @param {Happened<'board'>} event */
  show(event) {
    const { board } = event;
    if (this.passes(board.game)) {
      this.isTakenBack = false;
      return;
    }
    let game = this.byNumber.get(board.game);
    if (!game || game.isOver || !game.isOf(board)) {
      game = this.meet(board);
    }
    const before = game.last;
    const isNew = game.add(board, this.isTakenBack);
    const isHalfMove = isNew && before >= 0 && board.ply === before + 1 && !this.isTakenBack;
    if (this.isTakenBack) {
      game.offers.clear();
    } else if (isHalfMove) {
      game.offers.moved(game.nameOf(board.side));
    }
    this.isTakenBack = false;
    this.changed(game, { ...event, isNew, isHalfMove });
  }

  /** A game of which the first that is told is a board: one that is looked at from now on.
   * @param {BoardLine} board */
  meet(board) {
    const game = new Game(board.game, board.white, board.black, null);
    const row = this.listed.get(board.game);
    if (row && row.white === board.white && row.black === board.black) {
      game.learn(row.terms);
    } else {
      this.session.ask("games");
    }
    this.put(game);
    const pair = this.pairOf(game);
    if (!this.running.length && !(pair && this.shownNumber === pair.number)) {
      this.shownNumber = game.number;
    }
    return game;
  }

  /** @param {Happened<'hands'>} event */
  hold(event) {
    const game = this.byNumber.get(event.game);
    if (game) {
      game.hold(event.whiteHand, event.blackHand);
      this.changed(game, event);
    }
  }

  /** @param {Happened<'lost' | 'drawn' | 'stopped' | 'pair-ended'>} event */
  finish(event) {
    const game = this.byNumber.get(event.game);
    if (game) {
      game.finish({ reason: event.reason, result: event.result });
      this.changed(game, event);
    }
  }

  /** Whether a board line is to be acknowledged: thinking begins with it. A board that is only shown again began
   * before, and the server takes an acknowledgement for one of the present game, which in a simul may be another
   * one.
   * @param {string} line */
  begins(line) {
    const board = boardOf(line);
    const game = board && this.byNumber.get(board.game);
    const isKnown = game && !game.isOver && game.place?.board.position === board.position;
    return this.running.length <= 1 && !isKnown;
  }

  /** The game in which somebody plays; the shown one before others, and one's own before those.
   * @param {string} who */
  gameOf(who) {
    /** @param {Game} game */
    const rank = (game) => (game.number === this.shownNumber ? 0 : 2) + (game.role === "mine" ? 0 : 1);
    return [...this.byNumber.values()].filter((it) => !it.isOver && it.colourOf(who))
      .sort((one, other) => rank(one) - rank(other))[0];
  }

  /** @param {Happened<OfferEvent>} event */
  offer(event) {
    const game = this.gameOf(event.who);
    if (game) {
      game.offers.add(event.who, OFFERS[event.kind], "n" in event ? event.n : 0);
      this.changed(game, event);
    }
  }

  /** @param {Happened<'declines'>} event */
  decline(event) {
    const game = this.gameOf(event.who);
    if (game) {
      game.offers.declined(event.who);
      this.changed(game, event);
    }
  }

  /** @param {Answer} answer */
  take(answer) {
    if (answer.command === "games" && answer.isDone) {
      this.listed = new Map(answer.all("game").map((it) => [it.game, it]));
    } else if (answer.command === "unobserve" && answer.isDone) {
      this.unwatch(Number(answer.said.trim().split(/ +/)[1]));
    }
  }

  /** Who looks on no longer is told nothing more of the desk's boards.
   * @param {number} number */
  unwatch(number) {
    const odd = number % 2 ? number : number - 1;
    for (const it of [odd, odd + 1]) {
      const game = this.byNumber.get(it);
      if (game?.role === "watched") {
        this.remove(game);
      }
    }
  }

  /** @param {Game} game */
  remove(game) {
    this.byNumber.delete(game.number);
    if (this.shownNumber === game.number) {
      const left = [...this.byNumber.values()];
      this.shownNumber = (left.find((it) => it.role === "mine") ?? left[0])?.number ?? 0;
    }
    this.changed(game, { kind: "removed" });
  }

  /** @param {number} number */
  choose(number) {
    this.shownNumber = number;
    this.changed(this.shown, { kind: "chosen" });
  }

  forgetAll() {
    this.byNumber.clear();
    this.shownNumber = 0;
    this.changed(null, { kind: "removed" });
  }

  /** What a page that begins anew has to know of them. */
  get keep() {
    return [...this.byNumber.values()].filter((it) => it.place).map((it) => it.keep);
  }

  /** Takes the games that an earlier page has kept.
   * @param {KeptGame[]} kept */
  restore(kept) {
    kept.forEach((it) => this.put(gameOf(it)));
    const own = this.running[0] ?? this.own[0] ?? [...this.byNumber.values()][0];
    this.shownNumber = own?.number ?? 0;
    this.changed(this.shown, { kind: "chosen" });
  }

  /** Asks for the boards anew, where some may have been missed: one's own, in a simul each in its turn, and those at
   * which one looks on. What runs no more is gone. */
  async learnAgain() {
    const { me } = this.session;
    const rows = (await this.session.ask("games")).all("game");
    /** @param {Game} game */
    const isThere = (game) => rows.some((it) => it.game === game.number && it.white === game.white);
    [...this.byNumber.values()].filter((it) => !it.isOver && !isThere(it)).forEach((it) => this.remove(it));
    const own = rows.filter((it) => it.white === me || it.black === me);
    for (let n = 0; n < own.length; n += 1) {
      await (own.length > 1 && this.session.ask("simnext"));
      await this.session.ask("refresh");
    }
    for (const game of [...this.byNumber.values()].filter((it) => it.role === "watched" && !it.isOver)) {
      await this.session.ask(`unobserve ${game.number}`);
      await this.session.ask(`observe ${game.number}`);
    }
  }
}
