/** The games that run, each with a small board that moves while it is seen. A click on one looks on at it. */

import { lastSquares } from "../link/board_line.js";
import { byId, element } from "../shell/elements.js";
import { SmallBoard } from "../board/small_board.js";
import { withRating } from "../shell/ratings.js";
import { Places } from "../shell/still.js";
import { t } from "../shell/texts.js";
import { isLobbySeen, onView } from "../shell/views.js";

/** A game's card: its players, their clocks and its board. */
class Card {
  constructor() {
    this.row = element("li");
    this.button = element("button", "small-game");
    this.above = element("span", "player");
    const board = element("span", "miniature");
    this.board = new SmallBoard(board);
    this.below = element("span", "player");
    this.foot = element("span", "foot");
    this.above.dataset.colour = "b";
    this.below.dataset.colour = "w";
    this.button.append(this.above, board, this.below, this.foot);
    this.row.append(this.button);
  }

  /** Its game is listed no more.
   * @param {boolean} isGone */
  set isGone(isGone) {
    this.row.classList.toggle("gone", isGone);
    this.button.disabled = isGone;
  }

  /** Shows a row of the list of games, and its last board where it is known; `isOpen` where the member has it on its
   * own board.
   * @param {Happened<'game'>} game @param {{ board: BoardLine, isOver: boolean } | null} known
   * @param {boolean} isOpen */
  show(game, known, isOpen) {
    const { white, black, terms } = game;
    const places = { game: game.game, white, black, terms: terms.inWords() };
    this.row.dataset.key = String(game.game);
    delete this.button.dataset[isOpen ? "command" : "show"];
    this.button.dataset[isOpen ? "show" : "command"] = isOpen ? String(game.game) : `observe ${game.game}`;
    this.button.setAttribute("aria-label", t(isOpen ? "game.open-name" : "game.watch-name", places));
    this.above.textContent = withRating(black, terms.pool);
    this.below.textContent = withRating(white, terms.pool);
    this.above.classList.toggle("to-move", known?.board.side === "b" && !known.isOver);
    this.below.classList.toggle("to-move", known?.board.side === "w" && !known.isOver);
    this.foot.textContent = `${terms.shortTime()} · ${terms.variantInWords()}`;
    this.row.classList.toggle("over", Boolean(known?.isOver));
    this.row.classList.toggle("blank", !known);
    if (known) {
      this.board.show(known.board.ranks, lastSquares(known.board));
    }
  }
}

const EVERY = 4000; // milliseconds

export class RunningGames {
  /** @param {Session} session @param {Games} games @param {SmallGames} smallGames */
  constructor(session, games, smallGames) {
    this.session = session;
    this.games = games;
    this.smallGames = smallGames;
    /** @type {Happened<'game'>[]} */
    this.rows = [];
    /** @type {Map<string, Card>} */
    this.cards = new Map(); // by the games' numbers and players
    this.list = byId("games");
    this.places = new Places();
    /** @type {HTMLLIElement[]} */
    this.free = []; // what stands in places that are free
    /** @type {Set<Element>} */
    this.inSight = new Set(); // the cards' rows that are seen
    this.observer = new IntersectionObserver((entries) => this.see(entries), { threshold: 0.3 });
    document.addEventListener("visibilitychange", () => this.want());
    onView(() => this.want());
    this.list.addEventListener("mouseleave", () => this.show(this.rows));
    setInterval(() => this.want(), EVERY);
  }

  /** @param {Happened<'game'>} row */
  keyOf({ game, white, black }) {
    return `${game} ${white} ${black}`;
  }

  /** The card of a row, a new one where there is none.
   * @param {Happened<'game'>} row */
  cardOf(row) {
    return this.cards.get(this.keyOf(row)) ?? new Card();
  }

  /** @param {IntersectionObserverEntry[]} entries */
  see(entries) {
    for (const { target, isIntersecting } of entries) {
      if (isIntersecting) {
        this.inSight.add(target);
      } else {
        this.inSight.delete(target);
      }
    }
    this.want();
  }

  /** A card keeps its place while its game is listed, as the rows of the other lists do.
   * @param {Happened<'game'>[]} rows */
  show(rows) {
    this.rows = rows;
    const keys = rows.map((it) => this.keyOf(it));
    const places = this.places.take(keys, this.list.matches(":hover"));
    rows.forEach((it) => this.cards.set(this.keyOf(it), this.cardOf(it)));
    for (const [key, card] of this.cards) {
      card.isGone = !keys.includes(key);
      if (!places.includes(key)) {
        this.drop(key, card);
      }
    }
    const shown = places.map((key, n) => (key === null ? this.freeAt(n) : this.cards.get(key)?.row));
    [...this.list.children].filter((it) => !shown.some((row) => row === it)).forEach((it) => it.remove());
    shown.forEach((it, n) => it && this.place(it, n));
    rows.forEach((it) => this.fill(it));
    this.showNone(this.list);
    this.want();
  }

  /** @param {string} key @param {Card} card */
  drop(key, card) {
    this.observer.unobserve(card.row);
    this.inSight.delete(card.row);
    this.cards.delete(key);
  }

  /** What stands in a place that is free: nothing, of a card's size.
   * @param {number} n */
  freeAt(n) {
    if (!this.free[n]) {
      this.free[n] = new Card().row;
      this.free[n].className = "free";
    }
    return this.free[n];
  }

  /** @param {HTMLLIElement} row @param {number} n */
  place(row, n) {
    if (this.list.children[n] !== row) {
      this.list.insertBefore(row, this.list.children[n] ?? null);
      this.observer.observe(row);
    }
  }

  /** @param {HTMLElement} list */
  showNone(list) {
    list.querySelector(".none")?.remove();
    if (!list.children.length) {
      list.append(element("li", "none", t("lobby.no-games")));
    }
  }

  /** @param {Happened<'game'>} row */
  fill(row) {
    const own = this.games.byNumber.get(row.game);
    const isOpen = own?.isOver === false && own.white === row.white && own.black === row.black;
    const board = isOpen ? own.place?.board : null;
    this.cardOf(row).show(row, board ? { board, isOver: false } : this.smallGames.boardOf(row), Boolean(board));
  }

  /** @param {number} number */
  showOne(number) {
    const row = this.rows.find((it) => it.game === number);
    if (row) {
      this.fill(row);
    }
  }

  /** Looks on at the games whose boards are seen. Whether the lobby is seen is asked last, since the browser then lays
   * the page out at once, and a half-move would wait for that. */
  want() {
    const inSight = this.rows.filter((it) => this.inSight.has(this.cardOf(it).row)).map((it) => it.game);
    const areSeen = inSight.length > 0 && document.visibilityState === "visible" && this.session.isIn && isLobbySeen();
    this.smallGames.want(areSeen ? inSight : []);
  }
}
