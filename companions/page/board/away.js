/** Marks who has lost its link at a game, and says what comes of it and when. The go-between tells for how long a seat
 * is held; who came by another way than a page is never marked, since its game ends with its link. */

import { byId } from "../shell/elements.js";
import { t } from "../shell/texts.js";

const EVERY = 1000; // milliseconds

export class Away {
  /** @param {Session} session @param {Games} games */
  constructor(session, games) {
    this.games = games;
    /** @type {Map<string, number>} */
    this.until = new Map(); // of who is away the moment until which the seat is held
    session.on("told", ({ it }) => typeof it.away === "string" && this.hear(it.away, Number(it.held)));
    session.on(["lost", "stopped", "pair-ended"],
      ({ white, black }) => [white, black].forEach((it) => this.hear(it, 0)));
    setInterval(() => this.until.size && this.show(), EVERY);
  }

  /** A seat is held for so many seconds, or has its tab again.
   * @param {string} who @param {number} seconds */
  hear(who, seconds) {
    if (seconds) {
      this.until.set(who, performance.now() + 1000 * seconds);
    } else {
      this.until.delete(who);
    }
    this.show();
  }

  show() {
    const game = this.games.shown;
    const isOpen = game !== null && !game.isOver;
    for (const name of /** @type {NodeListOf<HTMLElement>} */ (document.querySelectorAll(".plate [data-player]"))) {
      name.classList.toggle("away", isOpen && this.until.has(name.dataset.player ?? ""));
    }
    const who = isOpen ? [game.white, game.black].find((it) => this.until.has(it)) : undefined;
    byId("away").hidden = who === undefined;
    byId("away").textContent = who === undefined ? "" : t("away.lost", { who, n: this.secondsOf(who) });
  }

  /** @param {string} who */
  secondsOf(who) {
    return Math.max(0, Math.ceil(((this.until.get(who) ?? 0) - performance.now()) / 1000));
  }
}
