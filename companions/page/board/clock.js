/** Clocks that run between the server's lines: a line has the seconds as they were told, and the time since then is
 * counted here. */

import { t } from "../shell/texts.js";

const EVERY = 100; // milliseconds
const LOW = 20; // seconds
const TENTHS_BELOW = 10; // seconds

/** Seconds as a clock shows them, the last ones with tenths; below 0 the time is over and nobody has called the
 * flag.
 * @param {number} seconds */
export function clockText(seconds) {
  if (seconds > 0 && seconds < TENTHS_BELOW) {
    return `0:0${(Math.ceil(seconds * 10 - 1e-6) / 10).toFixed(1)}`.replace("0:010", "0:10");
  }
  const whole = Math.ceil(seconds);
  const size = Math.abs(whole);
  return `${whole < 0 ? "−" : ""}${Math.floor(size / 60)}:${String(size % 60).padStart(2, "0")}`;
}

export class Clock {
  /** @param {HTMLElement} root */
  constructor(root) {
    this.root = root;
    root.className = "clock";
    root.setAttribute("role", "timer");
    root.setAttribute("aria-live", "off");
    /** @type {Game | null} */
    this.game = null;
    /** @type {Colour} */
    this.colour = "w";
    this.stops = false; // at 0
    setInterval(() => this.tick(), EVERY);
  }

  /** Shows the clock of a colour in a game, and perhaps nothing below 0.
   * @param {Game} game @param {Colour} colour @param {boolean} stops */
  show(game, colour, stops) {
    this.stops = stops;
    this.game = game;
    this.colour = colour;
    this.tick();
  }

  tick() {
    const { game, colour, root } = this;
    if (!game?.place) {
      return;
    }
    const left = game.terms.isTimed ? game.left(colour) : null;
    const text = left === null ? t("clock.none") : clockText(this.stops ? Math.max(0, left) : left);
    if (root.textContent !== text) {
      root.textContent = text;
    }
    root.classList.toggle("runs", game.isTicking && game.toMove === colour);
    root.classList.toggle("low", left !== null && left < LOW);
    root.setAttribute("aria-label", t(colour === "w" ? "clock.white" : "clock.black"));
  }
}
