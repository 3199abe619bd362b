/** The terms of a game: minutes, seconds of increment, variant, and perhaps a colour that was asked for. */

import { t } from "../shell/texts.js";

const NUMBER = "(?:0|[1-9]\\d*)";
const ARRAYS = 960;
const LONGEST = 600;

/** What the text of terms looks like; numbers have their bounds in `parsed`. */
export const TERMS = `${NUMBER} ${NUMBER} (?:chess|crazyhouse|bughouse|fischer ${NUMBER})(?: (?:white|black))?`;

export class Terms {
  /** @param {number} minutes @param {number} increment @param {string} variant @param {string} [colour] */
  constructor(minutes, increment, variant, colour = "") {
    this.minutes = minutes;
    this.increment = increment;
    this.variant = variant; // as `fischer 518`
    this.colour = colour; // white, black, or nothing
  }

  /** The terms that a text says, or null where a number is out of its bounds.
   * @param {string} text */
  static parsed(text) {
    const [minutes, increment, ...words] = text.split(" ");
    const colour = ["white", "black"].includes(words.at(-1) ?? "") ? words.pop() : "";
    const fits = Number(minutes) <= LONGEST && Number(increment) <= LONGEST
      && (words.length === 1 || Number(words[1]) < ARRAYS);
    return fits ? new Terms(Number(minutes), Number(increment), words.join(" "), colour) : null;
  }

  get isTimed() {
    return this.minutes > 0 || this.increment > 0;
  }

  get isBughouse() {
    return this.variant === "bughouse";
  }

  get hasHands() {
    return this.isBughouse || this.variant === "crazyhouse";
  }

  /** As the server reads and writes them. */
  toString() {
    return [this.minutes, this.increment, this.variant, this.colour].filter((it) => it !== "").join(" ");
  }

  /** As people read them. */
  inWords() {
    const colour = this.colour ? `, ${t(`terms.asks-${this.colour}`)}` : "";
    return `${this.variantInWords()}, ${this.timeInWords()}${colour}`;
  }

  timeInWords() {
    return this.isTimed ? t("terms.time", { minutes: this.minutes, increment: this.increment }) : t("terms.untimed");
  }

  /** As `5+3`, or without clocks. */
  shortTime() {
    return this.isTimed ? `${this.minutes}+${this.increment}` : "∞";
  }

  /** How fast such a game is: bullet, blitz, rapid, slow, or without clocks, by the time of 40 moves. */
  get speed() {
    const seconds = 60 * this.minutes + 40 * this.increment;
    return !this.isTimed ? "untimed" : seconds < 180 ? "bullet" : seconds < 480 ? "blitz" : seconds < 1500 ? "rapid"
      : "slow";
  }

  /** The pool in which such a game is rated. */
  get pool() {
    const [name] = this.variant.split(" ");
    return name !== "chess" ? name : ["slow", "untimed"].includes(this.speed) ? "classical" : this.speed;
  }

  variantInWords() {
    const [name, number] = this.variant.split(" ");
    return number === undefined ? t(`variant.${name}`) : t("variant.numbered", { number });
  }
}
