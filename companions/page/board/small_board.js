/** A small board that only shows: no square of it can be pressed, and a screen reader hears what stands beside it. */

import { drawing } from "./men.js";
import { element } from "../shell/elements.js";

const FILES = 8;

export class SmallBoard {
  /** A board of so many ranks, the last ones of which are the colour's own.
   * @param {HTMLElement} root */
  constructor(root, ranks = 8) {
    /** @type {HTMLElement[]} */
    this.squares = [];
    root.classList.add("small-board");
    root.style.setProperty("--ranks", String(ranks));
    for (let n = 0; n < ranks * FILES; n += 1) {
      const square = element("span", (n % FILES + Math.floor(n / FILES)) % 2 ? "dark" : "light");
      square.dataset.letter = "-";
      this.squares.push(square);
    }
    root.append(...this.squares);
  }

  /** Shows ranks from above, as a board line has them, and marks squares, as e2.
   * @param {string[]} ranks @param {string[]} [marked] */
  show(ranks, marked = []) {
    const letters = ranks.join("");
    this.squares.forEach((square, n) => {
      if (square.dataset.letter !== letters[n]) {
        square.dataset.letter = letters[n];
        square.replaceChildren(...manOf(letters[n]));
      }
      square.classList.toggle("last", marked.includes(`${"abcdefgh"[n % FILES]}${FILES - Math.floor(n / FILES)}`));
    });
  }
}

/** @param {string} letter */
function manOf(letter) {
  const kind = letter.toUpperCase();
  return letter === "-" ? [] : [drawing((letter === kind ? "w" : "b") + kind)];
}
