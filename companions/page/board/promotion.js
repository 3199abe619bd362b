/** What a pawn becomes is chosen on the board, where the pawn goes: four men in the column of its square. */

import { drawing } from "./men.js";
import { around, element } from "../shell/elements.js";
import { t } from "../shell/texts.js";

const CHOICES = ["q", "n", "r", "b"];
/** @type {Record<string, number>} */
const STEPS = { ArrowDown: 1, ArrowRight: 1, ArrowUp: -1, ArrowLeft: -1 };

export class Promotion {
  /** @param {Board} board */
  constructor(board) {
    this.board = board;
    /** @type {((kind: string) => void) | null} */
    this.answer = null; // of whoever waits for the choice
    this.veil = element("div", "promotion-veil");
    this.veil.hidden = true;
    this.box = element("div", "promotion");
    this.box.setAttribute("role", "dialog");
    this.buttons = CHOICES.map((kind) => this.button(kind));
    this.box.append(...this.buttons);
    this.veil.append(this.box);
    board.lay(this.veil);
    this.veil.addEventListener("click", (event) => {
      event.stopPropagation();
      this.choose(around(event, "[data-promote]")?.dataset.promote ?? "");
    });
    this.veil.addEventListener("pointerdown", (event) => event.stopPropagation());
    this.veil.addEventListener("keydown", (event) => this.press(event));
  }

  /** @param {string} kind */
  button(kind) {
    const button = element("button");
    button.dataset.promote = kind;
    return button;
  }

  /** Asks what a pawn of that colour becomes on a square: q, r, b or n, or nothing where the move is given up.
   * @param {Colour} colour @param {string} square
   * @returns {Promise<string>} */
  ask(colour, square) {
    this.choose("");
    const { x, y } = this.board.placeOf(square);
    this.box.setAttribute("aria-label", t("promotion.title"));
    this.box.style.left = `${12.5 * x}%`;
    this.box.classList.toggle("upwards", y > 3);
    for (const button of this.buttons) {
      const kind = (button.dataset.promote ?? "").toUpperCase();
      button.setAttribute("aria-label", t(`kind.${kind}`));
      button.replaceChildren(drawing(colour + kind));
    }
    this.veil.hidden = false;
    this.buttons[0].focus({ preventScroll: true });
    return new Promise((answer) => { this.answer = answer; });
  }

  /** @param {string} kind */
  choose(kind) {
    const { answer } = this;
    const hadFocus = this.veil.contains(document.activeElement);
    this.answer = null;
    this.veil.hidden = true;
    if (hadFocus) {
      this.board.focus();
    }
    answer?.(kind);
  }

  /** Tab and the arrows stay among the four; Escape gives the move up.
   * @param {KeyboardEvent} event */
  press(event) {
    const step = event.key === "Tab" ? (event.shiftKey ? -1 : 1) : STEPS[event.key];
    if (event.key === "Escape") {
      this.choose("");
    } else if (step) {
      const now = this.buttons.findIndex((it) => it === document.activeElement);
      this.buttons[(now + step + CHOICES.length) % CHOICES.length].focus();
      event.preventDefault();
    }
    event.stopPropagation();
  }
}
