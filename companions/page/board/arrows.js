/** Arrows and circles on a board: by the right button from square to square, or by Shift and Enter on each of them. A
 * left click on the board takes them all away, and so does another position. */

import { arrowCorners, colourBy, Drawn } from "./drawn.js";
import { shape } from "../shell/elements.js";
import { t } from "../shell/texts.js";

const RIGHT = 2;

/** @param {EventTarget | null} element */
function squareAt(element) {
  const square = element instanceof Element ? element.closest("[data-square]") : null;
  return square instanceof HTMLElement ? square.dataset.square ?? "" : "";
}

export class Arrows {
  /** `changed` is called once something else is drawn.
   * @param {Board} board @param {() => void} changed */
  constructor(board, changed) {
    this.board = board;
    this.changed = changed;
    this.drawn = new Drawn();
    this.from = ""; // where the next one begins
    this.position = "";
    this.layer = shape("svg", { viewBox: "0 0 8 8", class: "drawn", "aria-hidden": "true" });
    board.lay(this.layer);
    const { root } = board;
    root.addEventListener("contextmenu", (event) => event.preventDefault());
    root.addEventListener("pointerdown", (event) => this.press(event));
    root.addEventListener("keydown", (event) => this.key(event), true);
    root.addEventListener("click", (event) => event.button === 0 && this.clear());
  }

  /** @param {PointerEvent} event */
  press(event) {
    const from = squareAt(event.target);
    if (event.button !== RIGHT || !from) {
      return;
    }
    /** @param {PointerEvent} it */
    const stop = (it) => {
      window.removeEventListener("pointerup", stop);
      window.removeEventListener("pointercancel", stop);
      const to = squareAt(document.elementFromPoint(it.clientX, it.clientY));
      if (it.type === "pointerup" && this.board.squares[to]) {
        this.add(from, to, it);
      }
    };
    window.addEventListener("pointerup", stop);
    window.addEventListener("pointercancel", stop);
  }

  /** Shift and Enter on a square begin one, and on the next square end it.
   * @param {KeyboardEvent} event */
  key(event) {
    const square = squareAt(event.target);
    if (event.key === "Enter" && event.shiftKey && square) {
      event.preventDefault();
      event.stopPropagation();
      if (this.from) {
        this.add(this.from, square, { shiftKey: false, altKey: event.altKey });
      } else {
        this.from = square;
        this.changed();
      }
    }
  }

  /** @param {string} from @param {string} to @param {Keys} keys */
  add(from, to, keys) {
    this.from = "";
    this.drawn.toggle(from, to, colourBy(keys));
    this.changed();
  }

  clear() {
    if (this.drawn.shapes.length || this.from) {
      this.from = "";
      this.drawn.clear();
      this.changed();
    }
  }

  /** Shows what is drawn on a position, which its text tells from others.
   * @param {string} position */
  show(position) {
    if (position !== this.position) {
      this.position = position;
      this.from = "";
      this.drawn.clear();
    }
    this.layer.replaceChildren(...this.drawn.shapes.map((it) => this.shape(it)));
  }

  /** @param {Shape} drawn */
  shape({ from, to, colour }) {
    const [start, end] = [this.board.placeOf(from), this.board.placeOf(to)];
    return from === to ? shape("circle", { cx: start.x + 0.5, cy: start.y + 0.5, r: 0.44, class: `circle ${colour}` })
      : shape("polygon", { points: arrowCorners(start, end), class: `arrow ${colour}` });
  }

  /** Of each square that has something drawn, what a screen reader says of it. */
  get names() {
    /** @type {Record<string, string>} */
    const names = {};
    for (const { from, to } of this.drawn.shapes) {
      const text = from === to ? t("square.circled") : t("square.arrow", { to });
      names[from] = names[from] ? `${names[from]}, ${text}` : text;
    }
    if (this.from) {
      names[this.from] = t("square.arrow-from");
    }
    return names;
  }
}
