/** A board of 64 squares, each a button with its man. By keyboard the arrows go from square to square. */

import { drawing, manInWords } from "./men.js";
import { around, element } from "../shell/elements.js";
import { t } from "../shell/texts.js";

const FILES = "abcdefgh";
/** @type {Record<string, number[]>} */
const STEPS = { ArrowLeft: [-1, 0], ArrowRight: [1, 0], ArrowUp: [0, 1], ArrowDown: [0, -1] };
const MARKS = /** @type {const} */ (["last", "chosen", "target", "check", "premove"]);

export class Board {
  /** @param {HTMLElement} root @param {BoardName} name */
  constructor(root, name) {
    this.root = root;
    root.classList.add("board");
    root.dataset.board = name;
    root.setAttribute("role", "group");
    this.rename();
    /** @type {Record<string, HTMLButtonElement>} */
    this.squares = {};
    /** @type {Element[]} */
    this.over = []; // what lies over the squares
    /** @type {boolean | null} */
    this.isTurned = null;
    this.at = "e2"; // the square that Tab reaches
    for (const file of FILES) {
      for (let rank = 1; rank <= 8; rank += 1) {
        this.squares[file + rank] = this.square(file, rank);
      }
    }
    this.turn(false);
    root.addEventListener("keydown", (event) => this.walk(event));
    root.addEventListener("focusin", (event) => this.reach(around(event, "[data-square]")?.dataset.square));
  }

  /** @param {string} file @param {number} rank */
  square(file, rank) {
    const button = element("button", (FILES.indexOf(file) + rank) % 2 ? "square dark" : "square light");
    button.dataset.square = file + rank;
    button.tabIndex = file + rank === this.at ? 0 : -1;
    button.setAttribute("aria-label", file + rank);
    return button;
  }

  /** Puts White or Black below.
   * @param {boolean} isTurned */
  turn(isTurned) {
    if (this.isTurned === isTurned) {
      return;
    }
    this.isTurned = isTurned;
    const ranks = isTurned ? [1, 2, 3, 4, 5, 6, 7, 8] : [8, 7, 6, 5, 4, 3, 2, 1];
    const files = isTurned ? [...FILES].reverse() : [...FILES];
    const squares = ranks.flatMap((rank) => files.map((file) => this.squares[file + rank]));
    this.root.replaceChildren(...squares, ...this.over);
    for (const [name, button] of Object.entries(this.squares)) {
      button.dataset.file = name[1] === String(ranks[7]) ? name[0] : "";
      button.dataset.rank = name[0] === files[0] ? name[1] : "";
    }
  }

  /** Lays an element over the squares, which doesn't take their place.
   * @param {Element} element */
  lay(element) {
    this.over.push(element);
    this.root.append(element);
  }

  /** Column and row of a square as it is seen, from 0 at the left and at the top.
   * @param {string} name */
  placeOf(name) {
    const file = FILES.indexOf(name[0]);
    const rank = Number(name[1]) - 1;
    return this.isTurned ? { x: 7 - file, y: rank } : { x: file, y: 7 - rank };
  }

  /** Shows men by their squares, and of each kind of mark the squares that have it.
   * @param {Men} men @param {Marks} marks */
  show(men, marks) {
    for (const [name, button] of Object.entries(this.squares)) {
      const man = men[name] ?? "";
      const dropped = marks.dropped?.square === name ? marks.dropped.man : "";
      if ((button.dataset.man ?? "") !== man || (button.dataset.dropped ?? "") !== dropped) {
        this.put(button, man, dropped);
      }
      const own = MARKS.filter((it) => marks[it]?.includes(name));
      MARKS.forEach((it) => button.classList.toggle(it, own.includes(it)));
      const isChosen = own.includes("chosen");
      button.setAttribute("aria-pressed", String(isChosen));
      this.name(button, man, own, marks.drawn?.[name]);
    }
  }

  /** Puts a man on a square, and one that is to be dropped there.
   * @param {HTMLButtonElement} button @param {string} man @param {string} dropped */
  put(button, man, dropped) {
    setOrDrop(button, "man", man);
    setOrDrop(button, "dropped", dropped);
    button.replaceChildren(...man ? [drawing(man)] : []);
    if (dropped) {
      const waiting = drawing(dropped);
      waiting.classList.add("waits");
      button.append(waiting);
    }
  }

  /** What a screen reader says of a square.
   * @param {HTMLButtonElement} button @param {string} man @param {string[]} marks @param {string | undefined} drawn */
  name(button, man, marks, drawn) {
    const said = [button.dataset.square, man && manInWords(man),
      ...["target", "check", "premove"].filter((it) => marks.includes(it)).map((it) => t(`square.${it}`)), drawn];
    const label = said.filter(Boolean).join(", ");
    if (button.getAttribute("aria-label") !== label) {
      button.setAttribute("aria-label", label);
    }
  }

  /** Names the board, in the language that is spoken. */
  rename() {
    this.root.setAttribute("aria-label", t(this.root.dataset.board === "main" ? "board" : "board.partner"));
  }

  focus() {
    this.squares[this.at].focus({ preventScroll: true });
  }

  /** @param {string | undefined} name */
  reach(name) {
    if (name && name !== this.at) {
      this.squares[this.at].tabIndex = -1;
      this.squares[name].tabIndex = 0;
      this.at = name;
    }
  }

  /** @param {KeyboardEvent} event */
  walk(event) {
    const step = STEPS[event.key];
    const name = around(event, "[data-square]")?.dataset.square;
    if (!step || !name || event.defaultPrevented || event.ctrlKey || event.altKey || event.metaKey) {
      return;
    }
    event.preventDefault();
    const sign = this.isTurned ? -1 : 1;
    const file = FILES[FILES.indexOf(name[0]) + sign * step[0]];
    this.squares[file + (Number(name[1]) + sign * step[1])]?.focus();
  }
}

/** Names something of an element, or nothing any more.
 * @param {HTMLElement} it @param {string} name @param {string} value */
function setOrDrop(it, name, value) {
  if (value) {
    it.dataset[name] = value;
  } else {
    delete it.dataset[name];
  }
}
