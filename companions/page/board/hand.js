/** The men in hand of one colour, each kind a button with its count. */

import { drawing } from "./men.js";
import { element } from "../shell/elements.js";
import { t } from "../shell/texts.js";

const ORDER = "PNBRQ";

export class Hand {
  /** @param {HTMLElement} root */
  constructor(root) {
    this.root = root;
    root.className = "hand";
    /** @type {Record<string, HTMLButtonElement>} */
    this.buttons = {};
    this.key = "";
    for (const kind of ORDER) {
      const button = element("button");
      button.dataset.drop = kind;
      this.buttons[kind] = button;
    }
    root.append(...Object.values(this.buttons));
  }

  /** The next time all is named anew, in another language. */
  rename() {
    this.key = "";
  }

  /** Shows the letters of a hand, or that it isn't known; `chosen` is the kind that is to be dropped.
   * @param {Colour} colour @param {string | null} letters @param {string} chosen */
  show(colour, letters, chosen) {
    const key = `${colour} ${letters} ${chosen}`;
    if (key === this.key) {
      return;
    }
    this.key = key;
    this.root.dataset.hand = colour === "w" ? "white" : "black";
    this.root.setAttribute("role", "group");
    const name = t(colour === "w" ? "hand.white" : "hand.black");
    this.root.setAttribute("aria-label", letters === null ? t("hand.unknown", { hand: name }) : name);
    for (const [kind, button] of Object.entries(this.buttons)) {
      const count = Array.from(letters ?? "").filter((it) => it === kind).length;
      const number = element("span", "count", letters === null ? "?" : String(count));
      button.dataset.count = String(count);
      button.classList.toggle("none", count === 0);
      button.setAttribute("aria-pressed", String(chosen === kind));
      const said = letters === null ? "hand.kind-unknown" : "hand.kind";
      button.setAttribute("aria-label", t(said, { kind: t(`kind.${kind}`), count }));
      button.replaceChildren(drawing(colour + kind), number);
    }
  }
}
