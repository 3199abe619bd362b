/** The men that a player has captured, and by how much it is ahead, beside its name. Where men come into hands there
 * is nothing to show. */

import { otherThan } from "../game/legal.js";
import { lead, missing } from "../game/material.js";
import { drawing } from "./men.js";
import { element } from "../shell/elements.js";
import { t } from "../shell/texts.js";

export class Captured {
  /** @param {HTMLElement} root */
  constructor(root) {
    this.root = root;
    root.className = "captured";
    root.setAttribute("role", "img");
    this.key = "";
  }

  /** Shows what a colour has captured in a game.
   * @param {Game} game @param {Colour} colour */
  show(game, colour) {
    this.root.hidden = game.terms.hasHands;
    const other = otherThan(colour);
    const men = game.shown?.men ?? {};
    const letters = game.terms.hasHands ? "" : missing(men, other);
    const ahead = game.terms.hasHands ? 0 : lead(men, colour);
    const key = `${other} ${letters} ${ahead}`;
    if (key !== this.key) {
      this.key = key;
      const captured = element("span", "men");
      captured.append(...Array.from(letters, (kind) => drawing(other + kind)));
      this.root.replaceChildren(captured, ahead > 0 ? `+${ahead}` : "");
      this.root.setAttribute("aria-label", this.inWords(letters, ahead));
    }
  }

  /** @param {string} letters @param {number} ahead */
  inWords(letters, ahead) {
    const kinds = [...new Set(letters)].map((kind) => `${letters.split(kind).length - 1} ${t(`kind.${kind}`)}`);
    const what = kinds.length ? t("captured.men", { men: kinds.join(", ") }) : t("captured.none");
    return ahead > 0 ? `${what}; ${t("captured.ahead", { n: ahead })}` : what;
  }
}
