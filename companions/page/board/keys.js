/** The arrows lead through the half-moves: left and right by one, up to the first one and down to the last one. They
 * are left to a field that takes them, and to a board through which one goes by keyboard. */

import { around } from "../shell/elements.js";

const TAKES_ARROWS = "input, select, textarea, [role=log], [role=tablist], [role=tab], dialog, .promotion-veil";
/** @type {Record<string, StepName>} */
const STEPS = { ArrowLeft: "back", ArrowRight: "on", ArrowUp: "first", ArrowDown: "last" };

export class Keys {
  /** `go(step)` leads back, on, first or last.
   * @param {(step: StepName) => boolean} go */
  constructor(go) {
    this.go = go;
    this.byKeyboard = false; // how the member got to where the focus is
    document.addEventListener("pointerdown", () => { this.byKeyboard = false; }, true);
    document.addEventListener("keydown", (event) => this.press(event), true);
  }

  /** @param {KeyboardEvent} event */
  press(event) {
    const step = STEPS[event.key];
    if (!step) {
      this.byKeyboard ||= ["Tab", "Enter", " "].includes(event.key);
      return;
    }
    const isOnBoard = around(event, "[data-square]");
    if (event.ctrlKey || event.altKey || event.metaKey || event.shiftKey || around(event, TAKES_ARROWS)
      || (isOnBoard && this.byKeyboard)) {
      return;
    }
    if (this.go(step)) {
      event.preventDefault();
    }
  }
}
