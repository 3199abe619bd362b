/** A finger that is drawn over a board to the left leads on, and to the right back, as a page is turned. */

const LEAST = 30; // pixels across, and more than twice as many as up or down

/** Where such a way of a finger leads: on, back, or nowhere.
 * @param {number} across @param {number} down */
export function stepOf(across, down) {
  return Math.abs(across) < LEAST || Math.abs(across) < 2 * Math.abs(down) ? "" : across < 0 ? "on" : "back";
}

/** Calls `go` with the step of each way of a finger over an element.
 * @param {HTMLElement} root @param {(step: StepName) => void} go */
export function listenForSwipes(root, go) {
  /** @type {{ x: number, y: number } | null} */
  let from = null;
  root.addEventListener("pointerdown", (event) => {
    from = event.pointerType === "touch" && event.isPrimary ? { x: event.clientX, y: event.clientY } : null;
  });
  root.addEventListener("pointerup", (event) => {
    const step = from && event.isPrimary ? stepOf(event.clientX - from.x, event.clientY - from.y) : "";
    from = null;
    if (step) {
      go(step);
    }
  });
  root.addEventListener("pointercancel", () => { from = null; });
}
