/** Arrows and circles that a member draws on a board to think: each goes from a square to a square, and a circle to
 * its own. What is drawn once more the same way is gone. */

export class Drawn {
  constructor() {
    /** @type {Shape[]} */
    this.shapes = []; // { from, to, colour }
  }

  /** @param {string} from @param {string} to @param {string} colour */
  toggle(from, to, colour) {
    const before = this.shapes.find((it) => it.from === from && it.to === to);
    this.shapes = this.shapes.filter((it) => it !== before);
    if (before?.colour !== colour) {
      this.shapes.push({ from, to, colour });
    }
  }

  clear() {
    this.shapes = [];
  }
}

/** The colour by the keys that are held: Shift or Ctrl, Alt, both, or none of them. Ctrl does what Shift does, since
 * Firefox opens its own menu by the right button with Shift, which no page can keep shut.
 * @param {Keys} keys */
export function colourBy({ shiftKey, ctrlKey, altKey }) {
  const isMarked = shiftKey || ctrlKey;
  return isMarked && altKey ? "yellow" : isMarked ? "red" : altKey ? "blue" : "green";
}

/** The corners of an arrow between the middles of two squares, on a board of 8 by 8.
 * @param {Corner} from @param {Corner} to */
export function arrowCorners(from, to) {
  const [ax, ay, bx, by] = [from.x + 0.5, from.y + 0.5, to.x + 0.5, to.y + 0.5];
  const length = Math.hypot(bx - ax, by - ay);
  const [ux, uy] = [(bx - ax) / length, (by - ay) / length];
  /** @param {number} along @param {number} aside */
  const at = (along, aside) => `${round(ax + along * ux - aside * uy)},${round(ay + along * uy + aside * ux)}`;
  const neck = length - 0.4;
  return [at(0.25, -0.08), at(neck, -0.08), at(neck, -0.24), at(length, 0), at(neck, 0.24), at(neck, 0.08),
    at(0.25, 0.08)].join(" ");
}

/** @param {number} number */
function round(number) {
  return Math.round(number * 1000) / 1000;
}
