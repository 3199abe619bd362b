/** Which sound an event has. */

const CALLS = ["challenge", "partner-asked", "resume-asked"];

/** Of a game's event the name of its sound, or nothing: check before capture before move.
 * @param {Happened} event
 * @returns {SoundName | ""} */
export function soundOf(event) {
  if (CALLS.includes(event.kind)) {
    return "call";
  }
  if (event.kind !== "board" || !event.isHalfMove) {
    return "";
  }
  const { short } = event.board;
  return /[+#]$/.test(short) ? "check" : short.includes("x") ? "capture" : "move";
}

/** Tells once when a player's time has become low in a game, and once more where it has had more since. */
export class LowTime {
  constructor() {
    /** @type {Set<number>} */
    this.told = new Set(); // the games in which it was told
  }

  /** Whether it is to be told now, with so many seconds left.
   * @param {number} game @param {number} left @param {number} below */
  falls(game, left, below) {
    if (left >= below || left <= 0) {
      this.told.delete(game);
      return false;
    }
    const isNew = !this.told.has(game);
    this.told.add(game);
    return isNew;
  }
}
