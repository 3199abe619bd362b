/** The list of half-moves, and going back in it. */

import { byId, element, onClick, onClickAt } from "../shell/elements.js";
import { t } from "../shell/texts.js";

/** @type {Record<StepName, (game: Game) => void>} */
const STEPS = {
  first: (game) => game.look(0), back: (game) => game.step(-1), on: (game) => game.step(1),
  last: (game) => game.look(game.last),
};

export class MovesList {
  /** `changed` is called where another place is to be shown.
   * @param {{ readonly shown: Game | null }} games @param {() => void} changed */
  constructor(games, changed) {
    this.games = games;
    this.changed = changed;
    this.list = byId("moves");
    this.key = ""; // of the game, and from where on it is known
    /** @type {string[]} */
    this.shown = []; // the half-moves that stand in the list
    new ResizeObserver(() => this.games.shown?.looking === null && this.showEnd()).observe(this.list);
    onClick("first", () => this.step("first"));
    onClick("previous", () => this.step("back"));
    onClick("next", () => this.step("on"));
    onClick("last", () => this.step("last"));
    onClickAt(this.list, "[data-ply]", (button) => this.go((game) => game.look(Number(button.dataset.ply))));
  }

  /** @param {(game: Game) => void} step */
  go(step) {
    const { shown } = this.games;
    if (shown?.place) {
      step(shown);
      this.changed();
    }
    return Boolean(shown?.place);
  }

  /** Goes back, on, to the first position or to the last one. Whether there is a game to go through.
   * @param {StepName} name */
  step(name) {
    return this.go(STEPS[name]);
  }

  /** Shows the half-moves. Those that are shown already stay as they are: a long game is as light as a short one.
   * @param {Game} game */
  show(game) {
    const halfMoves = game.halfMoves;
    const key = `${game.number} ${game.white} ${game.knownFrom}`;
    const isMore = key === this.key && this.shown.every((it, n) => it === keyOf(halfMoves[n]));
    if (!isMore) {
      this.key = key;
      this.shown = [];
      this.list.replaceChildren(...this.beginning(game));
    }
    if (halfMoves.length !== this.shown.length) {
      halfMoves.slice(this.shown.length).forEach((it) => this.append(it));
      this.shown = halfMoves.map(keyOf);
      requestAnimationFrame(() => this.showEnd()); // with the layout of that frame
    }
    this.mark(game.looking ?? game.last);
  }

  /** Marks the half-move at which one is.
   * @param {number} ply */
  mark(ply) {
    const at = this.list.querySelector(`[data-ply="${ply}"]`);
    const before = this.list.querySelector('[aria-current="true"]');
    if (at !== before) {
      before?.setAttribute("aria-current", "false");
      at?.setAttribute("aria-current", "true");
    }
  }

  /** The next time all is named anew, in another language. */
  rename() {
    this.key = "";
  }

  /** On a narrow screen the list is one line. */
  showEnd() {
    this.list.scrollTo(this.list.scrollWidth, this.list.scrollHeight);
  }

  /** Where a game isn't known from its beginning, from where on it is.
   * @param {Game} game */
  beginning(game) {
    const { ply, move } = game.known[0].board;
    return ply === 0 ? [] : [element("li", "from", t("moves.from", { move }))];
  }

  /** Puts a half-move into the row of its move.
   * @param {HalfMove} halfMove */
  append({ ply, short }) {
    const move = Math.ceil(ply / 2);
    const last = /** @type {HTMLLIElement | null} */ (this.list.lastElementChild);
    const row = last?.value === move ? last : this.row(move);
    const button = element("button", "", short);
    button.dataset.ply = String(ply);
    button.setAttribute("aria-label", t("moves.one", { move, colour: t(ply % 2 ? "white" : "black"), short }));
    button.setAttribute("aria-current", "false");
    row.append(ply % 2 === 0 && !row.children.length ? "… " : "", button);
  }

  /** @param {number} move */
  row(move) {
    const row = element("li");
    row.value = move;
    this.list.append(row);
    return row;
  }
}

/** @param {HalfMove | undefined} halfMove */
function keyOf(halfMove) {
  return halfMove ? `${halfMove.ply} ${halfMove.short}` : "";
}
